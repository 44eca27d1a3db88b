"""Every question that a session can ask of a lab, with FRRouting's answer by the tables that are kept."""
from collections import namedtuple

from texts import bits, prefix_word
from translation import dotted, slashed

# kind: the command, with its second word where it has one; line: as a session asks it; present: what FRRouting says
Question = namedtuple("Question", "kind line present")

KINDS = ("rib", "rib via", "bgp", "bgp from", "session", "reach", "every")
OWN_HOPS = (None, "0.0.0.0", "::")


def written_prefixes(config):
    """The prefixes that a file gives: of interfaces, up or not, of static routes, networks and aggregates."""
    process = config["process"] or {"networks": [], "aggregates": []}
    found = {x["prefix"] for x in config["interfaces"] if x["prefix"] is not None}
    return found | {x["prefix"] for x in config["statics"] + process["networks"] + process["aggregates"]}


def with_next(prefixes):
    """The prefixes with the next shorter one around each and a next longer one inside it."""
    shorter = {(a & bits(length - 1), length - 1) for a, length in prefixes if length}
    return prefixes | shorter | {(a, length + 1) for a, length in prefixes if length < 32}


def universe(lab, tables):
    """Each prefix that occurs anywhere, with its next ones, as text and in order."""
    known = {prefix_word(text.encode()) for one in tables["routers"].values() for text in list(one["rib"]) + list(one["bgp"])}
    known |= {prefix for config in lab.routers for prefix in written_prefixes(config)}
    return [slashed(prefix) for prefix in sorted(with_next(known | {(0, 0)}))]


def hops_of(row, active=False):
    """The next hops of a row of a main table, or only those by which it sends."""
    return {hop["ip"] for hop in row["hops"] if hop["ip"] and (hop["active"] or not active)} if row else set()


def neighbors_of(config):
    return [dotted(x["addr"]) for x in config["process"]["neighbors"]] if config["process"] else []


def possible_hops(config, tables, own, prefix):
    """The next hops worth asking about: those of the prefix anywhere, and each neighbor, where the router has it; and of its static routes."""
    found = {dotted(x["hop"]) for x in config["statics"] if slashed(x["prefix"]) == prefix and x["hop"] is not None}
    if prefix in own["rib"]:
        found |= {hop for one in tables["routers"].values() for hop in hops_of(one["rib"].get(prefix))} | set(neighbors_of(config))
        found |= {row["nexthop"] for row in own["bgp"].get(prefix, ()) if row["nexthop"] not in OWN_HOPS}
    return sorted(found)


def of_prefix(name, config, tables, prefix):
    """The questions about a prefix at a router."""
    own = tables["routers"][name]
    row, routes = own["rib"].get(prefix), own["bgp"].get(prefix, [])
    yield Question("rib", f"rib {name} {prefix}", row is not None)
    for hop in possible_hops(config, tables, own, prefix):
        yield Question("rib via", f"rib {name} {prefix} via {hop}", hop in hops_of(row, active=True))
    if config["process"]:
        yield Question("bgp", f"bgp {name} {prefix}", any(route["best"] for route in routes))
    for neighbor in neighbors_of(config):
        accepted = any(route["peer"] == neighbor and route["valid"] for route in routes)
        yield Question("bgp from", f"bgp {name} {prefix} from {neighbor}", accepted)


def questions(lab, tables):
    """All questions of a lab, in order of its routers, and then those about packets."""
    found, prefixes = [], universe(lab, tables)
    for name, config in zip(lab.names, lab.routers):
        for prefix in prefixes:
            found += of_prefix(name, config, tables, prefix)
        states = tables["routers"][name]["sessions"]
        found += [Question("session", f"session {name} {a}", states.get(a, False)) for a in neighbors_of(config)]
    for name, target, sent, count in tables["probes"]:
        found += [Question("reach", f"reach {name} {target}", count > 0), Question("every", f"every {name} {target}", count == sent)]
    return found

"""Routes by BGP: policy, messages, choice, rounds, the stable state, and main tables with its rows.

A table of BGP is a map from (router, prefix) to the chosen candidates, best first; a prefix without one has no key.
"""
from collections import namedtuple

from texts import covers, inside

LONGEST_PATH, MOST_COMMUNITIES, PLAIN_PREFERENCE = 250, 64, 100
EXTERNAL_DISTANCE, INTERNAL_DISTANCE = 20, 200
ORIGIN, AGGREGATE, LEARNT = range(3)

Route = namedtuple("Route", "path hop preference metric origin communities")
Candidate = namedtuple("Candidate", "kind place route internal sender_id sender")
OWN = Route((), 0, PLAIN_PREFERENCE, 0, 0, frozenset())


# --- policy ----------------------------------------------------------------------------------
def deciding_entry(config, name, prefix):
    """(whether it permits, its place among the elements) of the first entry of a prefix list for a prefix, or None."""
    for seq in sorted(config["lists"][name]):
        permit, listed, low, high, place = config["lists"][name][seq]
        if covers(listed, prefix[0]) and low <= prefix[1] <= high:
            return permit, place
    return None


def deciding_community(config, name, held):
    for permit, members, place in config["community lists"][name]:
        if members <= held:
            return permit, place
    return None


def permitting(decided):
    """The places of the entries that decide and permit, in order of the lists."""
    return [found[1] for found in decided if found is not None and found[0]]


def with_sets(clause, route):
    """The route with what the clause sets; None where it grows too long."""
    values = {"preference": clause["local-preference"], "metric": clause["metric"],
              "origin": None if clause["origin"] is None else int(clause["origin"] == [b"incomplete"])}
    route = route._replace(**{field: value for field, value in values.items() if value is not None})
    if clause["prepend"] is not None:
        route = route._replace(path=tuple(clause["prepend"]) + route.path)
    if clause["communities"] is not None:
        values, added = clause["communities"]
        route = route._replace(communities=frozenset(values) | (route.communities if added else frozenset()))
    return None if len(route.path) > LONGEST_PATH or len(route.communities) > MOST_COMMUNITIES else route


def apply(config, name, prefix, route):
    """(route, the elements of the clause and of the entries that decided, by their places), or None where it is denied."""
    if name is None:
        return route, []
    for clause in sorted((k for k in config["clauses"] if k["map"] == name), key=lambda k: k["number"]):
        entries = permitting(deciding_entry(config, n, prefix) for n, _ in clause["lists"])
        communities = permitting(deciding_community(config, n, route.communities) for n, _ in clause["community lists"])
        if (clause["lists"] and not entries) or (clause["community lists"] and not communities):
            continue
        sent = with_sets(clause, route) if clause["permit"] else None
        return None if sent is None else (sent, [clause["element"]] + entries[:1] + communities[:1])
    return None


# --- messages ----------------------------------------------------------------------------------
def held_back(process, prefix):
    return any(x["summary"] and x["prefix"][1] < prefix[1] and inside(prefix, x["prefix"]) for x in process["aggregates"])


def message(net, table, r, n, prefix):
    """(route as it is sent, elements of the sender that decided) to neighbor n of router r, or None."""
    if (r, n) not in net.sessions:
        return None
    s, m, _, back, internal = net.sessions[r, n]
    process = net.routers[s]["process"]
    best = table.get((s, prefix), [None])[0]
    if best is None or held_back(process, prefix) or (internal and best.internal):
        return None
    statement = process["neighbors"][m]
    before = best.route if internal else best.route._replace(metric=0)
    said = apply(net.routers[s], statement["out"][0], prefix, before)
    if said is None:
        return None
    route, named = said
    if not statement["send"]:
        route = route._replace(communities=frozenset())
    source = net.routers[s]["interfaces"][back]["addr"]
    if not internal:
        route = route._replace(path=(process["as"],) + route.path, hop=source, preference=PLAIN_PREFERENCE)
    elif statement["self"] or best.kind != LEARNT:
        route = route._replace(hop=source)
    return None if len(route.path) > LONGEST_PATH else (route, named)


def entry(net, table, r, n, prefix):
    """(candidate, the message, elements of the receiver that decided) where neighbor n's message is accepted, or None."""
    sent = message(net, table, r, n, prefix)
    if sent is None:
        return None
    route, process = sent[0], net.routers[r]["process"]
    if process["as"] in route.path or net.owns(r, route.hop) or not net.hits(r, route.hop):
        return None
    statement = process["neighbors"][n]
    said = apply(net.routers[r], statement["in"][0], prefix, route)
    if said is None:
        return None
    s, _, _, _, internal = net.sessions[r, n]
    return Candidate(LEARNT, n, said[0], internal, net.router_id(s), statement["addr"]), sent[0], said[1]


def contributors(net, table, r, a):
    """The chosen candidates of longer prefixes inside aggregate a of router r: (prefix, place), in order."""
    outer = net.routers[r]["process"]["aggregates"][a]["prefix"]
    inner = sorted(p for s, p in table if s == r and p[1] > outer[1] and inside(p, outer))
    return [(p, k) for p in inner for k in range(len(table[r, p]))]


def candidates(net, table, r, prefix):
    process = net.routers[r]["process"]
    found = [Candidate(ORIGIN, k, OWN, False, 0, 0) for k, x in enumerate(process["networks"])
             if x["prefix"] == prefix and any(row[0] == prefix for row in net.tables[r])]
    found += [Candidate(AGGREGATE, k, OWN, False, 0, 0) for k, x in enumerate(process["aggregates"]) if x["prefix"] == prefix and contributors(net, table, r, k)]
    entries = [entry(net, table, r, n, prefix) for n in range(len(process["neighbors"]))]
    return found + [e[0] for e in entries if e is not None]


# --- choice --------------------------------------------------------------------------------------
def preference(c):
    return (c.kind, -c.route.preference, len(c.route.path), c.route.origin, c.route.metric, c.internal, c.sender_id, c.sender)


def equally_good(best, c, relax):
    def alike(x):
        return x.kind, x.internal, x.route.preference, x.route.origin, x.route.metric, len(x.route.path) if relax else x.route.path

    return alike(best) == alike(c)


def choose(found, limit, relax):
    """The chosen candidates, best first."""
    ordered = sorted(found, key=preference)
    if not ordered or ordered[0].kind != LEARNT or ordered[0].internal:
        return ordered[:1]
    return [c for c in ordered if equally_good(ordered[0], c, relax)][:limit]


# --- rounds --------------------------------------------------------------------------------------
def next_table(net, table, prefixes):
    """What is chosen of the candidates that come from a table."""
    rows = {}
    for r, c in enumerate(net.routers):
        for prefix in prefixes if c["process"] else []:
            chosen = choose(candidates(net, table, r, prefix), c["process"]["paths"], c["process"]["relax"])
            if chosen:
                rows[r, prefix] = chosen
    return rows


def settle(net, rounds):
    """Whether the network settles within so many rounds; its table is then the stable one."""
    processes = [c["process"] for c in net.routers if c["process"]]
    prefixes = sorted({x["prefix"] for b in processes for x in b["networks"] + b["aggregates"]})
    table = {}
    for _ in range(rounds):
        following = next_table(net, table, prefixes)
        if following == table:
            net.bgp = table
            return True
        table = following
    return False


# --- of the stable state -----------------------------------------------------------------------
def chosen_at(net, r, prefix):
    return net.bgp.get((r, prefix), [])


def message_of(net, r, n, prefix):
    return message(net, net.bgp, r, n, prefix)


def entry_of(net, r, n, prefix):
    return entry(net, net.bgp, r, n, prefix)


def contributors_of(net, r, a):
    return contributors(net, net.bgp, r, a)


def bgp_side(net, r, prefix):
    """(distance, rows) that BGP gives a prefix; without any, no rows."""
    process = net.routers[r]["process"]
    for k, x in enumerate(process["aggregates"] if process else []):
        if x["prefix"] == prefix and contributors_of(net, r, k):
            return INTERNAL_DISTANCE, [(prefix, ("Aggregate", r, k), None)]
    chosen = chosen_at(net, r, prefix)
    if not chosen or chosen[0].kind != LEARNT:
        return 256, []
    distance = INTERNAL_DISTANCE if chosen[0].internal else EXTERNAL_DISTANCE
    return distance, [(prefix, ("Chosen", r, prefix, k), c.route.hop) for k, c in enumerate(chosen)]


def base_side(net, r, prefix):
    """(distance, rows) that the base table gives a prefix."""
    statics, distance, rows = net.routers[r]["statics"], 256, []
    for k, (at, kind, place) in enumerate(net.tables[r]):
        if at == prefix:
            distance = statics[place]["distance"] if kind else 0
            rows.append((prefix, ("Base", r, k), statics[place]["hop"] if kind else None))
    return distance, rows


def main_table(net, r):
    """The rows of a main table: (prefix, the fact from which the row comes, next hop or None)"""
    if net.main is None:
        net.main = {}
    if r not in net.main:
        process = net.routers[r]["process"]
        prefixes = {row[0] for row in net.tables[r]} | {p for s, p in net.bgp if s == r} | {x["prefix"] for x in (process["aggregates"] if process else [])}
        net.main[r] = []
        for prefix in sorted(prefixes):
            base, bgp = base_side(net, r, prefix), bgp_side(net, r, prefix)
            net.main[r] += base[1] if base[1] and base[0] <= bgp[0] else bgp[1]
    return net.main[r]

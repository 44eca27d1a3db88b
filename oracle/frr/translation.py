"""A router's configuration in the words of FRRouting, so that both mean the same."""
import hashlib
import itertools

from network import Net
from trees import dotted

# For an update-source without an address: of no router, so no session starts from it.
NOWHERE = "203.0.113.255"


def slashed(prefix):
    return f"{dotted(prefix[0])}/{prefix[1]}"


def word(permit):
    return "permit" if permit else "deny"


def devices_of(config):
    """The device of each interface, by its name; None where it isn't up."""
    kind = {x["name"]: "lo" if x["name"].startswith(b"Loopback") else "e" for x in config["interfaces"]}
    return {x["name"]: f"{kind[x['name']]}{k}" if x["up"] else None for k, x in enumerate(config["interfaces"])}


def interface_lines(config, devices):
    """A comment for each interface that is up: its device and address."""
    ups = [(devices[x["name"]], x) for x in config["interfaces"] if x["up"]]
    return [f"! {device} is {x['name'].decode()}, {dotted(x['addr'])}/{x['prefix'][1]}" for device, x in ups]


def static_lines(config, devices):
    """Static routes; one through an interface that isn't up has no device, and is left out."""
    lines = []
    for route in config["statics"]:
        device = "" if route["name"] is None else devices[route["name"]]
        if device is not None:
            hop = "Null0" if route["hop"] is None else dotted(route["hop"])
            lines.append(" ".join(f"ip route {slashed(route['prefix'])} {hop} {device} {route['distance']}".split()))
    return lines


def bounds(prefix, low, high):
    if low > prefix[1]:
        return f" ge {low} le {high}"
    return f" le {high}" if high > low else ""


def list_lines(config):
    """Prefix lists and community lists."""
    lines = []
    for name, entries in config["lists"].items():
        for seq, (permit, prefix, low, high, _) in sorted(entries.items()):
            lines.append(f"ip prefix-list {name.decode()} seq {seq} {word(permit)} {slashed(prefix)}{bounds(prefix, low, high)}")
    for name, entries in config["community lists"].items():
        kind = name.decode() if name.isdigit() else "standard " + name.decode()
        lines += [f"bgp community-list {kind} {word(permit)} {communities(members)}" for permit, members, _ in entries]
    return lines


def communities(members):
    return " ".join(f"{n >> 16}:{n & 65535}" for n in sorted(members))


def set_lines(clause):
    """What a clause sets."""
    lines = [f" set {field} {clause[field]}" for field in ("local-preference", "metric") if clause[field] is not None]
    if clause["prepend"] is not None:
        lines.append(" set as-path prepend " + " ".join(map(str, clause["prepend"])))
    if clause["origin"] is not None:
        lines.append(" set origin " + clause["origin"][0].decode())
    if clause["communities"] is not None:
        values, added = clause["communities"]
        lines.append(f" set community {communities(values)}{' additive' if added else ''}")
    return lines


def map_lines(config):
    """Route maps. FRRouting takes one list a `match`, so a clause with several lists becomes several, numbered anew."""
    lines, count = [], {}
    for clause in sorted(config["clauses"], key=lambda c: (c["map"], c["number"])):
        kinds = [[name.decode() for name, _ in clause[kind]] or [None] for kind in ("lists", "community lists")]
        for prefixes, members in itertools.product(*kinds):
            name = clause["map"].decode()
            count[name] = count.get(name, 0) + 1
            lines.append(f"route-map {name} {word(clause['permit'])} {count[name]}")
            lines += [] if prefixes is None else [f" match ip address prefix-list {prefixes}"]
            lines += [] if members is None else [f" match community {members}"]
            lines += (set_lines(clause) if clause["permit"] else []) + ["exit"]
    return lines


def source_of(config, name):
    """The address from which a session starts: that of the interface, also where it isn't up, for then it can't be used."""
    found = [x["addr"] for x in config["interfaces"] if x["name"] == name and x["addr"] is not None]
    return dotted(found[0]) if found else NOWHERE


def neighbor_lines(config, neighbor):
    at = f" neighbor {dotted(neighbor['addr'])}"
    lines = [f"{at} remote-as {neighbor['as']}", f"{at} timers connect 1", f"{at} advertisement-interval 0"]
    if neighbor["source"][0] is not None:
        lines.append(f"{at} update-source {source_of(config, neighbor['source'][0])}")
    lines += [f"{at} ebgp-multihop"] if neighbor["multihop"] else []
    return lines + ([f"{at} shutdown"] if neighbor["shut"] else [])


def exchange_lines(neighbor):
    """What is said of a neighbor's routes."""
    at = f"  neighbor {dotted(neighbor['addr'])}"
    lines = [f"{at} activate"] + ([] if neighbor["send"] else [f"  no{at[1:]} send-community"])
    lines += [f"{at} next-hop-self"] if neighbor["self"] else []
    return lines + [f"{at} route-map {neighbor[way][0].decode()} {way}" for way in ("in", "out") if neighbor[way][0] is not None]


def process_lines(config, router_id):
    """The BGP process, with what this project fixes and FRRouting leaves open."""
    process = config["process"]
    lines = [f"router bgp {process['as']}", f" bgp router-id {dotted(router_id)}", " no bgp ebgp-requires-policy", " bgp always-compare-med",
             " bgp bestpath compare-routerid", " bgp network import-check", " timers bgp 3 9"]
    lines += [" bgp bestpath as-path multipath-relax"] if process["relax"] else []
    for neighbor in process["neighbors"]:
        lines += neighbor_lines(config, neighbor)
    lines += [" address-family ipv4 unicast", f"  maximum-paths {process['paths']}", "  maximum-paths ibgp 1"]
    lines += [f"  network {slashed(x['prefix'])}" for x in process["networks"]]
    lines += [f"  aggregate-address {slashed(x['prefix'])}{' summary-only' if x['summary'] else ''}" for x in process["aggregates"]]
    for neighbor in process["neighbors"]:
        lines += exchange_lines(neighbor)
    return lines + [" exit-address-family", "exit"]


def translated(config, router_id, via_default=False):
    """The text that FRRouting reads for a router."""
    devices = devices_of(config)
    lines = ["frr defaults traditional", f"hostname {config['name'].decode()}", f"{'' if via_default else 'no '}ip nht resolve-via-default"]
    lines += interface_lines(config, devices) + static_lines(config, devices) + list_lines(config) + map_lines(config)
    lines += process_lines(config, router_id) if config["process"] else []
    return "".join(line + "\n" for line in lines)


def texts_of(lab):
    """What FRRouting reads for each router of a lab."""
    net = Net(lab.routers)
    return [translated(config, net.router_id(r), lab.via_default) for r, config in enumerate(lab.routers)]


def digest(lab):
    """A checksum of all that FRRouting is told of a lab."""
    return hashlib.sha256("".join(texts_of(lab)).encode()).hexdigest()

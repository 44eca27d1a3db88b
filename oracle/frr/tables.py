"""What FRRouting says of a lab, as it is kept in tables.json: its tables without what changes with time, and which flows arrived."""
import json

COMMANDS = ["show ip route json"]
COMMANDS_OF_BGP = ["show bgp ipv4 unicast json", "show bgp neighbors json"]


def documents(text):
    """The JSON objects that stand one behind the other in a text."""
    found, decoder, at = [], json.JSONDecoder(), text.find("{")
    while at >= 0:
        document, at = decoder.raw_decode(text, at)
        found.append(document)
        at = text.find("{", at)
    return found


def discards(hop):
    return bool(hop.get("unreachable") or hop.get("blackhole"))


def place(hop, names):
    return {"ip": hop.get("ip"), "iface": names.get(hop.get("interfaceName"))}


def in_order(hops):
    return sorted(hops, key=lambda hop: (hop["ip"] or "", hop["iface"] or ""))


def main_row(entry, names):
    """A row of the main table. `resolved` has the next hops by which others are reached."""
    hops = [hop for hop in entry.get("nexthops", []) if not discards(hop)]
    own = [{**place(hop, names), "active": bool(hop.get("active")), "recursive": bool(hop.get("recursive"))}
           for hop in hops if not hop.get("resolver")]
    return {"protocol": entry["protocol"], "distance": entry.get("distance", 0), "metric": entry.get("metric", 0),
            "installed": bool(entry.get("installed")), "discard": any(map(discards, entry.get("nexthops", []))),
            "hops": in_order(own), "resolved": in_order([place(hop, names) for hop in hops if hop.get("resolver")])}


def path_row(path):
    """A route of the BGP table."""
    row = {"peer": path.get("peerId"), "kind": path.get("pathFrom"), "nexthop": (path.get("nexthops") or [{}])[0].get("ip"),
           "path": path.get("path", ""), "metric": path.get("metric", 0), "pref": path.get("locPrf"), "weight": path.get("weight", 0),
           "origin": path.get("origin")}
    return {**row, "best": bool(path.get("bestpath")), **{key: bool(path.get(key)) for key in ("valid", "multipath", "suppressed")}}


def normal(replies, names):
    """A router's tables of what its daemons answered; names has the interface of each device."""
    main = {prefix: main_row(entry, names) for prefix, entries in replies[0].items() for entry in entries if entry.get("selected")}
    routes, sessions = {}, {}
    if len(replies) > 1:
        for prefix, paths in replies[1].get("routes", {}).items():
            routes[prefix] = sorted(map(path_row, paths), key=lambda row: (row["peer"] or "", row["nexthop"] or ""))
        sessions = {a: said.get("bgpState") == "Established" for a, said in replies[2].items() if isinstance(said, dict)}
    return {"rib": main, "bgp": routes, "sessions": sessions}


def read_tables(daemons, r, config):
    """The tables of a router as they are now; None where a daemon doesn't answer."""
    commands = COMMANDS + (COMMANDS_OF_BGP if config["process"] else [])
    replies = documents(daemons.ask(r, commands))
    names = {device: name.decode() for name, device in daemons.spaces.devices[r].items() if device is not None}
    return normal(replies, names) if len(replies) == len(commands) else None


def written(value, depth=0):
    """JSON without blanks, keys in order, a line for each row of a table and each probe."""
    if depth == 4 or not isinstance(value, (dict, list)) or not value:
        return json.dumps(value, sort_keys=True, separators=(",", ":"))
    if isinstance(value, list):
        return "[\n" + ",\n".join(written(item, 4) for item in value) + "\n]"
    return "{\n" + ",\n".join(f"{json.dumps(key)}:{written(value[key], depth + 1)}" for key in sorted(value)) + "\n}"


def store(path, tables):
    with open(path, "w", encoding="utf-8") as file:
        file.write(written(tables) + "\n")


def arrived(probe):
    """Whether no flow, some or all of them arrived."""
    _, _, sent, count = probe
    return "none" if count == 0 else "all" if count == sent else "some"


def differing(stored, anew, at=""):
    """The places at which two dumps of tables differ."""
    if isinstance(stored, dict) and isinstance(anew, dict):
        keys = sorted(set(stored) | set(anew))
        return [place for key in keys for place in differing(stored.get(key), anew.get(key), f"{at}/{key}" if at else key)]
    return [] if stored == anew else [at]


def differences(stored, anew):
    """The places at which what is stored isn't what came of another run: of tables each value, of probes whether none, some or all arrived."""
    kept, found = ({(probe[0], probe[1]): arrived(probe) for probe in dump["probes"]} for dump in (stored, anew))
    probes = [f"probes/{router}/{address}" for router, address in sorted(set(kept) | set(found))
              if kept.get((router, address)) != found.get((router, address))]
    told = differing(stored["translation"], anew["translation"], "translation")
    return told + differing(stored["routers"], anew["routers"], "routers") + probes

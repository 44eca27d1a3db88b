"""The configuration of a file: its blocks, its elements, its faults."""
from filters import in_list, judged
from statements import LAST_SEQ, SYNTAX, UNSUPPORTED, statement
from texts import bits, words

SEQ_STEP = 5
TWO_PROCESSES = b"two-processes"


class Fault(Exception):
    pass


def behind_banner(lines, k):
    """The number of the last line of the banner that begins in line k, from 1, or None where nothing closes it; the cause of its fault or None."""
    opened = lines[k - 1].find(b"^C")
    if opened < 0:
        return k, UNSUPPORTED
    if lines[k - 1].find(b"^C", opened + 2) >= 0:
        return k, None
    closing = [n for n in range(k + 1, len(lines) + 1) if b"^C" in lines[n - 1]]
    return (closing[0], None) if closing else (None, SYNTAX)


def block_of(what):
    """The block that an unindented statement opens: its kind and by what it is told from others, or None."""
    if what[0] in ("interface", "access list"):
        return what
    if what[0] == "router bgp":
        return ("bgp",)
    return ("clause", what[1][:2]) if what[0] == "clause" else None


def one_process(asn, what):
    """The statement as it is behind a process of this number, or behind none."""
    if what[0] != "router bgp" or asn in (None, what[1]):
        return what
    return ("fault", TWO_PROCESSES)


def in_block(w, block):
    """What an indented statement says in its block, or in none."""
    if block is not None and block[0] == "access list":
        return in_list(w, *block[1:])
    return statement(w, "no block" if block is None else block[0])


def sayings_of(lines):
    """[(line number, the block in which it is or None, what it says)]"""
    said, k, current, asn = [], 0, None, None
    while k < len(lines):
        line, w = lines[k], words(lines[k])
        k += 1
        if not w or w[0][:1] == b"!":
            continue
        if line[:1] in (b" ", b"\t"):
            said.append((k, current, in_block(w, current)))
        elif w[0] == b"banner":
            last, cause = behind_banner(lines, k)
            if cause is not None:
                said.append((k, None, ("fault", cause)))
            k = len(lines) if last is None else last
        else:
            what = one_process(asn, statement(w, "none"))
            current = block_of(what)
            asn = what[1] if what[0] == "router bgp" else asn
            said.append((k, None, what))
    return said


def counted(said):
    """The same, each entry of a prefix list with its seq: one that isn't written counts on from the highest so far."""
    out, highest = [], {}
    for n, block, what in said:
        if what[0] == "entry":
            name, seq = what[1][:2]
            seq = highest.get(name, 0) + SEQ_STEP if seq is None else seq
            highest[name] = max(highest.get(name, 0), seq)
            what = ("entry", (name, seq) + what[1][2:]) if seq <= LAST_SEQ else ("fault", SYNTAX)
        out.append((n, block, what))
    return out


def key_of(n, block, what):
    """By what the element of a statement in line n is told from others; None where it has none."""
    if what[0] in ("interface", "clause", "router bgp"):
        return block_of(what)
    if what[0] in ("neighbor", "network", "aggregate"):
        return what[:2]
    if what[0] == "route":
        return ("route",) + what[1][:3]
    if what[0] == "entry":
        return ("entry",) + what[1][:2]
    if what[0] in ("community entry", "filter"):
        return (what[0], n)
    if what[0] == "group":
        return ("group", block[1], what[1])
    return None if what[0] in ("hostname", "outside", "access list") else block


def interface_of(name, place, mine):
    """An interface of these statements, each with its line: the last of each field decides."""
    addresses = [(n, what[1]) for n, what in mine if what[0] == "address"]
    shuts = [what[1] for _, what in mine if what[0] == "shut"]
    line, value = addresses[-1] if addresses else (0, None)
    prefix = None if value is None else (value[0] & bits(value[1]), value[1])
    return {"name": name, "line": line, "addr": None if value is None else value[0], "prefix": prefix,
            "up": value is not None and not (shuts and shuts[-1]), "element": place}


def clause_of(key, place, mine):
    """A clause of these statements: the last of each field decides, and each list that is named is asked."""
    def last(kind):
        return next((what[1] for _, what in reversed(mine) if what[0] == kind), None)

    def named(kind):
        return [(name, n) for n, what in mine if what[0] == kind for name in what[1]]

    clause = {field: last(field) for field in ("local-preference", "metric", "prepend", "origin", "communities")}
    return {**clause, "map": key[0], "number": key[1], "permit": last("clause")[2], "element": place,
            "lists": named("lists"), "community lists": named("community lists")}


def last_of(mine, kind, field):
    """The value of a field and its line, by the last statement of this kind that gives it; (None, 0) without one."""
    given = [(what[-1], n) for n, what in mine if what[0] == kind and what[-2] == field]
    return given[-1] if given else (None, 0)


def neighbor_of(a, place, mine):
    """A neighbor of these statements; what it names stands with its line."""
    def last(field):
        return last_of(mine, "neighbor", field)

    named = {field: last(field) for field in ("source", "in", "out")}
    flags = {field: last(field)[0] is not None for field in ("multihop", "self", "send", "shut")}
    return {**named, **flags, "addr": a, "as": last("as")[0], "element": place}


def process_of(asn, place, mine):
    def last(field):
        return last_of(mine, "process", field)[0]

    return {"as": asn, "id": last("id"), "paths": last("paths") or 1, "relax": last("relax") is not None, "element": place,
            "neighbors": [], "networks": [], "aggregates": []}


def nameless(said):
    """The faults of neighbors that no statement gives an AS number: each at its first line."""
    first, numbered = {}, set()
    for n, _, what in said:
        if what[0] == "neighbor":
            first.setdefault(what[1], n)
            if what[2] == "as":
                numbered.add(what[1])
    return [(n, SYNTAX) for a, n in first.items() if a not in numbered]


def read_file(lines):
    """The configuration of a file, or Fault(line, cause)."""
    said = judged(counted(sayings_of(lines)))
    faults = sorted([(n, what[1]) for n, _, what in said if what[0] == "fault"] + nameless(said))
    if faults:
        raise Fault(*faults[0])
    names = [(n, what[1]) for n, _, what in said if what[0] == "hostname"]
    if not names:
        raise Fault(0, b"no-name")
    config = {"count": len(lines), "name": names[-1][1], "name_line": names[-1][0], "interfaces": [], "statics": [],
              "clauses": [], "lists": {}, "community lists": {}, "filters": {}, "groups": {}, "process": None}
    statements = {}
    for n, block, what in said:
        if key_of(n, block, what) is not None:
            statements.setdefault(key_of(n, block, what), []).append((n, what))
    of_elements = sorted(statements.items(), key=lambda item: item[1][0][0])
    config["elements"] = [(e, [n for n, _ in mine]) for e, mine in of_elements]
    for place, (e, mine) in enumerate(of_elements):
        n, what = mine[-1]
        if e[0] == "interface":
            config["interfaces"].append(interface_of(e[1], place, mine))
        elif e[0] == "route":
            config["statics"].append({"prefix": e[1], "name": e[2], "hop": e[3], "distance": what[1][3], "line": n, "element": place})
        elif e[0] == "clause":
            config["clauses"].append(clause_of(e[1], place, mine))
        elif e[0] == "bgp":
            config["process"] = process_of(next(what[1] for _, what in mine if what[0] == "router bgp"), place, mine)
        elif e[0] == "neighbor":
            config["process"]["neighbors"].append(neighbor_of(e[1], place, mine))
        elif e[0] == "network":
            config["process"]["networks"].append({"prefix": e[1], "element": place})
        elif e[0] == "aggregate":
            config["process"]["aggregates"].append({"prefix": e[1], "summary": what[2], "element": place})
        elif e[0] == "entry":
            config["lists"].setdefault(e[1], {})[e[2]] = what[1][2:] + (place,)
        elif e[0] == "filter":
            config["filters"].setdefault(what[1], []).append(what[2] + (place,))
        elif e[0] == "group":
            config["groups"][e[1:]] = (what[2], place)
        else:
            config["community lists"].setdefault(what[1][0], []).append(what[1][1:] + (place,))
    return config


def references(c):
    """[(line, name, the names that are defined)] of the references in force."""
    opened = {x["name"] for x in c["interfaces"]}
    found = [(t["line"], t["name"], opened) for t in c["statics"] if t["name"] is not None]
    for k in c["clauses"]:
        for kind in ("lists", "community lists"):
            found += [(n, name, c[kind]) for name, n in k[kind]]
    maps = {k["map"] for k in c["clauses"]}
    for b in c["process"]["neighbors"] if c["process"] else []:
        for field, defined in (("source", opened), ("in", maps), ("out", maps)):
            name, n = b[field]
            if name is not None:
                found.append((n, name, defined))
    return found

"""What a statement says, by its words and the block in which it stands; those of a process stand in processes.py, those of access
lists in filters.py."""
from filters import numbered, read_group, read_list_header
from processes import in_process, read_process_header
from texts import address, bits, digits, large, mask, number, prefix_of, starts

LAST_SEQ, LIMIT_COMMUNITIES, LIMIT_PREPENDED = 4294967294, 64, 10
SYNTAX, UNSUPPORTED = b"syntax", b"unsupported"


def read_route(w):
    """(prefix, interface name or None, next hop or None for Null0, distance) or a cause"""
    r = w[2:]
    if r[:1] == [b"vrf"]:
        return UNSUPPORTED
    if len(r) < 2 or prefix_of(r[0], r[1]) is None:
        return SYNTAX
    p, r = prefix_of(r[0], r[1]), r[2:]
    if not r:
        return SYNTAX
    if len(r) > 1 and address(r[1]) is not None:
        name, hop, rest = r[0], address(r[1]), r[2:]
    elif r[0] == b"Null0":
        name, hop, rest = None, None, r[1:]
    elif address(r[0]) is not None:
        name, hop, rest = None, address(r[0]), r[1:]
    else:
        return UNSUPPORTED
    distance = 1
    if rest and number(rest[0], 1, 255) is not None:
        distance, rest = number(rest[0], 1, 255), rest[1:]
    seen, good = [], True
    while rest:
        if rest[0] in (b"permanent", b"track"):
            return UNSUPPORTED
        if rest[0] not in (b"name", b"tag") or len(rest) < 2:
            good = False
            break
        if rest[0] in seen or (rest[0] == b"tag" and digits(rest[1]) is None):
            good = False
        seen.append(rest[0])
        rest = rest[2:]
    return (p, name, hop, distance) if good else SYNTAX


def listed_prefix(w):
    """A/L of one word, its host bits cleared, or None."""
    if w.count(b"/") != 1:
        return None
    a, length = w.split(b"/")
    a, length = address(a), number(length, 0, 32)
    return None if a is None or length is None else (a & bits(length), length)


def read_entry(w):
    """(list's name, seq or None, permit, prefix, low, high) of an `ip prefix-list` line, or a cause"""
    name, r = w[2:3], w[3:]
    seq = None
    if r[:1] == [b"seq"]:
        seq = number(r[1], 1, LAST_SEQ) if len(r) > 1 else None
        if seq is None:
            return SYNTAX
        r = r[2:]
    if not name or len(r) < 2 or r[0] not in (b"permit", b"deny"):
        return SYNTAX
    p, rest, bounds = listed_prefix(r[1]), r[2:], {}
    for which in (b"ge", b"le"):
        if rest[:1] == [which] and len(rest) > 1:
            bounds[which], rest = number(rest[1], 0, 32), rest[2:]
    if p is None or rest or None in bounds.values():
        return SYNTAX
    low = bounds.get(b"ge", p[1])
    high = bounds.get(b"le", 32 if b"ge" in bounds else p[1])
    return (name[0], seq, r[0] == b"permit", p, low, high) if p[1] <= low <= high <= 32 else SYNTAX


def community(w):
    """The number of a community, or None."""
    if b":" not in w:
        return large(w)
    halves = [number(x, 0, 65535) for x in w.split(b":")]
    return None if len(halves) != 2 or None in halves else 65536 * halves[0] + halves[1]


def communities(given):
    """The set of these words, which aren't none; or a cause."""
    values = {community(w) for w in given}
    if None in values:
        return UNSUPPORTED
    return SYNTAX if not given or len(values) > LIMIT_COMMUNITIES else values


def read_community_list(w):
    """(list's name, permit, members) of an `ip community-list` line, a cause, or None where it is outside"""
    r = w[2:]
    if not r:
        return SYNTAX
    if r[0] == b"standard":
        r = r[1:]
    elif number(r[0], 1, 99) is None:
        return None
    if len(r) < 3 or r[1] not in (b"permit", b"deny"):
        return SYNTAX
    members = communities(r[2:])
    return members if isinstance(members, bytes) else (r[0], r[1] == b"permit", members)


def read_clause_header(w):
    """(map's name, number, permit), or a cause"""
    if len(w) != 4 or w[2] not in (b"permit", b"deny") or number(w[3], 0, 65535) is None:
        return SYNTAX
    return (w[1], number(w[3], 0, 65535), w[2] == b"permit")


def read_prepended(rest):
    numbers = [number(x, 1, 4294967295) for x in rest]
    return SYNTAX if not 1 <= len(numbers) <= LIMIT_PREPENDED or None in numbers else numbers


def read_set_community(rest):
    """(values, whether they are added)"""
    added = rest[-1:] == [b"additive"]
    values = communities(rest[:-1] if added else rest)
    return values if isinstance(values, bytes) else (values, added)


def in_clause(w):
    """A statement of a route map's block, as statement() gives it."""
    def judged(kind, got):
        return ("fault", got) if isinstance(got, bytes) else (kind, got)

    if starts(w, "match ip address prefix-list"):
        return judged("lists", w[4:] or SYNTAX)
    if starts(w, "match community"):
        return judged("community lists", UNSUPPORTED if b"exact-match" in w[2:] else w[2:] or SYNTAX)
    for field in ("local-preference", "metric"):
        if starts(w, "set " + field):
            value = large(w[2]) if len(w) == 3 else None
            return judged(field, SYNTAX if value is None else value)
    if starts(w, "set as-path prepend"):
        return judged("prepend", read_prepended(w[3:]))
    if starts(w, "set community"):
        return judged("communities", read_set_community(w[2:]))
    for text in ("set origin igp", "set origin incomplete"):
        if starts(w, text):
            return judged("origin", SYNTAX if len(w) > 3 else [w[2]])
    return ("fault", UNSUPPORTED) if w[0] in (b"continue", b"match", b"set") else ("outside",)


def statement(w, block):
    """A statement of a block ('none', 'interface', 'clause' or 'bgp'): ('outside',), ('fault', cause) or what it says."""
    if block == "clause":
        return in_clause(w)
    if block == "bgp":
        return in_process(w)
    if block == "none":
        if starts(w, "ip route"):
            got = read_route(w)
            return ("fault", got) if isinstance(got, bytes) else ("route", got)
        if starts(w, "ip default-network") or starts(w, "no ip routing") or starts(w, "ip local policy") or starts(w, "ip nat"):
            return ("fault", UNSUPPORTED)
        if w[0] == b"router" and len(w) > 1:
            if w[1] != b"bgp":
                return ("fault", UNSUPPORTED)
            asn = read_process_header(w)
            return ("fault", SYNTAX) if asn is None else ("router bgp", asn)
        if w[0] == b"route-map":
            got = read_clause_header(w)
            return ("fault", got) if isinstance(got, bytes) else ("clause", got)
        if starts(w, "ip prefix-list"):
            if w[2:] == [b"sequence-number"] or w[3:4] == [b"description"]:
                return ("outside",)
            got = read_entry(w)
            return ("fault", got) if isinstance(got, bytes) else ("entry", got)
        if starts(w, "ip community-list"):
            got = read_community_list(w)
            return ("outside",) if got is None else ("fault", got) if isinstance(got, bytes) else ("community entry", got)
        if starts(w, "ip access-list"):
            return read_list_header(w)
        if w[0] == b"access-list":
            return numbered(w)
        if w[0] == b"hostname":
            if len(w) != 2 or not 1 <= len(w[1]) <= 63 or any(not 0x21 <= c <= 0x7E for c in w[1]):
                return ("fault", SYNTAX)
            return ("hostname", w[1])
        if w[0] == b"interface":
            return ("interface", w[1]) if len(w) > 1 else ("fault", SYNTAX)
        return ("outside",)
    if block == "interface":
        for text in ("ip unnumbered", "vrf forwarding", "ip vrf forwarding", "ip policy", "ip nat", "ip address dhcp", "ip address negotiated", "ip address pool"):
            if starts(w, text):
                return ("fault", UNSUPPORTED)
        if starts(w, "ip access-group"):
            return read_group(w)
        if starts(w, "ip address"):
            r = w[2:]
            if len(r) < 2 or address(r[0]) is None or mask(r[1]) is None:
                return ("fault", SYNTAX)
            if r[2:3] == [b"secondary"]:
                return ("fault", UNSUPPORTED)
            if len(r) > 2 or mask(r[1]) == 0:
                return ("fault", SYNTAX)
            return ("address", (address(r[0]), mask(r[1])))
        for text, said in (("no ip address", ("address", None)), ("shutdown", ("shut", True)), ("no shutdown", ("shut", False))):
            if starts(w, text):
                return said if w == text.encode().split() else ("fault", SYNTAX)
        return ("outside",)
    return ("outside",)

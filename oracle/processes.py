"""What the statements of a BGP process say: each alone, by its words."""
from texts import address, mask, number, prefix_of, starts

SYNTAX, UNSUPPORTED = b"syntax", b"unsupported"
LAST_AS, MOST_PATHS, MOST_HOPS = 4294967295, 16, 255

# These are unsupported by their first words, whatever follows.
BEGINNINGS = ["redistribute", "distance", "default-information", "table-map", "distribute-list", "synchronization", "auto-summary", "template", "scope",
              "bgp default", "no bgp default", "bgp confederation", "bgp dampening", "bgp inject-map", "bgp additional-paths", "bgp advertise-best-external"]
OF_NEIGHBOR = ["peer-group", "weight", "default-originate", "route-reflector-client", "allowas-in", "as-override", "remove-private-as", "local-as", "prefix-list",
               "distribute-list", "filter-list", "unsuppress-map", "advertise-map", "inherit", "ttl-security", "disable-connected-check", "next-hop-unchanged",
               "next-hop-self all", "soo", "additional-paths"]
OF_AGGREGATE = [b"as-set", b"suppress-map", b"attribute-map", b"advertise-map"]
OF_NETWORK = [b"route-map", b"backdoor"]
OUTSIDE = ("outside",)


def fault(cause):
    return ("fault", cause)


def read_process_header(w):
    """The AS number of a line that begins with `router bgp`; None where it is malformed."""
    return number(w[2], 1, LAST_AS) if len(w) == 3 else None


def classful(w):
    """The prefix of an address without a mask; None where it has none."""
    a = address(w)
    if a is None:
        return None
    first = a >> 24
    if a == 0:
        length = 0
    elif 1 <= first <= 126:
        length = 8
    elif 128 <= first <= 191:
        length = 16
    elif 192 <= first <= 223:
        length = 24
    else:
        return None
    return (a, length) if a % (1 << (32 - length)) == 0 else None


def read_network(rest):
    if len(rest) > 2 and rest[1] == b"mask" and prefix_of(rest[0], rest[2]) is not None:
        prefix, more = prefix_of(rest[0], rest[2]), rest[3:]
    elif rest and classful(rest[0]) is not None:
        prefix, more = classful(rest[0]), rest[1:]
    else:
        return fault(SYNTAX)
    if not more:
        return ("network", prefix)
    return fault(UNSUPPORTED if more[0] in OF_NETWORK else SYNTAX)


def read_aggregate(rest):
    prefix = prefix_of(rest[0], rest[1]) if len(rest) > 1 else None
    if prefix is None:
        return fault(SYNTAX)
    more = rest[2:]
    if any(option in more for option in OF_AGGREGATE):
        return fault(UNSUPPORTED)
    return ("aggregate", prefix, bool(more)) if more in ([], [b"summary-only"]) else fault(SYNTAX)


def read_neighbor(w):
    """A statement `neighbor W ..`: ("neighbor", address, field, value)"""
    a, rest = address(w[1]), w[2:]
    if a is None or any(starts(rest, text) for text in OF_NEIGHBOR):
        return fault(UNSUPPORTED)
    if not rest:
        return OUTSIDE
    key, more = rest[0], rest[1:]
    if key == b"remote-as":
        value = number(more[0], 1, LAST_AS) if len(more) == 1 else None
        return fault(SYNTAX) if value is None else ("neighbor", a, "as", value)
    if key == b"update-source":
        return ("neighbor", a, "source", more[0]) if len(more) == 1 else fault(SYNTAX)
    if key == b"ebgp-multihop":
        good = not more or (len(more) == 1 and number(more[0], 1, MOST_HOPS) is not None)
        return ("neighbor", a, "multihop", True) if good else fault(SYNTAX)
    if key == b"route-map":
        good = len(more) == 2 and more[1] in (b"in", b"out")
        return ("neighbor", a, more[1].decode(), more[0]) if good else fault(SYNTAX)
    if key == b"send-community":
        if more == [b"extended"]:
            return OUTSIDE
        return ("neighbor", a, "send", True) if more in ([], [b"standard"], [b"both"]) else fault(SYNTAX)
    for word, field in ((b"next-hop-self", "self"), (b"shutdown", "shut"), (b"activate", "active")):
        if key == word:
            return fault(SYNTAX) if more else ("neighbor", a, field, True)
    return OUTSIDE


def read_bgp(w):
    """A statement `bgp ..` that isn't unsupported by its beginning."""
    if starts(w, "bgp router-id"):
        a = address(w[2]) if len(w) == 3 else None
        return fault(SYNTAX) if a is None else ("process", "id", a)
    if starts(w, "bgp always-compare-med"):
        return ("process", "always", True) if len(w) == 2 else fault(SYNTAX)
    if starts(w, "bgp bestpath"):
        if w[2:] == [b"as-path", b"multipath-relax"]:
            return ("process", "relax", True)
        return OUTSIDE if w[2:] == [b"compare-routerid"] else fault(UNSUPPORTED)
    return OUTSIDE


def in_process(w):
    """A statement of a process's block, as statement() gives it."""
    if any(starts(w, text) for text in BEGINNINGS):
        return fault(UNSUPPORTED)
    if w[0] == b"bgp":
        return read_bgp(w)
    if w[0] == b"maximum-paths":
        limit = number(w[1], 1, MOST_PATHS) if len(w) == 2 else None
        return fault(UNSUPPORTED) if limit is None else ("process", "paths", limit)
    if w[0] == b"address-family":
        return ("process", "family", True) if w[1:] in ([b"ipv4"], [b"ipv4", b"unicast"]) else fault(UNSUPPORTED)
    if w[0] == b"exit-address-family":
        return fault(SYNTAX) if len(w) > 1 else ("process", "family", False)
    if w[0] == b"network":
        return read_network(w[1:])
    if w[0] == b"aggregate-address":
        return read_aggregate(w[1:])
    if w[0] == b"neighbor" and len(w) > 1:
        return read_neighbor(w)
    if starts(w, "no neighbor") and len(w) > 3 and address(w[2]) is not None and w[3] == b"activate":
        return fault(UNSUPPORTED)
    return OUTSIDE

"""Access lists: what their statements say, which of them filter interfaces, and which packets they let pass."""
from texts import address, digits, number, starts

STANDARD, EXTENDED = b"standard", b"extended"
NUMBERS = {STANDARD: ((1, 99), (1300, 1999)), EXTENDED: ((100, 199), (2000, 2699))}
ACTIONS = (b"permit", b"deny")
ANY = (0, 4294967295)
OUTSIDE = ("outside",)


# --- statements ------------------------------------------------------------------------------
def read_side(w):
    """(address, wildcard) of the first words, and the words behind them; None and no words where they name no addresses."""
    if w[:1] == [b"any"]:
        return ANY, w[1:]
    a = [address(x) for x in w[:2]]
    if w[:1] == [b"host"] and len(a) == 2 and a[1] is not None:
        return (a[1], 0), w[2:]
    return (tuple(a), w[2:]) if len(a) == 2 and None not in a else (None, [])


def read_source(w):
    """The same of a standard list, where an address may stand alone."""
    side, more = read_side(w)
    if side is None and w and address(w[0]) is not None:
        return (address(w[0]), 0), w[1:]
    return side, more


def read_rest(kind, permit, w):
    """(permits, is of every protocol, from, to) of the words behind `permit` or `deny`; None where the entry is odd."""
    if kind == STANDARD:
        source, more = read_source(w)
        return None if source is None or more not in ([], [b"log"]) else (permit, True, source, ANY)
    if not w:
        return None
    if w[0] != b"ip":
        return permit, False, ANY, ANY
    source, more = read_side(w[1:])
    target, more = read_side(more)
    return None if target is None or more not in ([], [b"log"], [b"log-input"]) else (permit, True, source, target)


def in_list(w, kind, name):
    """A statement in the block of a list: an entry or an odd one, ("filter", list's name, what it says or None), or an outside one."""
    if digits(w[0]) is not None:
        w = w[1:]
    if not w or w[0] not in ACTIONS:
        return OUTSIDE
    return "filter", name, read_rest(kind, w[0] == b"permit", w[1:])


def numbered(w):
    """A statement `access-list ..`."""
    kinds = [kind for kind, ranges in NUMBERS.items() for low, high in ranges if len(w) > 2 and number(w[1], low, high) is not None]
    if not kinds or w[2] not in ACTIONS:
        return OUTSIDE
    return "filter", w[1], read_rest(kinds[0], w[2] == b"permit", w[3:])


def read_list_header(w):
    """A statement `ip access-list ..`: ("access list", its kind, its name) where it opens one."""
    return ("access list", w[2], w[3]) if len(w) == 4 and w[2] in NUMBERS else OUTSIDE


def read_group(w):
    """A statement `ip access-group ..`: ("group", whether it filters what comes in, list's name)"""
    return ("group", w[3] == b"in", w[2]) if len(w) == 4 and w[3] in (b"in", b"out") else OUTSIDE


def judged(said):
    """The statements of a file, each odd entry as a fault where a filter in force names its list, and outside where none does."""
    in_force = {(block, what[1]): what[2] for _, block, what in said if what[0] == "group"}
    applied = set(in_force.values())

    def of(what):
        if what[0] != "filter" or what[2] is not None:
            return what
        return ("fault", b"unsupported") if what[1] in applied else OUTSIDE

    return [(n, block, of(what)) for n, block, what in said]


# --- packets -----------------------------------------------------------------------------------
def agrees(side, a):
    """Whether an address agrees with that of an entry in every bit that is 0 in the wildcard."""
    return not (a ^ side[0]) & ~side[1]


def passing(c, k, inward, source, target):
    """The elements, by their places, by which interface k of a router lets a packet in or out, none where it has no list with an entry;
    None where it denies the packet."""
    name, place = c["groups"].get((c["interfaces"][k]["name"], inward), (None, None))
    entries = c["filters"].get(name, [])
    if not entries:
        return []
    for permit, every, source_side, target_side, element in entries:
        if every and agrees(source_side, source) and agrees(target_side, target):
            return [place, element] if permit else None
    return None

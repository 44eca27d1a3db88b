"""Networks with access lists at their interfaces, by size, and what is asked of each."""
from statements import LAN, dotted, interface, route

SIDES = 0x0A000000
HOSTS = 0x14000000
STRANGERS = 0x1E000000


def side(spine, leaf, end):
    """Returns the address of an end of the link between a spine and a leaf: 1 at the spine, 2 at the leaf."""
    return dotted(SIDES + spine * 65536 + leaf * 256 + end)


def host(leaf, number):
    """Returns the address of a host of a leaf."""
    return dotted(HOSTS + leaf * 256 + number)


def lists(place, leaves, count):
    """Returns three lists, each of which denies so many strangers each a few hosts, and lets all others pass."""
    denied = []
    for number in range(count):
        stranger, few = dotted(STRANGERS + place * 65536 + number), host(number % leaves, number % 200 + 20)
        denied.append(f" deny ip host {stranger} {few} 0.0.0.3")
    lines = [" permit tcp any any eq 80", *denied, " permit ip any any"]
    return [line for name in ("UP", "FABRIC", "HOSTS") for line in (f"ip access-list extended {name}", *lines)]


def leaf_router(leaf, spines, leaves, count):
    """Returns the file of a leaf, with routes over all spines to the hosts of all others."""
    lines = [f"hostname leaf{leaf}"]
    for spine in range(spines):
        lines += [*interface(f"Up{spine}", side(spine, leaf, 2)), " ip access-group UP out", " ip access-group FABRIC in"]
    lines += [*interface("Lan0", host(leaf, 1), LAN), " ip access-group HOSTS out"]
    for other in range(leaves):
        if other != leaf:
            lines += [route(HOSTS + other * 256, side(spine, leaf, 1)) for spine in range(spines)]
    return lines + lists(leaf, leaves, count)


def spine_router(spine, leaves, count):
    """Returns the file of a spine, with a route to the hosts of each leaf."""
    lines = [f"hostname spine{spine}"]
    for leaf in range(leaves):
        lines += [*interface(f"Down{leaf}", side(spine, leaf, 1)), " ip access-group FABRIC in", " ip access-group UP out"]
    lines += [route(HOSTS + leaf * 256, side(spine, leaf, 2)) for leaf in range(leaves)]
    return lines + lists(leaves + spine, leaves, count)


def fabric(spines, leaves, count):
    """Leaves with a link to each spine, and lists of so many entries at both ends of each link and toward the hosts."""
    files = [(f"leaf{leaf}.cfg", leaf_router(leaf, spines, leaves, count)) for leaf in range(leaves)]
    return files + [(f"spine{spine}.cfg", spine_router(spine, leaves, count)) for spine in range(spines)]


def fabric_rows(spines, leaves, count, flows):
    packets = [f"reach leaf{leaf} {host((leaf + 1) % leaves, 9)}" for leaf in range(leaves)]
    asked = [f"flow leaf{it % leaves} {host(it % leaves, it % 200 + 20)} {host((it * 7 + 3) % leaves, it % 150 + 30)}" for it in range(flows)]
    return [(f"{leaves} tests of packets", packets), (f"and {flows:,} flows, and `json`, `suite` and `dead`", [*asked, "json", "suite", "dead"])]

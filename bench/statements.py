"""Statements of configuration files, and the addresses that generated networks use."""

LINK = "255.255.255.252"
LAN = "255.255.255.0"
SEGMENT = "255.255.0.0"
HOST = "255.255.255.255"
TESTED = 0x14000000
INSIDE = 0x0A000000


def dotted(address):
    """Returns an address as it is written."""
    return ".".join(str(address >> shift & 255) for shift in (24, 16, 8, 0))


def tested(number):
    """Returns the address of the tested network of a number, which has 24 bits."""
    return TESTED + number * 256


def on_segment(place):
    """Returns the address of a router on the segment that all share."""
    return dotted(INSIDE + place + 1)


def link_end(link, end):
    """Returns the address of an end, 1 or 2, of a link of a number."""
    return dotted(INSIDE + 4 * link + end)


def interface(name, address, mask=LINK):
    """Returns the lines of an interface."""
    return [f"interface {name}", f" ip address {address} {mask}"]


def route(address, hop, mask=LAN):
    """Returns the line of a static route."""
    return f"ip route {dotted(address)} {mask} {hop}"


def discards(numbers):
    """Returns static routes that discard what is for these tested networks."""
    return [route(tested(it), "Null0") for it in numbers]


def networks(numbers):
    """Returns the lines by which a process announces these tested networks."""
    return [f" network {dotted(tested(it))} mask {LAN}" for it in numbers]


def neighbor(address, system, *more):
    """Returns the lines of a neighbor, with what else is said of it."""
    return [f" neighbor {address} remote-as {system}", *(f" neighbor {address} {it}" for it in more)]


def prefix(number):
    """Returns a tested network as a session writes it."""
    return f"{dotted(tested(number))}/24"

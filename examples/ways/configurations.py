"""What the scripts of this folder know of configuration files: enough to make tests of them.

What a line does is decided by NetCov alone. This reading only finds the names, addresses and prefixes that tests are made
of; where it is wrong, a test is missing or is refused, and no mark changes.
"""
import ipaddress
from dataclasses import dataclass, field

from texts import lines_of


def network(address, mask):
    """The prefix of an address and a mask or length; None where they are none."""
    try:
        return ipaddress.ip_network(f"{address}/{mask}", strict=False)
    except ValueError:
        return None


def classful(address):
    """The prefix of a network without a mask."""
    first = int(address.split(".")[0])
    return network(address, 0 if address == "0.0.0.0" else 8 if first < 128 else 16 if first < 192 else 24)


def is_address(word):
    """Whether a word is an address."""
    try:
        ipaddress.IPv4Address(word)
    except ValueError:
        return False
    return True


ALL = 2**32 - 1
STANDARD = (*range(1, 100), *range(1300, 2000))


def agrees(end, address):
    """Whether an address agrees with an end of an entry in every bit that is 0 in the wildcard."""
    return not (address ^ end[0]) & ~end[1]


def end_of(words):
    """The end of an entry with which some words begin, and the words behind it."""
    if words[0] == "any":
        return (0, ALL), words[1:]
    address = int(ipaddress.IPv4Address(words[words[0] == "host"]))
    if words[0] == "host" or len(words) < 2 or not is_address(words[1]):
        return (address, 0), words[1 + (words[0] == "host"):]
    return (address, int(ipaddress.IPv4Address(words[1]))), words[2:]


@dataclass
class Interface:
    """An interface with what its statements set."""

    name: str
    address: str = None
    prefix: object = None
    shut: bool = False

    @property
    def up(self):
        """Whether the interface has an address and is open."""
        return self.address is not None and not self.shut


@dataclass
class Neighbor:
    """A BGP neighbor with what its statements set; maps has its route maps by direction."""

    address: str
    system: str = None
    source: str = None
    shut: bool = False
    multihop: bool = False
    maps: dict = field(default_factory=dict)


@dataclass
class Clause:
    """A clause of a route map with the lists that it names."""

    name: str
    permit: bool
    prefix_lists: list = field(default_factory=list)
    community_lists: list = field(default_factory=list)


@dataclass
class Entry:
    """An entry of a prefix list or of a community list."""

    kind: str
    list: str
    permit: bool
    prefix: object = None
    low: int = 0
    high: int = 32

    def holds(self, prefix):
        """Whether an entry of a prefix list is of this prefix."""
        return prefix.subnet_of(self.prefix) and self.low <= prefix.prefixlen <= self.high


@dataclass
class Permission:
    """An entry of an access list: its ends are an address and a wildcard each, and `ip` says whether it is of every protocol."""

    list: str
    permit: bool
    ip: bool = True
    source: tuple = (0, ALL)
    target: tuple = (0, ALL)

    def is_of(self, source, target):
        """Whether it is of a packet between these addresses."""
        return self.ip and agrees(self.source, source) and agrees(self.target, target)

    def takes_all(self, other):
        """Whether it is of all packets of which another entry is."""
        ends = ((self.source, other.source), (self.target, other.target))
        return self.ip and all(agrees(mine, theirs[0]) and not theirs[1] & ~mine[1] for mine, theirs in ends)


@dataclass
class Filter:
    """The filter of an interface for what comes in or goes out, with the name of its list."""

    interface: Interface
    way: str
    list: str


@dataclass
class Static:
    """A static route; distance is what its line says, or 1."""

    prefix: object
    hop: str = None
    distance: int = 1


@dataclass
class Line:
    """A line of a file: its number from 1, its text, the header of its block, and the thing that it speaks of."""

    number: int
    text: str
    header: str
    thing: object = None
    banner: bool = False


class Router:
    """A file, read as far as tests need it."""

    def __init__(self, file):
        self.file, self.name, self.system = file, None, None
        self.lines, self.interfaces, self.neighbors, self.clauses = [], {}, {}, {}
        self.networks, self.aggregates, self.statics, self.entries = {}, {}, [], []
        self.permissions, self.filters = [], {}
        header, banner = "", False
        for number, text in enumerate(lines_of(open(file, "rb").read()), 1):
            words = text.split()
            starts = bool(words) and words[0] == "banner" and not text[0].isspace()
            line = Line(number, text, header if text[:1].isspace() else "")
            self.lines.append(line)
            if banner or starts:
                line.banner = True
                banner = "^C" not in text if banner else text.count("^C") == 1
                continue
            if not words or words[0].startswith("!"):
                continue
            if not text[0].isspace():
                header = text
            line.thing = self.thing_of(words, line.header.split())

    def thing_of(self, words, header):
        """What a line speaks of; None where tests know nothing of it."""
        try:
            return self.in_block(words, header) if header else self.at_top(words)
        except (IndexError, ValueError):
            return None

    def at_top(self, words):
        """What a line that isn't indented speaks of."""
        if words[0] == "hostname":
            self.name = words[1]
        if words[0] == "interface":
            return self.interfaces.setdefault(words[1], Interface(words[1]))
        if words[:2] == ["router", "bgp"]:
            self.system = words[2]
            return self
        if words[:2] == ["ip", "route"] and network(words[2], words[3]):
            self.statics.append(self.static_of(words[2:]))
            return self.statics[-1]
        if words[0] == "route-map":
            return self.clauses.setdefault((words[1], words[3]), Clause(words[1], words[2] == "permit"))
        if words[:2] in (["ip", "prefix-list"], ["ip", "community-list"]):
            entry = self.prefix_entry(words[2:]) if words[1] == "prefix-list" else self.community_entry(words[2:])
            self.entries.append(entry)
            return entry
        if words[0] == "access-list":
            return self.permission(words[1], words[2:], int(words[1]) in STANDARD)
        return None

    def permission(self, name, words, standard):
        """An entry of an access list, of the words from its number or its action on; None where it is none."""
        words = words[1:] if words[0].isdigit() else words
        if words[0] not in ("permit", "deny"):
            return None
        entry = Permission(name, words[0] == "permit")
        if standard:
            entry.source, _ = end_of(words[1:])
        elif words[1] == "ip":
            entry.source, rest = end_of(words[2:])
            entry.target, _ = end_of(rest)
        else:
            entry.ip = False
        self.permissions.append(entry)
        return entry

    @staticmethod
    def static_of(words):
        """A static route, of the words behind `ip route`."""
        place = next((k for k, word in enumerate(words[:4]) if k > 1 and is_address(word)), None)
        behind = words[(2 if place is None else place) + 1 :]
        distance = int(behind[0]) if behind and behind[0].isdigit() else 1
        return Static(network(words[0], words[1]), words[place] if place else None, distance)

    @staticmethod
    def prefix_entry(words):
        """The entry of a prefix list."""
        name, rest = words[0], words[3:] if words[1] == "seq" else words[1:]
        prefix = ipaddress.ip_network(rest[1], strict=False)
        bounds = dict(zip(rest[2::2], map(int, rest[3::2])))
        low = bounds.get("ge", prefix.prefixlen)
        return Entry("prefix", name, rest[0] == "permit", prefix, low, bounds.get("le", 32 if "ge" in bounds else low))

    @staticmethod
    def community_entry(words):
        """The entry of a community list."""
        words = words[1:] if words[0] == "standard" else words
        return Entry("community", words[0], words[1] == "permit")

    def in_block(self, words, header):
        """What an indented line speaks of."""
        if header[0] == "interface":
            return self.of_interface(self.interfaces[header[1]], words)
        if header[:2] == ["router", "bgp"]:
            return self.of_process(words)
        if header[:2] == ["ip", "access-list"]:
            return self.permission(header[3], words, header[2] == "standard")
        if header[0] == "route-map":
            return self.of_clause(self.clauses[header[1], header[3]], words)
        return None

    def of_interface(self, interface, words):
        """A line of an interface's block."""
        if words[:2] == ["ip", "access-group"]:
            return self.filter_of(interface, words[2:])
        if words[:2] == ["ip", "address"]:
            interface.address, interface.prefix = words[2], network(words[2], words[3])
        if words[:3] == ["no", "ip", "address"]:
            interface.address = None
        if words in (["shutdown"], ["no", "shutdown"]):
            interface.shut = words == ["shutdown"]
        return interface

    def filter_of(self, interface, words):
        """The filter of an interface in a direction; None where a line is none."""
        if len(words) != 2 or words[1] not in ("in", "out"):
            return None
        found = self.filters.setdefault((interface.name, words[1]), Filter(interface, words[1], words[0]))
        found.list = words[0]
        return found

    def permissions_of(self, name):
        """The entries of an access list, in order."""
        return [entry for entry in self.permissions if entry.list == name]

    def of_process(self, words):
        """A line of a process's block."""
        if words[0] == "network":
            prefix = network(words[1], words[3]) if len(words) > 3 else classful(words[1])
            return self.networks.setdefault(prefix, ("network", prefix))
        if words[0] == "aggregate-address":
            prefix = network(words[1], words[2])
            return self.aggregates.setdefault(prefix, ("aggregate", prefix))
        if words[0] != "neighbor":
            return self
        neighbor = self.neighbors.setdefault(words[1], Neighbor(words[1]))
        if words[2] == "remote-as":
            neighbor.system = words[3]
        elif words[2] == "update-source":
            neighbor.source = words[3]
        elif words[2] == "shutdown":
            neighbor.shut = True
        elif words[2] == "ebgp-multihop":
            neighbor.multihop = True
        elif words[2] == "route-map":
            neighbor.maps[words[4]] = words[3]
        return neighbor

    @staticmethod
    def of_clause(clause, words):
        """A line of a clause's block."""
        if words[:4] == ["match", "ip", "address", "prefix-list"]:
            clause.prefix_lists += words[4:]
        if words[:2] == ["match", "community"]:
            clause.community_lists += words[2:]
        return clause


    def line_of(self, thing, text=""):
        """The number of the last line that speaks of a thing and begins with a text; None where there is none."""
        return next((line.number for line in reversed(self.lines) if line.thing is thing and line.text.strip().startswith(text)), None)

    def shut_with(self, addresses):
        """What is to be said of an interface that has one of some addresses and is shut; None where there is none."""
        found = next((i for i in self.interfaces.values() if i.shut and i.address in addresses), None)
        if found is None:
            return None
        return f"{self.name}'s {found.name} has {found.address} and is shut ({self.name}:{self.line_of(found, 'shutdown')})"


class Network:
    """All files together: who has an address, and all prefixes."""

    def __init__(self, files):
        self.routers = [Router(file) for file in files]
        self.names = {router.name: router for router in self.routers}
        self.owners = {i.address: r for r in self.routers for i in r.interfaces.values() if i.up}

    def prefixes(self):
        """All prefixes that the files name, the longer ones first."""
        found = set()
        for router in self.routers:
            found |= {i.prefix for i in router.interfaces.values() if i.up and i.prefix}
            found |= {static.prefix for static in router.statics} | set(router.networks) | set(router.aggregates)
        return sorted(found - {None}, key=lambda prefix: (-prefix.prefixlen, prefix))

    def hops(self):
        """All addresses that a row may have as its next hop."""
        return sorted(set(self.owners) | {static.hop for router in self.routers for static in router.statics if static.hop})

    def address_toward(self, router, neighbor):
        """The address by which the router that has the neighbor's address speaks to this router; None where it isn't told."""
        peer = self.owners.get(neighbor.address)
        if peer is None:
            return None
        mine = {i.address for i in router.interfaces.values() if i.up}
        return next((address for address in peer.neighbors if address in mine), None)

"""Tests that could rest on a line of a configuration, by what the line is about."""
import ipaddress

from configurations import Clause, Entry, Filter, Interface, Neighbor, Permission, Router, Static, agrees

NEAR, MOST_ENDS = 8, 32


def naming(router, entry):
    """The clauses that name the list of an entry."""
    return [c for c in router.clauses.values() if entry.list in (c.prefix_lists if entry.kind == "prefix" else c.community_lists)]


def used(router):
    """The names of the route maps that neighbors use."""
    return {name for neighbor in router.neighbors.values() for name in neighbor.maps.values()}


def filtering(router, permission):
    """The filters that name the list of an entry."""
    return [f for f in router.filters.values() if f.list == permission.list]


def deciding(router, name, source, target):
    """The entry of a list that decides on a packet between these addresses; None where none is of it."""
    return next((entry for entry in router.permissions_of(name) if entry.is_of(source, target)), None)


class Candidates:
    """Makes tests of a network's files."""

    def __init__(self, net):
        self.net = net
        self.begun = sorted({prefix for router in net.routers for prefix in (*router.networks, *router.aggregates) if prefix})
        self.around = {router.name: self.near(router) for router in net.routers}
        self.ends = self.hosts()

    def near(self, router):
        """The routers to which routes of this one may go, the nearest first, at most NEAR."""
        found, place = [router], 0
        while place < len(found) and len(found) <= NEAR:
            peers = (self.net.owners.get(address) for address in found[place].neighbors)
            found += [peer for peer in dict.fromkeys(peers) if peer is not None and peer not in found]
            place += 1
        return found[1 : NEAR + 1]

    def of(self, router, thing):
        """The tests that could rest on a thing of a router's file, those that say most first."""
        kinds = {Interface: self.of_interface, Static: self.of_static, Neighbor: self.of_neighbor, Clause: self.of_clause,
                 Entry: self.of_entry, Router: self.of_process, tuple: self.of_begun,
                 Permission: self.of_permission, Filter: self.of_filter}
        make = kinds.get(type(thing))
        return list(dict.fromkeys(make(router, thing))) if make else []

    def hosts(self):
        """Addresses of packets: one in each network of the files that has room for hosts, then those of routers."""
        faces = [i for router in self.net.routers for i in router.interfaces.values() if i.up and i.prefix]
        nets = dict.fromkeys(int(i.prefix[9]) for i in faces if i.prefix.prefixlen < 29)
        return [*nets, *(int(ipaddress.ip_address(i.address)) for i in faces)]

    def of_permission(self, router, permission):
        """An entry of an access list that permits: flows on which it decides, past each filter that names its list."""
        return [test for found in filtering(router, permission) for test in self.past(router, found, permission)]

    def of_filter(self, router, found):
        """A filter of an interface: flows on which an entry of its list decides."""
        return [test for permission in router.permissions_of(found.list) for test in self.past(router, found, permission)]

    def past(self, router, found, permission):
        """Flows past a filter on which an entry decides: out of its router, or into it from one beside its interface."""
        if not permission.permit or not permission.ip or not found.interface.up:
            return []
        own = [int(ipaddress.ip_address(found.interface.address)), permission.target[0]]
        targets = [a for a in [*self.ends[:MOST_ENDS], *own] if agrees(permission.target, a)]
        pairs = [(self.source(router, permission, target), target) for target in dict.fromkeys(targets)]
        beside = (r for r in self.net.routers if r is not router and any(i.up and i.prefix == found.interface.prefix for i in r.interfaces.values()))
        begins = [router] if found.way == "out" else list(beside)
        return [f"flow {begin.name} {ipaddress.ip_address(a)} {ipaddress.ip_address(b)}" for begin in begins for a, b in pairs if a is not None]

    def source(self, router, permission, target):
        """An address from which a packet comes on which an entry decides; None where none is known."""
        ends = (a for a in [*self.ends, permission.source[0]] if a != target)
        return next((a for a in ends if deciding(router, permission.list, a, target) is permission), None)

    def of_interface(self, router, interface):
        """An interface that is up: its prefix, where it is announced also on the routers around."""
        if not interface.up or interface.prefix is None:
            return []
        far = self.from_afar(router, interface.prefix) if interface.prefix in router.networks else []
        return [*far, f"rib {router.name} {interface.prefix}"]

    @staticmethod
    def of_static(router, static):
        """A static route: its row, by its next hop, and all ways to an address that it leads to."""
        row = f"rib {router.name} {static.prefix}"
        if static.hop is None:
            return [row]
        return [f"{row} via {static.hop}", f"every {router.name} {next(iter(static.prefix.hosts()))}"]

    @staticmethod
    def of_neighbor(router, neighbor):
        """A neighbor: its session."""
        return [] if neighbor.shut else [f"session {router.name} {neighbor.address}"]

    def of_process(self, router, _):
        """A process: what it begins, and its sessions."""
        begun = [test for prefix in (*router.networks, *router.aggregates) for test in self.from_afar(router, prefix)]
        return [*begun, *(f"session {router.name} {address}" for address in router.neighbors)]

    def of_begun(self, router, begun):
        """A network or an aggregate."""
        return [*self.from_afar(router, begun[1]), f"bgp {router.name} {begun[1]}"]

    def from_afar(self, router, prefix):
        """Tests of the routers around, whose routes to the prefix may come from this one."""
        return [f"rib {other.name} {prefix}" for other in self.around[router.name]]

    def of_clause(self, router, clause):
        """A clause that permits."""
        if not clause.permit:
            return []
        return self.through(router, {clause.name}, self.permitted(router, clause))

    def of_entry(self, router, entry):
        """An entry that permits, by the clauses that name its list."""
        named = [clause for clause in naming(router, entry) if clause.permit]
        if not entry.permit:
            return []
        if entry.kind == "community":
            return [test for clause in named for test in self.of_clause(router, clause)]
        maps, held = {clause.name for clause in named}, [p for p in self.begun if entry.holds(p)]
        return self.through(router, maps, held) if held else self.through(router, maps, self.beside(entry), missed=True)

    def beside(self, entry):
        """The prefixes that an entry misses, though they overlap with its own: those of the nearest length first."""
        near = [prefix for prefix in self.begun if prefix.overlaps(entry.prefix)]
        return sorted(near, key=lambda prefix: abs(prefix.prefixlen - entry.prefix.prefixlen))

    def permitted(self, router, clause):
        """The prefixes that a clause may be about."""
        entries = [e for e in router.entries if e.kind == "prefix" and e.permit and e.list in clause.prefix_lists]
        return [p for p in self.begun if not clause.prefix_lists or any(entry.holds(p) for entry in entries)]

    def through(self, router, maps, prefixes, missed=False):
        """Tests of routes to these prefixes that come in or go out by one of these maps.

        Where an entry is of none that is begun, what the sender begins is asked for too: it may be what was meant."""
        tests = []
        for neighbor in router.neighbors.values():
            peer, mine = self.net.owners.get(neighbor.address), self.net.address_toward(router, neighbor)
            if neighbor.maps.get("in") in maps:
                own = list(peer.networks) if missed and peer else []
                tests += [f"bgp {router.name} {prefix} from {neighbor.address}" for prefix in (*prefixes, *own)]
            if neighbor.maps.get("out") in maps and mine:
                tests += [f"bgp {peer.name} {prefix} from {mine}" for prefix in (*prefixes, *(router.networks if missed else ()))]
        return tests

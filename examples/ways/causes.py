"""Where a test that is absent breaks: which of the tests that it rests on is the first that doesn't hold, and why."""
import ipaddress
import os
import re
import shutil
import tempfile

from candidates import deciding
from program import ask


class Asker:
    """Asks NetCov tests of one network and remembers which hold."""

    def __init__(self, files):
        self.files, self.known = files, {}

    def all(self, lines):
        """Whether each of the tests holds; those that aren't known yet are asked in one session."""
        new = [line for line in dict.fromkeys(lines) if line not in self.known]
        if new:
            self.known.update((reply.line, not reply.refused) for reply in ask(self.files, new))
        return [self.known[line] for line in lines]

    def holds(self, line):
        """Whether a test holds."""
        return self.all([line])[0]

    def without(self, file, pattern, replacement, line):
        """Whether a test holds where each line of a file that has the pattern is another one."""
        folder = tempfile.mkdtemp()
        try:
            path = os.path.join(folder, "changed.cfg")
            text = open(file, encoding="utf-8", errors="surrogateescape").read()
            with open(path, "w", encoding="utf-8", errors="surrogateescape") as copy:
                copy.write(re.sub(pattern, replacement, text, flags=re.M))
            return not ask([path if name == file else name for name in self.files], [line])[-1].refused
        finally:
            shutil.rmtree(folder)


class Trail:
    """The tests that were asked on the way, and what is wrong at their end."""

    def __init__(self, net, asker):
        self.net, self.asker, self.steps = net, asker, []

    def holds(self, line):
        """Asks a test as a step of the trail."""
        held = self.asker.holds(line)
        step = ("holds " if held else "absent") + " " + line
        if step not in self.steps:
            self.steps.append(step)
        return held

    def of(self, line):
        """Why a test is absent, as a sentence."""
        words = line.split()
        router = self.net.names.get(words[1])
        if router is None:
            return f"there is no file of {words[1]}"
        if words[0] == "session":
            return self.of_session(router, words[2])
        if words[0] in ("reach", "every"):
            return self.of_packet(words[0], router, words[2], [])
        if words[0] == "flow":
            return self.of_flow(router, words[2], words[3], [])
        if words[0] not in ("rib", "bgp"):
            return f"what `{words[0]}` rests on isn't known to this script"
        prefix = ipaddress.ip_network(words[2])
        if words[0] == "bgp":
            return self.of_accepted(router, prefix, words[4]) if len(words) > 3 else self.of_chosen(router, prefix)
        return self.of_row(router, prefix, words[4] if len(words) > 3 else None)

    def of_session(self, router, address):
        """Why a session isn't established."""
        return self.by_statements(router, address) or self.by_sources(router, address) or self.by_ways(router, address)

    def missing(self, address, role):
        """What is to be said of an address that no interface has that is up, and what to do about it."""
        text = f"no interface that is up has the {role}: "
        for router in self.net.routers:
            if router.shut_with([address]):
                return router.shut_with([address])
            for line in router.lines:
                words = line.text.split()
                if words[:1] in (["standby"], ["vrrp"], ["glbp"]) and address in words:
                    return f"{text}routers share it ({router.name}:{line.number} {line.text.strip()}); name the active one's own address in its place"
        return text + "a stub of the device will do"

    def by_statements(self, router, address):
        """What is wrong with the statements of both sides of a session; None where they fit."""
        mine, peer = router.neighbors.get(address), self.net.owners.get(address)
        if mine is None:
            return f"{router.name} has no neighbor {address}"
        if peer is None:
            return self.missing(address, f"address {address}")
        back_at = self.net.address_toward(router, mine)
        back = peer.neighbors.get(back_at)
        found = [
            (peer.system is None, f"{peer.name} has no BGP process"),
            (mine.system != peer.system, f"{router.name} says `remote-as {mine.system}`, and {peer.name} is AS {peer.system}"),
            (back is None, router.shut_with(peer.neighbors) or f"{peer.name} has no neighbor at an address of {router.name}"),
            (back and back.system != router.system, f"{peer.name} says `remote-as {back and back.system}`, and {router.name} is AS {router.system}"),
            (mine.shut, f"{router.name} has the neighbor {address} shut"),
            (back and back.shut, f"{peer.name} has the neighbor {back_at} shut"),
        ]
        return next((text for wrong, text in found if wrong), None)

    def by_sources(self, router, address):
        """What is wrong with the addresses from which two sides speak; None where nothing is seen."""
        peer = self.net.owners[address]
        back_at = self.net.address_toward(router, router.neighbors[address])
        for one, other, to, at in ((router, peer, address, back_at), (peer, router, back_at, address)):
            statement, near = one.neighbors[to], covering(one, to)
            source = one.interfaces.get(statement.source) if statement.source else exit_toward(one, to)
            if statement.source and not (source and source.up):
                return f"{one.name} speaks from {statement.source}, which is shut or has no address"
            if source and source.address != at:
                return f"{one.name} speaks to {to} from {source.address}, and {other.name} has its neighbor at {at}: `update-source`?"
            if one.system != other.system and near is None and not statement.multihop:
                return f"{one.name} is not next to {to} and has no `ebgp-multihop` for it"
        return None

    def by_ways(self, router, address):
        """Which side doesn't reach the other."""
        peer = self.net.owners[address]
        for one, to in ((router, address), (peer, self.net.address_toward(router, router.neighbors[address]))):
            if not self.holds(f"reach {one.name} {to}"):
                return self.of_packet("reach", one, to, [])
        return "both sides fit and packets arrive: a session needs the way by connected and static routes alone"

    def of_accepted(self, router, prefix, address):
        """Why a route isn't accepted from a neighbor."""
        if not self.holds(f"session {router.name} {address}"):
            return self.of_session(router, address)
        peer = self.net.owners[address]
        if not self.holds(f"bgp {peer.name} {prefix}"):
            return self.of_chosen(peer, prefix)
        return self.by_policy(router, peer, prefix, address) or self.by_system(router, peer, prefix) or \
            f"{router.name} refuses what {peer.name} sends: its own AS is in the path, or it has no way to the next hop"

    def by_policy(self, router, peer, prefix, address):
        """Which statement keeps a route from being sent or accepted, tried on copies."""
        test, back = f"bgp {router.name} {prefix} from {address}", self.net.address_toward(router, router.neighbors[address])
        tries = (
            (router, rf"^ +neighbor {re.escape(address)} route-map (\S+) in *$", "!", f"{router.name}'s map for what comes in denies it"),
            (peer, rf"^ +neighbor {re.escape(back)} route-map (\S+) out *$", "!", f"{peer.name}'s map for what goes out denies it"),
            (peer, r" summary-only *$", "", f"{peer.name}'s aggregate holds it back by `summary-only`"),
            (peer, rf"^( +)(neighbor {re.escape(back)} remote-as .*)$", rf"\1\2\n\1neighbor {back} next-hop-self",
             f"{router.name} has no way to the next hop: {peer.name} needs `neighbor {back} next-hop-self`"),
        )
        for changed, pattern, replacement, text in tries:
            if self.asker.without(changed.file, pattern, replacement, test):
                return text
        return None

    def by_system(self, router, peer, prefix):
        """Whether a route isn't handed on inside a system."""
        if router.system != peer.system or prefix in peer.networks:
            return None
        inside = [a for a, n in peer.neighbors.items() if n.system == peer.system and self.asker.holds(f"bgp {peer.name} {prefix} from {a}")]
        known = [a for a in inside if self.net.owners.get(a) is router or self.is_next_to(router, self.net.owners.get(a))]
        if known:
            return f"{peer.name} prefers the route from {' or '.join(known)} (inside), and sends none of those inside"
        if inside:
            return f"{peer.name} has it over an internal session, and hands it on over no other: {router.name} needs one with the router that has it"
        return None

    def is_next_to(self, router, other):
        """Whether a router has a session with another one."""
        addresses = (address for address in router.neighbors if other and self.net.owners.get(address) is other)
        return any(self.asker.holds(f"session {router.name} {address}") for address in addresses)

    def of_chosen(self, router, prefix):
        """Why a router has chosen no route by BGP."""
        if prefix in router.networks:
            return f"{router.name} begins it only where it has a connected or static route to exactly {prefix}: {beside(router, prefix)}"
        if prefix in router.aggregates:
            return f"{router.name} begins the aggregate {prefix} only where it has chosen a longer prefix inside it"
        begun = [other for other in self.net.routers if prefix in (*other.networks, *other.aggregates)]
        if not begun:
            return f"no file begins {prefix}: there is no `network` and no `aggregate-address` for it"
        for other in begun:
            if not self.holds(f"bgp {other.name} {prefix}"):
                return self.of_chosen(other, prefix)
        return self.along(self.way(begun, router), router, prefix)

    def way(self, begun, router):
        """The shortest way of BGP neighbors from one that begins a route; a route from inside isn't handed on inside."""
        start = [(other, False) for other in begun]
        came, place = {(other.name, False): None for other in begun}, 0
        while place < len(start):
            at, internal = start[place]
            place += 1
            if at is router:
                return self.back(came, (at.name, internal))
            for address in at.neighbors:
                peer = self.net.owners.get(address)
                inside = peer is not None and peer.system == at.system
                if peer is None or internal and inside or (peer.name, inside) in came:
                    continue
                came[peer.name, inside] = (at.name, internal)
                start.append((peer, inside))
        return None

    def back(self, came, key):
        """The routers of a way that was found, from its beginning."""
        way = []
        while key:
            way.insert(0, self.net.names[key[0]])
            key = came[key]
        return way

    def along(self, way, router, prefix):
        """Goes along a way and tells the first that doesn't have the route."""
        if way is None:
            return f"no chain of BGP neighbors leads to {router.name}; inside a system a route is handed on once"
        for sender, receiver in zip(way, way[1:]):
            address = next((a for a in receiver.neighbors if self.net.owners.get(a) is sender), None)
            if address is None:
                return f"{receiver.name} has no neighbor at an address of {sender.name}, which has it as one"
            if not self.holds(f"bgp {receiver.name} {prefix} from {address}"):
                return self.of_accepted(receiver, prefix, address)
        return "all on the way have it"

    def of_row(self, router, prefix, hop):
        """Why a main table has no such row."""
        if hop and self.holds(f"rib {router.name} {prefix}"):
            hops = self.hops_of(router, prefix)
            if not hops:
                return "its row is a connected one, or discards: it has no next hop"
            return by_distance(router, prefix, hop, hops) or f"its next hops are {', '.join(hops)}"
        for interface in router.interfaces.values():
            if interface.prefix == prefix and not interface.up:
                return f"{interface.name} of {router.name} has it, and is shut"
        static = next((static for static in router.statics if static.prefix == prefix), None)
        if static:
            return f"its static route to {static.hop} can't be used: no interface that is up has the next hop in its prefix, or its distance is 255"
        if self.holds(f"bgp {router.name} {prefix}"):
            return f"{router.name} begins it itself, so BGP gives its table no row"
        return self.of_chosen(router, prefix)

    def hops_of(self, router, prefix):
        """The next hops of the rows to a prefix."""
        lines = [f"rib {router.name} {prefix} via {hop}" for hop in self.net.hops()]
        return [line.split()[-1] for line, held in zip(lines, self.asker.all(lines)) if held]

    def of_packet(self, command, router, address, passed):
        """Follows a packet from router to router up to the one that loses it."""
        if router.name in passed:
            return f"the packet goes round: {' '.join([*passed, router.name])}"
        covers = [ipaddress.ip_network(f"{address}/{length}", strict=False) for length in range(32, -1, -1)]
        held = self.asker.all([f"rib {router.name} {prefix}" for prefix in covers])
        prefix = next((prefix for prefix, holds in zip(covers, held) if holds), None)
        if prefix is None:
            return self.no_route(router, address, covers)
        self.holds(f"rib {router.name} {prefix}")
        hops = self.hops_of(router, prefix)
        if not hops:
            return f"{router.name} discards it: its longest route to {address} is {prefix}, to Null0 or an aggregate" + self.longer(router, address, prefix)
        for hop in hops:
            other = next_router(self.net, router, hop)
            if other is None:
                return self.missing(hop, f"next hop {hop} of {router.name}")
            if not self.holds(f"{command} {other.name} {address}"):
                return self.of_packet(command, other, address, [*passed, router.name])
        return "the packet arrives from each next router: the way has more than 30 hops"

    def of_flow(self, router, source, target, passed):
        """Follows a flow from router to router up to the filter that stops it."""
        if not self.holds(f"reach {router.name} {target}"):
            return self.of_packet("reach", router, target, [])
        others = self.next_routers(router, target)
        for other in others:
            if other.name not in passed and not self.holds(f"flow {other.name} {source} {target}"):
                return self.of_flow(other, source, target, [*passed, router.name])
        return self.by_filters(router, others, source, target) or f"filters stop it on each way from {router.name}"

    def next_routers(self, router, target):
        """The routers to which a router may hand a packet."""
        covers = [ipaddress.ip_network(f"{target}/{length}", strict=False) for length in range(32, -1, -1)]
        held = self.asker.all([f"rib {router.name} {prefix}" for prefix in covers])
        prefix = next(prefix for prefix, holds in zip(covers, held) if holds)
        found = [next_router(self.net, router, hop) for hop in self.hops_of(router, prefix) or [target]]
        return [other for other in dict.fromkeys(found) if other not in (None, router)]

    def by_filters(self, router, others, source, target):
        """Which filter between a router and the next ones stops a flow, tried on copies without it."""
        test = f"flow {router.name} {source} {target}"
        for at, way in ((router, "out"), *((other, "in") for other in others)):
            if self.asker.without(at.file, rf"^ +ip access-group \S+ {way} *$", "!", test):
                return f"{at.name} doesn't let it {way}: {denied(at, way, source, target)}"
        return None

    def no_route(self, router, address, covers):
        """Why a router has no route for an address: where one that covers it is begun, that one is followed."""
        begun = {prefix for other in self.net.routers for prefix in (*other.networks, *other.aggregates)}
        prefix = next((prefix for prefix in covers if prefix in begun), None)
        if prefix is None or not router.neighbors:
            return f"{router.name} has no route to {address}" + ("" if prefix else ", and no file begins one by BGP")
        self.holds(f"rib {router.name} {prefix}")
        return f"{router.name} has no route to {address}: {self.of_chosen(router, prefix)}"

    def longer(self, router, address, prefix):
        """Where a longer prefix with the address is begun, why it isn't here."""
        within = [p for other in self.net.routers for p in other.networks if ipaddress.ip_address(address) in p and p.prefixlen > prefix.prefixlen]
        return f"; {max(within, key=lambda p: p.prefixlen)} isn't there: " + self.of_chosen(router, max(within, key=lambda p: p.prefixlen)) if within else ""


def denied(router, way, source, target):
    """Which entries of a router's filters of a direction deny a packet, by their lines."""
    found = []
    for name in dict.fromkeys(f.list for f in router.filters.values() if f.way == way):
        ends = [int(ipaddress.ip_address(address)) for address in (source, target)]
        entry = deciding(router, name, *ends)
        if entry is None and router.permissions_of(name):
            found.append(f"no entry of {name} is of it")
        elif entry is not None and not entry.permit:
            number = router.line_of(entry)
            found.append(f"{router.name}:{number} {' '.join(router.lines[number - 1].text.split())}")
    return ", ".join(found)


def covering(router, address):
    """The interface of a router, up, in whose prefix an address lies."""
    return next((i for i in router.interfaces.values() if i.up and i.prefix and ipaddress.ip_address(address) in i.prefix), None)


def by_distance(router, prefix, hop, hops):
    """Which line of a lower distance is used in the place of a static route to a hop; None where none is."""
    statics = [static for static in router.statics if static.prefix == prefix]
    mine = next((static for static in reversed(statics) if static.hop == hop and covering(router, hop)), None)
    used = next((static for static in statics if mine and static.hop in hops and static.distance < mine.distance), None)
    if used is None:
        return None
    lines = [f"{router.name}:{router.line_of(static)}" for static in (mine, used)]
    return f"{lines[0]} has the distance {mine.distance}, and {lines[1]} with the lower distance {used.distance} is used"


def hop_toward(router, address):
    """The address to which a router hands packets for an address: the address itself, or a static route's next hop."""
    if covering(router, address):
        return address
    found = [s for s in router.statics if s.hop and covering(router, s.hop) and ipaddress.ip_address(address) in s.prefix]
    return max(found, key=lambda static: static.prefix.prefixlen).hop if found else None


def exit_toward(router, address):
    """The interface by which packets for an address leave a router; None where no connected or static route has it."""
    hop = hop_toward(router, address)
    return covering(router, hop) if hop else None


def next_router(net, router, hop):
    """The router to which packets for a next hop go; None where it is in none of the files."""
    return net.owners.get(hop_toward(router, hop) or hop)


def beside(router, prefix):
    """What a router has in the place of a prefix."""
    near = [f"{i.name} has {i.prefix}" + ("" if i.up else " and is shut") for i in router.interfaces.values() if i.prefix and i.prefix.overlaps(prefix)]
    return ", ".join(near) or "it has none that is near"

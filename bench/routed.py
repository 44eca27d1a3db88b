"""Networks with BGP, by size, and what is asked of each."""
from statements import HOST, INSIDE, LAN, SEGMENT, discards, dotted, interface, link_end, neighbor, networks, on_segment, prefix, tested

SYSTEM = 1000
PROVIDER = 65000
EDGES = 0x0A400000
FAR_HOPS = 28
BOGONS = ("0.0.0.0/8", "10.0.0.0/8", "127.0.0.0/8", "169.254.0.0/16", "172.16.0.0/12", "192.168.0.0/16", "224.0.0.0/3")


def host_of(number):
    """Returns an address of a tested network that no interface has."""
    return dotted(tested(number) + 9)


def chain(routers):
    """Routers in a line, an external session over each link, three networks each."""
    files = []
    for place in range(routers):
        own, interfaces, peers = range(place * 3, place * 3 + 3), [], []
        if place > 0:
            interfaces.append((link_end(place - 1, 2),))
            peers += neighbor(link_end(place - 1, 1), SYSTEM + place - 1)
        if place < routers - 1:
            interfaces.append((link_end(place, 1),))
            peers += neighbor(link_end(place, 2), SYSTEM + place + 1)
        interfaces += [(dotted(tested(it) + 1), LAN) for it in own]
        lines = [it for number, given in enumerate(interfaces) for it in interface(f"E{number}", *given)]
        files.append((f"r{place}.cfg", [f"hostname r{place}", *lines, f"router bgp {SYSTEM + place}", *networks(own), *peers]))
    return files


def chain_rows(routers):
    far, near = 3 * (routers * 200 // 256), host_of(3 * min(FAR_HOPS, routers - 1))
    asked = [f"rib r0 {prefix(far)}", f"reach r0 {near}", f"every r0 {near}"]
    questions = ["implies 1 2", "implies 2 1", "implies 3 2"]
    return [("loading alone", []), ("routes and ways of packets", asked), ("and questions between tests", questions), ("and a least cut", ["cut 1"]),
            ("and which tests suffice, and what is dead", ["suite", "dead"])]


def walks_rows(routers, count=None):
    tests = []
    for number in range(0, 4 * (count or 4 * routers), 4):
        here = number % routers
        there = min(routers - 1, here + 1 + number // routers % 12)
        tests.append(f"reach r{here} {host_of(there * 3 + number % 3)}")
    return [(f"{len(tests):,} tests of packets", tests)]


def lan(routers):
    """Routers on one segment, each with four sessions and about four networks."""
    files = []
    for place in range(routers):
        own = range(place, 4 * routers - 1, routers)
        peers = sorted({(place + offset) % routers for offset in (1, 16, -1, -16)})
        lines = [f"hostname r{place}", *interface("E0", on_segment(place), SEGMENT), *discards(own)]
        lines += [f"router bgp {SYSTEM + place}", *networks(own)]
        files.append((f"r{place}.cfg", lines + [it for peer in peers for it in neighbor(on_segment(peer), SYSTEM + peer)]))
    return files


def lan_rows(routers):
    tests = [f"rib r{it * 37 % routers} {prefix(it * 251 % (4 * routers - 1))}" for it in range(16 * routers)]
    return [("loading alone", []), (f"{len(tests):,} tests", tests), ("and two of them taken back", ["forget 7", f"forget {4000 * routers // 256}"]),
            ("and which tests suffice", ["suite"])]


def mesh(routers):
    """Routers with a link and a session between each two, 16 networks each, and several ways to each."""
    pairs = [(one, other) for one in range(routers) for other in range(one + 1, routers)]
    links = {pair: link for link, pair in enumerate(pairs)}
    files = []
    for place in range(routers):
        own, lines, peers = range(place * 16, place * 16 + 16), [f"hostname r{place}"], []
        for number, other in enumerate(it for it in range(routers) if it != place):
            link, end = links[min(place, other), max(place, other)], 1 if place < other else 2
            lines += interface(f"E{number}", link_end(link, end))
            peers += neighbor(link_end(link, 3 - end), SYSTEM + other)
        lines += [*discards(own), f"router bgp {SYSTEM + place}", " bgp bestpath as-path multipath-relax", " maximum-paths 16"]
        files.append((f"r{place}.cfg", lines + networks(own) + peers))
    return files


def mesh_rows(routers):
    asked = [f"bgp r0 {prefix(16)}", "session r0 10.0.0.2"]
    return [("loading alone", []), ("two tests, and a question between them", [*asked, "implies 1 2"]), ("and what is dead", ["dead"])]


def full(routers, announced, said, policy):
    """Routers on one segment with a session between each two, of which each says so much, and a policy."""
    files = []
    for place in range(routers):
        own = range(place, announced, routers)
        lines = [f"hostname r{place}", *interface("E0", on_segment(place), SEGMENT), *discards(own)]
        lines += [f"router bgp {SYSTEM + place}", *networks(own)]
        for other in range(routers):
            if other != place:
                lines += neighbor(on_segment(other), SYSTEM + other, *said)
        files.append((f"r{place}.cfg", lines + policy))
    return files


def policy(routers, announced, count):
    """Each with a map over one list with so many entries that don't fit, and one that does."""
    entries = [f"ip prefix-list L permit {dotted(0x1E000000 + it * 256)}/24" for it in range(count)]
    lines = [*entries, "ip prefix-list L permit 0.0.0.0/0 le 32", "route-map M permit 10", " match ip address prefix-list L"]
    return full(routers, announced, ["route-map M in"], lines)


def policy_rows(routers, announced, count):
    return [("loading alone", []), ("a few tests", ["rib r0 20.0.1.0/24", "rib r3 20.0.1.0/24"])]


def maps(routers, announced, count):
    """Each with a map of so many clauses that don't fit, and one that does."""
    lines = ["ip prefix-list A permit 30.0.0.0/8 le 32"]
    for number in range(count):
        lines += [f"route-map M deny {number + 2}", " match ip address prefix-list A"]
    return full(routers, announced, ["route-map M in"], [*lines, "route-map M permit 65000"])


def maps_rows(routers, announced, count):
    return [("loading alone", []), ("a few tests", [f"bgp r0 {prefix(1)}", f"rib r3 {prefix(2)}"])]


def lists(routers, announced, count):
    """Each with a map of so many clauses over ten community lists each, and communities on what it sends."""
    lines = [f"ip community-list standard C{it} permit 65001:{it}" for it in range(10 * count)]
    lines += ["route-map O permit 10", " set community 65000:1 65000:2 65000:3"]
    for clause in range(count):
        named = " ".join(f"C{10 * clause + it}" for it in range(10))
        lines += [f"route-map M deny {clause + 1}", f" match community {named}"]
    said = ["route-map M in", "route-map O out", "send-community"]
    return full(routers, announced, said, [*lines, "route-map M permit 100"])


def lists_rows(routers, announced, count):
    return [("loading alone", []), ("a test", [f"bgp r0 {prefix(1)}"])]


def loopback(core):
    """Returns the address of a core router's loopback."""
    return dotted(0xC0000200 + core)


def core_hop(core, other, end):
    """Returns the address of an end of the link between two core routers: 0 for the first named, 1 for the other."""
    low = min(core, other)
    return dotted(INSIDE + 4 * (low * 16 + max(core, other)) + (1 if (core == low) == (end == 0) else 2))


def near(core, cores):
    """Returns the core routers with a link to one: the next, the one before, and the fifth."""
    return [it for it in range(cores) if it != core and (it - core) % cores in (1, cores - 1, 5)]


def core_interfaces(core, cores, stubs):
    """Returns the interfaces of a core router, and its routes to the loopbacks of the others."""
    lines = [*interface("Loopback0", loopback(core), HOST), "!"]
    for number, other in enumerate(near(core, cores)):
        name, address, mask = f"TenGigE0/{number}", core_hop(core, other, 0), "255.255.255.252"
        lines += [f"interface {name}", f" description to core{other}", f" ip address {address} {mask}", "!"]
    for number in range(core * stubs, core * stubs + stubs):
        lines += [f"interface GigE1/{number - core * stubs}", f" description to system {number}"]
        lines += [f" ip address {dotted(EDGES + 4 * number + 1)} 255.255.255.252", "!"]
    for other in (it for it in range(cores) if it != core):
        hops = [other] if other in near(core, cores) else near(core, cores)
        lines += [f"ip route {loopback(other)} {HOST} {core_hop(core, hop, 1)}" for hop in hops]
    return lines


def core_process(core, cores, stubs):
    """Returns the process of a core router: internal sessions between loopbacks, and one with each external system."""
    lines = [f"router bgp {PROVIDER}", f" bgp router-id {loopback(core)}", " bgp log-neighbor-changes"]
    lines += [" bgp bestpath as-path multipath-relax", " maximum-paths 4"]
    for other in (it for it in range(cores) if it != core):
        lines += neighbor(loopback(other), PROVIDER, "update-source Loopback0", "next-hop-self", "send-community")
    for number in range(core * stubs, core * stubs + stubs):
        kind = kind_of(number - core * stubs)
        said = [f"description system {number}", f"route-map {kind}-IN in", f"route-map {kind}-OUT out"]
        lines += neighbor(dotted(EDGES + 4 * number + 2), SYSTEM + number, *said)
    return lines


def kind_of(number):
    """Returns what an external system is to the provider."""
    return "CUSTOMER" if number % 3 else "PEER"


def core_lists(core, stubs):
    """Returns the lists of a core router."""
    lines = ["ip community-list standard CUSTOMERS permit 65000:100", "ip community-list standard PEERS permit 65000:200"]
    lines += [f"ip prefix-list BOGONS seq {5 * it + 5} permit {bogon} le 32" for it, bogon in enumerate(BOGONS)]
    lines += ["ip prefix-list LONG seq 5 permit 0.0.0.0/0 ge 25", "ip prefix-list ANY seq 5 permit 0.0.0.0/0 le 24"]
    return lines + [f"ip prefix-list OURS permit {prefix(it)}" for it in range(core * stubs * 3, (core + 1) * stubs * 3)]


def core_maps():
    """Returns the maps of a core router: what comes in is refused, preferred and marked, and goes out by its mark."""
    lines = []
    for kind, wanted, preference, mark in (("CUSTOMER", "OURS", 200, 100), ("PEER", "ANY", 90, 200)):
        lines += ["!", f"route-map {kind}-IN deny 10", " match ip address prefix-list BOGONS LONG"]
        lines += [f"route-map {kind}-IN permit 20", f" match ip address prefix-list {wanted}"]
        lines += [f" set local-preference {preference}", f" set community 65000:{mark} additive"]
    lines += ["!", "route-map CUSTOMER-OUT permit 10", " match ip address prefix-list ANY", " set metric 0"]
    lines += ["route-map PEER-OUT permit 10", " match community CUSTOMERS", " set as-path prepend 65000"]
    return lines + ["route-map PEER-OUT deny 20", "!", "line vty 0 4", " login", "!", "end"]


def stub_router(number):
    """Returns the file of an external system with three networks."""
    own = range(number * 3, number * 3 + 3)
    lines = [f"hostname s{number}", *interface("GigE0/0", dotted(EDGES + 4 * number + 2))]
    for place, network in enumerate(own, 1):
        lines += interface(f"GigE0/{place}", dotted(tested(network) + 1), LAN)
    lines += [f"router bgp {SYSTEM + number}", *networks(own), *neighbor(dotted(EDGES + 4 * number + 1), PROVIDER)]
    return lines


def backbone(cores, stubs):
    """A provider: core routers with internal sessions, each with so many external systems."""
    files = []
    for core in range(cores):
        lines = [f"hostname core{core}", "!", *core_interfaces(core, cores, stubs), "!", *core_process(core, cores, stubs)]
        files.append((f"core{core}.cfg", [*lines, "!", *core_lists(core, stubs), *core_maps()]))
    return files + [(f"s{number}.cfg", stub_router(number)) for number in range(cores * stubs)]


def backbone_rows(cores, stubs):
    systems = range(cores * stubs)
    count = len(systems)
    routes = [f"session core{one} {loopback(other)}" for one in range(cores) for other in range(one + 1, cores)]
    first = len(routes) + 1
    routes += [f"rib core{core} {prefix(it)}" for core in range(cores) for it in range(0, 3 * count, 5)]
    routes += [f"bgp s{it} {prefix((it * 7 + 3) % count * 3)}" for it in systems]
    ways = [f"reach s{it} {host_of((it * 7 + 3) % count * 3)}" for it in systems]
    ways += [f"every s{it} {host_of((it * 11 + 5) % count * 3 + 1)}" for it in systems]
    questions = [f"implies {it} {it + 1}" for it in (1, 3, *range(first, first + 48, 4))]
    return [("loading alone", []), ("routes", routes), ("and ways of packets", ways), ("and questions between them, and `json`", [*questions, "json"]),
            ("and a least cut", ["cut 60"]), ("and which tests suffice, and what is dead", ["suite", "dead"])]

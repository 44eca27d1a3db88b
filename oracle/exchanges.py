"""Cases of routes by BGP: random networks in which most sessions are up, and choices, aggregates, policies, ways and rounds one by one.

A session asks for what is there and for what is beside it.
"""
import itertools

import oracle
from asking import beside, joined, there, with_questions
from peers import Wires, routes_of
from pieces import R, Case, b, dotted


def with_session(case, many=False):
    """The case with a session that asks for what is there and what is beside it, and mostly with enough rounds."""
    net, rounds = joined(case.files, case.words)
    if net is None:
        return case
    present, absent = there(net) if rounds else [], list(beside(net))
    if many:
        asks = present + absent
    else:
        asks = R.sample(present, min(len(present), R.choice([3, 8, 20]))) + R.sample(absent, min(len(absent), R.choice([2, 5, 10])))
        R.shuffle(asks)
        asks = with_questions(net, asks)
    words = list(case.words)
    if not many and R.random() < 0.3:
        n = max(1, (rounds or R.choice([2, 10])) + R.choice([-1, 0, 0, 1]))
        words = R.choice([[b"--rounds", b"%d" % n] + words, words + [b"--rounds=%d" % n]])
    return Case(case.files, words, b("\n".join(asks) + "\n"))


# --- random networks -------------------------------------------------------------------------------
COMMUNITIES = ["1:1", "65001:7", "2:2"]
COMMON = [0x0A090000 + (k << 8) for k in range(4)]
AROUND = ["10.9.0.0 255.255.0.0", "10.9.0.0 255.255.254.0", "10.9.2.0 255.255.254.0", "10.8.0.0 255.254.0.0", "10.0.0.0 255.0.0.0", "0.0.0.0 0.0.0.0"]
DISTANCES = ["", " 19", " 20", " 21", " 199", " 200", " 201", " 254", " 255"]


class Exchange(Wires):
    """Routers of a few systems along a line, a ring or a star, with a session over each link and between loopbacks of one system."""

    def __init__(self):
        self.count = R.choice([2, 3, 3, 4, 4, 5, 6])
        systems = R.choice([[65001, 65002], [65001, 65002, 65003], [65001, 65001, 65001, 65002], [65001 + k for k in range(6)]])
        self.numbers = [R.choice(systems) for _ in range(self.count)]
        shape = R.choice(["line", "ring", "star", "mesh"])
        pairs = [(k, k + 1) for k in range(self.count - 1)] + ([(0, self.count - 1)] if shape == "ring" and self.count > 2 else [])
        pairs = [(0, k) for k in range(1, self.count)] if shape == "star" else pairs
        pairs = list(itertools.combinations(range(self.count), 2)) if shape == "mesh" and self.count < 5 else pairs
        pairs += [R.choice(pairs) for _ in range(R.choice([0, 1, 1, 2, 3]))]
        self.faces = [[("Loopback0", 0xC0A80000 + k + 1, 32)] for k in range(self.count)]
        self.links = []
        for k, (r, s) in enumerate(pairs):
            self.links.append((r, 0x0A000001 + (k << 8), s, 0x0A000002 + (k << 8)))
            self.faces[r].append((f"Ethernet{k}", 0x0A000001 + (k << 8), 30))
            self.faces[s].append((f"Ethernet{k}", 0x0A000002 + (k << 8), 30))
        loopbacks = [(r, 0xC0A80001 + r, s, 0xC0A80001 + s) for r, s in itertools.combinations(range(self.count), 2)]
        self.pairs = [x for x in self.links if R.random() < 0.95]
        self.pairs += [x for x in loopbacks if R.random() < (0.7 if self.numbers[x[0]] == self.numbers[x[2]] else 0.1)]


def listed_lines():
    """Lists of prefixes and of communities, which let much pass."""
    lines = []
    for name in ("P", "Q"):
        for _ in range(R.choice([1, 2, 3])):
            text = R.choice(["10.9.0.0/16", "10.9.0.0/24", "10.9.1.0/24", "10.9.2.0/23", "10.0.0.0/8", "0.0.0.0/0", "192.168.0.0/16"])
            low = int(text.split("/")[1])
            lines.append(f"ip prefix-list {name} {R.choice(['permit', 'permit', 'deny'])} {text}{R.choice(['', ' le 32', ' le 24' if low <= 24 else '', f' ge {max(low, 24)}', f' ge {max(low, 16)} le {max(low, 24)}'])}")
        lines += [f"ip prefix-list {name} permit 0.0.0.0/0 le 32"] * (R.random() < 0.5)
    for name in ("C", "7"):
        for _ in range(R.choice([1, 2])):
            lines.append(f"ip community-list {'standard ' if name == 'C' else ''}{name} {R.choice(['permit', 'permit', 'deny'])} {' '.join(R.sample(COMMUNITIES, R.choice([1, 1, 2])))}")
    return lines


def sets_of(own):
    pool = [f"set local-preference {R.choice([50, 100, 100, 200])}", f"set metric {R.choice([0, 5, 9])}", f"set origin {R.choice(['igp', 'incomplete'])}",
            "set as-path prepend " + " ".join(str(R.choice([own, own, 65001, 65009])) for _ in range(R.choice([1, 1, 2, 10]))),
            "set community " + " ".join(R.sample(COMMUNITIES, R.choice([1, 2]))) + R.choice(["", " additive"])]
    return R.sample(pool, R.choice([0, 1, 1, 2, 3]))


def map_blocks(name, own):
    """The clauses of a map: some that ask for prefixes, communities or both, and mostly one that lets the rest pass."""
    blocks = []
    for number in sorted(R.sample([5, 10, 20, 30], R.choice([0, 1, 1, 2]))):
        asked = R.choice([["match ip address prefix-list P"], ["match ip address prefix-list Q P"], ["match community C"], ["match community 7 C"],
                          ["match ip address prefix-list P", "match community C"], []])
        blocks.append((f"route-map {name} {R.choice(['permit', 'permit', 'permit', 'deny'])} {number}", asked + sets_of(own)))
    blocks += [(f"route-map {name} permit 100", sets_of(own))] * (R.random() < 0.8 or not blocks)
    if R.random() < 0.2:
        R.shuffle(blocks)
    return blocks


def neighbor_block(wires, r, s, a, maps):
    name = f"neighbor {dotted(a)}"
    loopback, internal = a >> 24 == 192, wires.numbers[r] == wires.numbers[s]
    lines = [f"{name} remote-as {wires.numbers[s]}"] + [f"{name} update-source Loopback0"] * loopback
    lines += [f"{name} ebgp-multihop 2"] * (loopback and not internal) + [f"{name} next-hop-self"] * (R.random() < (0.6 if internal else 0.1))
    lines += [f"{name} send-community{R.choice(['', ' both'])}"] * (R.random() < 0.6) + [f"{name} shutdown"] * (R.random() < 0.02)
    for way in ("in", "out"):
        lines += [f"{name} route-map {R.choice(maps)} {way}"] if maps and R.random() < 0.35 else []
    return lines


def process_lines(wires, r, maps):
    lines = [f"router bgp {wires.numbers[r]}"]
    sides = [(s, there) for a, here, s, there in wires.pairs if a == r] + [(s, here) for s, here, a, there in wires.pairs if a == r]
    for s, a in sides:
        lines += [" " + text for text in neighbor_block(wires, r, s, a, maps)]
    body = [f"network {dotted(a)} mask 255.255.255.0" for a in COMMON if R.random() < 0.3]
    body += [f"network {dotted(wires.faces[r][0][1])} mask 255.255.255.255"] * (R.random() < 0.3) + ["network 10.0.0.0 mask 255.255.255.252"] * (R.random() < 0.2)
    body += [f"aggregate-address {R.choice(AROUND)}{R.choice(['', '', ' summary-only'])}" for _ in range(R.choice([0, 0, 1, 2]))]
    body += [f"maximum-paths {R.choice([1, 2, 2, 3, 16])}"] * (R.random() < 0.7) + ["bgp bestpath as-path multipath-relax"] * (R.random() < 0.4)
    body += [f"bgp router-id {R.choice([1, 2, 9])}.0.0.1"] * (R.random() < 0.2)
    R.shuffle(body)
    return lines + [" " + text for text in body]


def router_lines(wires, r):
    lines = [f"hostname r{r + 1}"]
    for name, a, length in wires.faces[r]:
        lines += [f"interface {name}", f" ip address {dotted(a)} {dotted(oracle.bits(length))}"] + [" shutdown"] * (R.random() < 0.01)
    lines += routes_of(wires, r) if R.random() < 0.9 else []
    for a in COMMON:
        hop = R.choice(["Null0"] * 3 + [dotted(x) for x in wires.next_hops(r)])
        lines += [f"ip route {dotted(a)} 255.255.255.0 {hop}{R.choice([''] * 6 + DISTANCES)}"] if R.random() < 0.5 else []
    lines += [f"ip route {R.choice(AROUND)} Null0{R.choice(DISTANCES)}"] * (R.random() < 0.1)
    maps = R.choice([[], ["M"], ["M", "N"]])
    lines += listed_lines() if maps else []
    for name in maps:
        for header, body in map_blocks(name, wires.numbers[r]):
            lines += [header] + [" " + text for text in body]
    return lines + (process_lines(wires, r, maps) if R.random() < 0.98 else [])


def kind_routes():
    """Networks in which routes go from system to system and within them."""
    wires = Exchange()
    files = {b"r%d.cfg" % (r + 1): b("\n".join(router_lines(wires, r)) + "\n") for r in range(wires.count)}
    return with_session(Case(files, sorted(files), b""))


# --- one thing after the other ---------------------------------------------------------------------
def of(*files):
    names = [b"r%d.cfg" % (k + 1) for k in range(len(files))]
    return with_session(Case({name: b("\n".join(lines) + "\n") for name, lines in zip(names, files)}, names, b""), many=True)


def in_rounds(case, n):
    return Case(case.files, [b"--rounds", b"%d" % n] + case.words, case.session)


def linked(own, other, link=12):
    """Lines of a router's end of a link: its number and the other's are the last parts of their addresses."""
    return [f"interface Ethernet{link}", f" ip address 10.0.{link}.{own} 255.255.255.0"]


def sender(own, number, statements, policy=(), route="ip route 10.9.0.0 255.255.255.0 Null0", to=65000):
    """A router of this system, linked with r1, that begins 10.9.0.0/24 and what else the statements say."""
    return [f"hostname r{own}"] + linked(own, 1, own) + [route] + list(policy) + [f"router bgp {number}", f" neighbor 10.0.{own}.1 remote-as {to}"] + [" " + text for text in statements]


BEGUN = "network 10.9.0.0 mask 255.255.255.0"
# What makes a route better or worse at the one who takes it; the first of each pair is the better one.
KEYS = {"preference": ("set local-preference 200", "set local-preference 50"), "path": ("set metric 0", "set as-path prepend 65009"), "origin": ("set origin igp", "set origin incomplete"),
        "metric": ("set metric 0", "set metric 9"), "same length": ("set as-path prepend 65008", "set as-path prepend 65009"), "nothing": ("set metric 0", "set metric 0")}


def choice_cases():
    """Two routes to one prefix that differ in one way or in two, with one place and with two, inside and outside."""
    systems = [(65002, 65002), (65002, 65003), (65000, 65002), (65000, 65000)]
    for numbers, first, second, turned, ids, paths, relax in itertools.product(systems, KEYS, KEYS, (False, True), ("", "2.0.0.1 1.0.0.1", "1.0.0.1 1.0.0.1"), (1, 2), (False, True)):
        if relax and paths == 1 or ids and (first, second) != ("nothing", "nothing") or turned and first == second:
            continue
        lines = ["hostname r1"] + linked(1, 2, 2) + linked(1, 3, 3)
        for own, place in ((2, 0), (3, 1)):
            other = 1 - place if turned else place
            lines += [f"route-map M{own} permit 10", " " + KEYS[first][place]] + ([" " + KEYS[second][other]] if first != second else [])
        lines += ["router bgp 65000", f" maximum-paths {paths}"] + [" bgp bestpath as-path multipath-relax"] * relax
        for own, number in zip((2, 3), numbers):
            lines += [f" neighbor 10.0.{own}.{own} remote-as {number}", f" neighbor 10.0.{own}.{own} route-map M{own} in"]
        given = [[f"bgp router-id {text}"] for text in ids.split(" ")] if ids else [[], []]
        yield of(lines, *(sender(own, number, [BEGUN] + given[own - 2]) for own, number in zip((2, 3), numbers)))


def own_cases():
    """What a router begins itself, beside what it learns, with static routes of each distance."""
    begun = ["", BEGUN, "aggregate-address 10.9.0.0 255.255.255.0", BEGUN + "\n aggregate-address 10.9.0.0 255.255.255.0"]
    statics = ["!"] + [f"ip route 10.9.0.0 255.255.255.0 {hop}{d}" for hop in ("Null0", "10.0.2.2", "10.0.2.9") for d in DISTANCES]
    inner = "ip route 10.9.0.128 255.255.255.128 Null0\nrouter bgp 65000\n network 10.9.0.128 mask 255.255.255.128"
    for text, static, number, inside in itertools.product(begun, statics, (65000, 65002), ("!", inner)):
        lines = ["hostname r1"] + linked(1, 2, 2) + [static, inside, "router bgp 65000", " " + text, f" neighbor 10.0.2.2 remote-as {number}"]
        yield of(lines, sender(2, number, [BEGUN]))


def aggregate_cases():
    """Aggregates around networks, beside and inside each other, with and without summary-only."""
    networks = ["10.9.0.0 255.255.255.0", "10.9.1.0 255.255.255.0", "10.9.0.0 255.255.0.0", "10.9.0.128 255.255.255.128"]
    sums = ["10.9.0.0 255.255.0.0", "10.9.0.0 255.255.254.0", "10.8.0.0 255.254.0.0", "0.0.0.0 0.0.0.0", "10.9.0.0 255.255.255.0"]
    few = [x for n in range(3) for x in itertools.combinations(networks, n)]
    many = [x for n in range(3) for x in itertools.combinations([text + end for text in sums for end in ("", " summary-only")], n)]
    for begun, around in itertools.product(few, many):
        lines = ["hostname r1"] + linked(1, 2, 2) + [f"ip route {text} Null0" for text in networks] + ["router bgp 65000"]
        lines += [" network " + text.replace(" ", " mask ") for text in begun] + [" aggregate-address " + text for text in around] + [" neighbor 10.0.2.2 remote-as 65002"]
        yield of(lines, sender(2, 65002, ["aggregate-address 10.0.0.0 255.0.0.0"] if len(begun) == 1 else []))


def listed_cases():
    """A route of each of a few lengths beside entries at its border, on the way out and on the way in."""
    for length, listed in itertools.product((8, 23, 24, 32), ("10.0.0.0/8", "10.8.0.0/15", "10.9.0.0/24", "10.9.0.0/25", "10.9.0.0/32", "0.0.0.0/0", "11.0.0.0/8")):
        low = int(listed.split("/")[1])
        prefix = f"{dotted(0x0A090000 & oracle.bits(length))} {dotted(oracle.bits(length))}"
        for bounds in [""] + [f" {word} {n}" for word in ("ge", "le") for n in (low, 23, 24, 25, 32) if n >= low] + [f" ge {low} le {n}" for n in (23, 24, 25) if n >= low]:
            policy = [f"ip prefix-list P deny {listed}{bounds}", "ip prefix-list P permit 0.0.0.0/0 le 32", "ip prefix-list Q permit 172.16.0.0/12",
                      "route-map M permit 10", " match ip address prefix-list Q P", " set metric 9", "route-map M permit 20"]
            statement = f"network {prefix.replace(' ', ' mask ')}"
            route = f"ip route {prefix} Null0"
            yield of(["hostname r1"] + linked(1, 2, 2) + ["router bgp 65000", " neighbor 10.0.2.2 remote-as 65002"], sender(2, 65002, [statement, "neighbor 10.0.2.1 route-map M out"], policy, route))
            yield of(["hostname r1"] + linked(1, 2, 2) + policy + ["router bgp 65000", " neighbor 10.0.2.2 remote-as 65002", " neighbor 10.0.2.2 route-map M in"], sender(2, 65002, [statement], route=route))


def community_cases():
    """Communities that are set, added, sent or not, and asked for on both sides."""
    sets = ["!", "set community 1:1", "set community 1:1 2:2", "set community 2:2 additive"]
    asked = ["ip community-list standard C permit 1:1", "ip community-list standard C permit 1:1 2:2", "ip community-list standard C deny 1:1\nip community-list standard C permit 2:2", "ip community-list standard C permit 3:3"]
    for out, send, listed, number, inward in itertools.product(sets, ("", "send-community", "send-community extended"), asked, (65000, 65002), sets):
        policy = ["route-map OUT permit 10", " " + out]
        statements = [BEGUN, "neighbor 10.0.2.1 route-map OUT out"] + ([f"neighbor 10.0.2.1 {send}"] if send else [])
        lines = ["hostname r1"] + linked(1, 2, 2) + linked(1, 3, 3) + [listed, "route-map IN permit 10", " match community C", " " + inward, "route-map IN permit 20"]
        lines += ["router bgp 65000", f" neighbor 10.0.2.2 remote-as {number}", " neighbor 10.0.2.2 route-map IN in", " neighbor 10.0.3.3 remote-as 65003", " neighbor 10.0.3.3 send-community"]
        third = ["hostname r3"] + linked(3, 1, 3) + [listed, "route-map ASK permit 5", " match community C", " set metric 5", "router bgp 65003", " neighbor 10.0.3.1 remote-as 65000", " neighbor 10.0.3.1 route-map ASK in"]
        yield of(lines, sender(2, number, statements, policy), third)


def most_communities_cases():
    """Sets of communities of up to 64 and more, joined."""
    for first, more in itertools.product((0, 1, 62, 63, 64), (1, 2, 3, 64)):
        policy = ["route-map OUT permit 10"] + [" set community " + " ".join(str(k) for k in range(1, first + 1))] * (first > 0)
        lines = ["hostname r1"] + linked(1, 2, 2) + ["route-map IN permit 10", " set community " + " ".join(str(k) for k in range(64, 64 + more)) + " additive", "router bgp 65000",
                                                    " neighbor 10.0.2.2 remote-as 65002", " neighbor 10.0.2.2 route-map IN in"]
        yield of(lines, sender(2, 65002, [BEGUN, "neighbor 10.0.2.1 route-map OUT out", "neighbor 10.0.2.1 send-community"], policy))


def hop_cases():
    """A next hop that is its receiver's own, isn't reached, is discarded, or is reached by a static route or a default."""
    routes = ["!", "ip route 10.0.9.0 255.255.255.0 10.0.3.3", "ip route 10.0.9.0 255.255.255.0 Null0", "ip route 0.0.0.0 0.0.0.0 10.0.3.3", "ip route 0.0.0.0 0.0.0.0 Null0", "ip route 10.0.9.9 255.255.255.255 10.0.3.9",
              "interface Ethernet8\n ip address 10.0.9.1 255.255.255.0", "interface Ethernet8\n ip address 10.0.9.4 255.255.255.0"]
    for route, own_hop, begun in itertools.product(routes, (False, True), (False, True)):
        lines = ["hostname r1"] + linked(1, 3, 3) + [route, "router bgp 65000", " neighbor 10.0.3.3 remote-as 65000"]
        middle = ["hostname r3"] + linked(3, 1, 3) + ["interface Ethernet9", " ip address 10.0.9.3 255.255.255.0", "ip route 10.9.1.0 255.255.255.0 Null0", "router bgp 65000", " neighbor 10.0.3.1 remote-as 65000",
                  " neighbor 10.0.9.4 remote-as 65002"] + [" neighbor 10.0.3.1 next-hop-self"] * own_hop + [" network 10.9.1.0 mask 255.255.255.0"] * begun
        last = ["hostname r4", "interface Ethernet9", f" ip address 10.0.9.{4 if 'Ethernet8' not in route or '9.1 ' in route else 5} 255.255.255.0", "ip route 10.9.0.0 255.255.255.0 Null0", "router bgp 65002", " neighbor 10.0.9.3 remote-as 65000", " " + BEGUN]
        yield of(lines, middle, last)


def chain(count, numbers, prepended=0, last=0, summary=""):
    """Routers in a line, each of the system that numbers has; the first begins a prefix, and each puts numbers before the path."""
    files = []
    for k in range(count):
        lines = [f"hostname r{k + 1}"] + (linked(2, 1, k) if k else ["ip route 10.9.0.0 255.255.255.0 Null0"]) + (linked(1, 2, k + 1) if k < count - 1 else [])
        put = last if k == count - 2 else prepended
        lines += [f"route-map OUT permit 10"] + [" set as-path prepend " + " ".join([str(numbers[k])] * put)] * (put > 0) + [f"router bgp {numbers[k]}"]
        lines += [f" neighbor 10.0.{k}.1 remote-as {numbers[k - 1]}"] if k else [" " + BEGUN] + ([" " + summary] if summary else [])
        if k < count - 1:
            lines += [f" neighbor 10.0.{k + 1}.2 remote-as {numbers[k + 1]}", f" neighbor 10.0.{k + 1}.2 route-map OUT out", f" neighbor 10.0.{k + 1}.2 next-hop-self"]
        files.append(lines)
    return files


def chain_cases():
    """Chains of systems in each number of rounds about the least; paths up to and past their limit; systems that come twice."""
    for count in (1, 2, 3, 5, 9):
        for n in range(1, count + 4):
            yield in_rounds(of(*chain(count, [65001 + k for k in range(count)])), n)
            yield in_rounds(of(*chain(count, [65001 + k // 2 for k in range(count)], summary="aggregate-address 10.9.0.0 255.255.0.0 summary-only")), n)
    for numbers in itertools.product((65001, 65002, 65003), repeat=4):
        yield of(*chain(4, list(numbers)))
    for last in range(7, 11):
        yield of(*chain(27, [65001 + k for k in range(27)], 9, last))
        yield of(*chain(26, [65001 + k for k in range(26)], 9, last))
        yield of(*chain(27, [65001 + k for k in range(25)] + [65025, 65027], 9, last))


def dispute_cases():
    """Routers that prefer each other over the direct path, in some orders and in several rounds; some of them settle."""
    for prefer, third, rounds in itertools.product((False, True), (False, True), (1, 2, 3, 4, 5, 50, 256)):
        files = [["hostname r1"] + linked(1, 2, 12) + linked(1, 3, 13) + ["ip route 10.9.0.0 255.255.255.0 Null0", "router bgp 65001", " " + BEGUN, " neighbor 10.0.12.2 remote-as 65002", " neighbor 10.0.13.3 remote-as 65003"]]
        for own, number, other, likes in ((2, 65002, 3, True), (3, 65003, 2, prefer)):
            lines = [f"hostname r{own}"] + linked(own, 1, 10 + own) + linked(own, other, 23) + ["route-map LIKE permit 10", f" set local-preference {200 if likes else 50}", f"router bgp {number}"]
            lines += [f" neighbor 10.0.{10 + own}.1 remote-as 65001", f" neighbor 10.0.23.{other} remote-as {65005 - number + 65000}", f" neighbor 10.0.23.{other} route-map LIKE in"]
            files.append(lines)
        case = of(*files) if third else of(*reversed(files))
        yield in_rounds(case, rounds)


def exchange_cases():
    """All systematic cases of this file."""
    for cases in (choice_cases, own_cases, aggregate_cases, listed_cases, community_cases, most_communities_cases, hop_cases, chain_cases, dispute_cases):
        yield from cases()

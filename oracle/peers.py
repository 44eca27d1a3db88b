"""Cases of BGP processes and sessions: their words one by one, their borders, sides of a session against each other, and random networks."""
import itertools

import oracle
from asking import some_there
from pieces import ADDRESSES, MASKS, ODD_ADDRESSES, ODD_MASKS, R, Case, Writer, b, dotted, render
from policies import ODD_NUMBERS, changed, clause_block, entry_statement
from processes import BEGINNINGS, OF_NEIGHBOR

HEAD = ["hostname r1", "interface E", " ip address 10.0.0.1 255.255.255.0", "interface F", "ip route 10.0.0.0 255.0.0.0 Null0"]
OTHER = ["hostname r2", "interface E", " ip address 10.0.0.2 255.255.255.0", "router bgp 2", " neighbor 10.0.0.1 remote-as 1"]
ASK = b"session r1 10.0.0.2\nsession r2 10.0.0.1\nsession r1 10.0.0.3\nbgp r1 10.0.0.0/8\nrib r2 10.0.0.0/8 via 10.0.0.1\nbgp r2 10.0.0.0/8 from 10.0.0.1\n"
PROCESS = ["bgp router-id 10.0.0.9", "bgp always-compare-med", "bgp bestpath as-path multipath-relax", "bgp bestpath compare-routerid", "bgp bestpath med", "bgp log-neighbor-changes",
           "maximum-paths 4", "maximum-paths 0", "maximum-paths 2 3", "address-family ipv4", "address-family ipv4 unicast", "address-family ipv6 unicast", "exit-address-family",
           "no neighbor 10.0.0.2 activate", "no neighbor 10.0.0.2 shutdown", "no auto-summary", "no bgp default ipv4-unicast", "no bgp log-neighbor-changes", "timers bgp 5 15",
           "default-metric 5", "router bgp 1", "hostname r9", "interface E", "shutdown", "ip address 10.0.0.9 255.255.255.0"] + BEGINNINGS
STARTED = ["network 10.0.0.0 mask 255.0.0.0", "network 10.0.0.0", "network 0.0.0.0", "network 10.0.0.0 mask 255.255.255.0 route-map M", "network 172.16.0.0 backdoor",
           "aggregate-address 10.0.0.0 255.0.0.0", "aggregate-address 10.0.0.0 255.0.0.0 summary-only", "aggregate-address 10.0.0.0 255.0.0.0 as-set summary-only",
           "aggregate-address 0.0.0.0 0.0.0.0 summary-only suppress-map M", "aggregate-address 10.0.0.0 255.0.0.0 attribute-map M advertise-map N"]
OF_PEER = ["remote-as 2", "remote-as 4294967295", "update-source E", "update-source F", "ebgp-multihop", "ebgp-multihop 255", "next-hop-self", "route-map M in", "route-map M out", "shutdown",
           "activate", "send-community", "send-community standard", "send-community both", "send-community extended", "description to r2", "maximum-prefix 100 80", "password 7 x",
           "soft-reconfiguration inbound", "timers 5 15", "version 4"] + OF_NEIGHBOR
PUT_IN = ["x", "0", "1", "05", "10.0.0.2", "10.0.0.256", "255.255.0.0", "mask", "all", "in", "out", "ipv4", "route-map", "as-set", "summary-only", "both", "extended", "neighbor", "remote-as"]
DEFINED = ["route-map M permit 10", "route-map N permit 10"]


def two(lines, other=None):
    return Case({b"r1.cfg": b("\n".join(lines) + "\n"), b"r2.cfg": b("\n".join(other or OTHER) + "\n")}, [b"r1.cfg", b"r2.cfg"], ASK)


def with_process(*statements, behind=()):
    """A process with these statements among others."""
    return two(HEAD + DEFINED + ["router bgp 1", " neighbor 10.0.0.2 remote-as 2"] + [" " + text for text in statements] + [" neighbor 10.0.0.2 activate"] + list(behind))


def word_cases():
    for text in dict.fromkeys(new for old in PROCESS for new in changed(old, PUT_IN)):
        yield with_process(text)
    for text in dict.fromkeys(new for old in STARTED for new in changed(old, PUT_IN)):
        yield with_process(text)
        yield with_process(text, behind=["ip route x"])                 # a fault behind it, where it is read
    for text in dict.fromkeys(new for old in OF_PEER for new in changed(old, PUT_IN)):
        yield with_process("neighbor 10.0.0.2 " + text)
        yield with_process("neighbor 10.0.0.3 " + text)                 # no number, unless this line gives it
    for text in dict.fromkeys(new for old in ("neighbor 10.0.0.2 shutdown", "neighbor 10.0.0.2", "no neighbor 10.0.0.2 activate") for new in changed(old, PUT_IN + ODD_ADDRESSES)):
        yield with_process(text)
    for text in dict.fromkeys(new for old in ("router bgp 1", "router ospf 1", "router bgp 65001", "no router bgp 1") for new in changed(old, PUT_IN)):
        yield with_process("next-hop-self", behind=[text, " neighbor 10.0.0.2 shutdown", " neighbor 10.0.0.3 activate"])
        yield two(HEAD + [text, " neighbor 10.0.0.2 remote-as 2", " neighbor 10.0.0.3 activate"])


def value_cases():
    """Numbers, addresses and masks at their borders, wherever one stands."""
    for n in ODD_NUMBERS + ["", "16", "17", "255", "256"]:
        yield two(HEAD + [f"router bgp {n}", " neighbor 10.0.0.2 remote-as 2"])
        for text in ("maximum-paths {}", "neighbor 10.0.0.2 remote-as {}", "neighbor 10.0.0.3 remote-as {}", "neighbor 10.0.0.2 ebgp-multihop {}", "neighbor 10.0.0.2 remote-as {} x", "maximum-paths {} 2"):
            yield with_process(text.format(n))
    for a in ADDRESSES + ODD_ADDRESSES:
        for text in ("bgp router-id {}", "bgp router-id {} x", "neighbor {} remote-as 2", "neighbor {} shutdown", "neighbor {}", "no neighbor {} activate", "neighbor {} weight 5"):
            yield with_process(text.format(a))
        for m in MASKS + ODD_MASKS:
            for text in ("network {} mask {}", "aggregate-address {} {}", "network {} mask {} backdoor", "aggregate-address {} {} as-set", "aggregate-address {} {} summary-only summary-only"):
                yield with_process(text.format(a, m), behind=["ip route x"])
    for first in range(257):
        for rest in ("0.0.0", "1.0.0", "0.1.0", "0.0.1", "0.0", "255.255.0", "0.0.128", "128.0.0"):
            yield with_process(f"network {first}.{rest}", behind=["ip route x"])
        yield with_process(f"network {first}.0.0.0 backdoor", behind=["ip route x"])


def block_cases():
    """Where a process begins, goes on and ends, and what stands under a faulty line of one."""
    between = ["!", "", " ", " description x", "banner motd ^C x ^C", "banner motd ^C\nrouter bgp 9\n neighbor 10.0.0.3 remote-as 3\n^C", "banner motd #x#", "end", "interface G", "interface", "router bgp 1",
               "router bgp 2", "router bgp", "router bgp x", "router bgp 0", "router bgp 1 x", "router", "router ospf 1", "no router bgp 1", "Router bgp 1", " router bgp 2", "route-map M permit 10",
               "route-map M permit", "ip prefix-list A permit 10.0.0.0/8", "hostname r1", "version 15.2", "ip route 9.0.0.0 255.0.0.0 Null0"]
    inner = [" neighbor 10.0.0.2 shutdown", "\tneighbor 10.0.0.2 next-hop-self", "neighbor 10.0.0.2 shutdown", " neighbor 10.0.0.3 remote-as 3", " neighbor 10.0.0.3 activate", " neighbor 10.0.0.3 remote-as x",
             " network 10.0.0.0", " redistribute static", " distance", " exit-address-family", "   address-family ipv4", " neighbor PG peer-group", " set metric 5", " shutdown", " neighbor 10.0.0.2 remote-as 7"]
    start = HEAD + ["router bgp 1", " neighbor 10.0.0.2 remote-as 2"]
    for text in between:
        for line in inner:
            yield two(start + [text, line, " neighbor 10.0.0.2 activate"])
            yield two(start + [" neighbor 10.0.0.3 next-hop-self", text, line])
            yield two(HEAD + [text, line, "router bgp 1", " neighbor 10.0.0.2 remote-as 2"])
    for first, second, third in itertools.product(["1", "2", "x"], repeat=3):
        for line in (" neighbor 10.0.0.2 remote-as 2", " neighbor 10.0.0.3 activate"):
            yield two(HEAD + [f"router bgp {first}", " neighbor 10.0.0.2 remote-as 2", f"router bgp {second}", line, f"router bgp {third}", " neighbor 10.0.0.3 remote-as 3"])


def numberless_cases():
    """Neighbors with and without a number, in every order of a few lines over one block, two, and another block between."""
    lines = [" neighbor 10.0.0.3 activate", " neighbor 10.0.0.3 remote-as 3", " neighbor 10.0.0.3 remote-as x", " neighbor 10.0.0.3 description x", " neighbor 10.0.0.4 shutdown", " neighbor 10.0.0.4 remote-as 2"]
    for few in itertools.permutations(lines, 4):
        yield two(HEAD + ["router bgp 1"] + list(few))
        yield two(["router bgp 1"] + list(few[:2]) + HEAD + ["router bgp 1"] + list(few[2:]))
        yield two(HEAD + ["router bgp 1"] + list(few[:2]) + ["router bgp 2"] + list(few[2:]))
    for few in itertools.permutations(lines, 3):
        yield two(HEAD + ["router bgp 1"] + list(few[:1]) + ["ip route x"] + ["router bgp 1"] + list(few[1:]))


def field_cases():
    """Each pair of statements of one neighbor, in one block and in two."""
    texts = ["remote-as 2", "remote-as 3", "update-source E", "update-source F", "update-source G", "ebgp-multihop", "route-map M in", "route-map M out", "route-map X in", "route-map X out", "shutdown",
             "no shutdown", "send-community", "send-community extended", "next-hop-self", "activate", "description x"]
    for first, second in itertools.product(texts, repeat=2):
        yield with_process("neighbor 10.0.0.2 " + first, "neighbor 10.0.0.2 " + second)
        yield with_process("neighbor 10.0.0.2 " + first, behind=["interface G", "router bgp 1", " neighbor 10.0.0.2 " + second])
        yield with_process("neighbor 10.0.0.2 " + first, "neighbor 10.0.0.3 " + second)
    for text in PROCESS[:9]:
        for again in PROCESS[:9]:
            yield with_process(text, again)


def joining_cases():
    """Names that aren't defined, beside others and beside the limits, and beside networks and aggregates."""
    names = {"source": " neighbor 10.0.0.2 update-source X", "in": " neighbor 10.0.0.2 route-map X in", "out": " neighbor 10.0.0.2 route-map X out", "route": "ip route 9.0.0.0 255.0.0.0 X 10.0.0.2",
             "list": "route-map M permit 10\n match ip address prefix-list X", "community": "route-map N permit 10\n match community X"}
    defined = ["!", "interface X", "route-map X deny 5", "ip prefix-list X permit 10.0.0.0/8", "ip community-list standard X permit 1:1", "route-map X permit", "interface X\n shutdown"]
    start = HEAD + ["router bgp 1", " neighbor 10.0.0.2 remote-as 2"]
    for first, second in itertools.product(names.values(), repeat=2):
        for line in defined:
            for order in ([line, "router bgp 1", first, "router bgp 1", second], ["router bgp 1", first, "router bgp 1", second, line]):
                yield two(start + order)
            yield two(start + ["router bgp 1", first], OTHER + [second.replace("10.0.0.2", "10.0.0.1"), line])
    started = [" network 10.0.0.0", " network 10.9.0.0 mask 255.255.0.0", " aggregate-address 10.0.0.0 255.0.0.0", " aggregate-address 10.0.0.0 255.0.0.0 summary-only", " neighbor 10.0.0.2 activate"]
    for few in itertools.permutations(started, 3):
        yield two(start + list(few))
        yield two(start, OTHER + list(few))
        yield two(start + list(few[:1]), OTHER + list(few[1:]))
        yield two(start + ["router bgp 1"] + list(few), OTHER + ["interface G", " ip address 10.0.0.1 255.255.255.255"])
        yield two(start + list(few), ["hostname r1"])
        yield two(start + list(few) + [" neighbor 10.0.0.2 update-source X"], OTHER + list(few))


def counted_cases():
    """Prefixes and neighbors up to and past their limits, in one process and over several files."""
    peers = lambda first, count: [f" neighbor 10.9.{k // 256}.{k % 256} remote-as 2" for k in range(first, first + count)]
    begun = lambda first, count: [f" network 20.{k // 256}.{k % 256}.0 mask 255.255.255.0" for k in range(first, first + count)]
    sums = lambda first, count: [f" aggregate-address 20.{k // 256}.{k % 256}.0 255.255.255.0" for k in range(first, first + count)]
    for n in (1023, 1024, 1025):
        yield two(HEAD + ["router bgp 1"] + peers(0, n), OTHER[:4])
        yield two(HEAD + ["router bgp 1"] + peers(0, n - 1))
        yield two(HEAD + ["router bgp 1"] + peers(0, n) + peers(0, n), OTHER[:4])
        for lines in (begun(0, n), sums(0, n), begun(0, n - 1), begun(0, 500) + sums(400, n - 400), begun(0, n) + sums(0, n), peers(0, 1025) + begun(0, n)):
            yield two(HEAD + ["router bgp 1"] + lines, OTHER[:4])
        files = {b"f%02d.cfg" % k: b("\n".join([f"hostname f{k}", "router bgp 1"] + peers(0, n // 16 + (n % 16 if k == 0 else 0))) + "\n") for k in range(16)}
        yield Case(files, sorted(files), b"session f0 10.9.0.0\n")
        yield Case({**files, b"g.cfg": b"hostname g\nrouter bgp 7\n neighbor 1.1.1.1 update-source X\n neighbor 1.1.1.1 remote-as 7\n"}, sorted(files) + [b"g.cfg"], b"")


# --- two sides of a session -------------------------------------------------------------------------
TARGETS = {"link": "10.0.12.{}", "loopback": "192.168.0.{}", "second": "10.0.13.{}", "away": "10.2{}.0.1"}
SOURCES = ["", "Loopback0", "A", "B", "C", "Null0"]
ROUTES = [[], ["{h} 10.0.12.{o}"], ["{h} 10.0.13.{o}"], ["{h} 10.0.12.{o}", "{h} 10.0.13.{o}"], ["{h} 10.0.13.{o}", "{h} 10.0.12.{o}"], ["0.0.0.0 0.0.0.0 10.0.12.{o}"],
          ["{h} Null0"], ["{h} Null0", "{h} 10.0.13.{o}"], ["{h} Null0", "0.0.0.0 0.0.0.0 10.0.12.{o}"], ["{h} 10.0.12.{o} 5", "{h} B 10.0.13.{o}"], ["{h} 10.0.12.{o} 255"],
          ["10.0.12.{o} 255.255.255.255 10.0.13.{o}", "{h} 10.0.12.{o}"], ["0.0.0.0 0.0.0.0 10.0.12.{s}"], ["192.168.0.0 255.255.0.0 C 10.2{s}.0.9", "{h} 10.0.12.{o}"]]
WRONG = ["", "neighbor", "A", "B", "Loopback0", "number", "process", "address", "mask"]


def side(own, asn, peer, target, source, routes, multihop, wrong):
    """The lines of one of two routers."""
    other = 3 - own
    address = TARGETS[target].format(other)
    lines = [f"hostname r{own}"]
    for name, a, m in (("Loopback0", f"192.168.0.{own}", "255.255.255.255"), ("A", f"10.0.12.{own}", "255.255.255.252"), ("B", f"10.0.13.{own}", "255.255.255.252"), ("C", f"10.2{own}.0.1", "255.255.255.0")):
        m = "255.255.255.248" if wrong == "mask" and name == "A" else m
        lines += [f"interface {name}", f" ip address {a} {m}"] + ([" shutdown"] if wrong == name else [])
    lines += ["interface Null0"] + ["ip route " + text.format(h=f"{address} 255.255.255.255", o=other, s=own) for text in routes]
    if wrong == "process":
        return lines
    a = f"10.0.12.{other + 1}" if wrong == "address" else address
    lines += [f"router bgp {asn}", f" neighbor {a} remote-as {peer + (wrong == 'number')}"]
    lines += [f" neighbor {a} update-source {source}"] * (source != "") + [f" neighbor {a} ebgp-multihop"] * multihop + [f" neighbor {a} shutdown"] * (wrong == "neighbor")
    return lines


def asks_of(target):
    return b("".join(f"session r{own} {TARGETS[target].format(3 - own)}\n" for own in (1, 2)))


def sides_case(numbers, first, second):
    files = {b"r1.cfg": b("\n".join(side(1, *numbers, *first)) + "\n"), b"r2.cfg": b("\n".join(side(2, *reversed(numbers), *second)) + "\n")}
    asks = asks_of(first[0]) + (b"" if first[0] == second[0] else asks_of(second[0]))
    return Case(files, sorted(files), asks + b"session r1 10.0.12.3\nrib r1 10.0.12.0/30\n")


def side_cases():
    """Both sides alike, and both sides alike but for one thing that is wrong on one of them."""
    for target, source, routes, multihop in itertools.product(TARGETS, SOURCES, ROUTES, (False, True)):
        for numbers in ((1, 1), (1, 2)):
            for wrong in WRONG[:1] if source in ("B", "C", "Null0") else WRONG:
                yield sides_case(numbers, (target, source, routes, multihop, ""), (target, source, routes, multihop, wrong))


def mixed_cases():
    """A side that is in order, with every other side against it."""
    good = [("link", "", [], False), ("loopback", "Loopback0", ["{h} 10.0.12.{o}"], True), ("second", "A", [], True)]
    for first, numbers in itertools.product(good, ((1, 1), (1, 2))):
        for second in itertools.product(TARGETS, SOURCES[:4], ROUTES[:8], (False, True), WRONG):
            yield sides_case(numbers, first + ("",), second)


def kind_sides():
    """Two sides that have nothing to do with each other, or mostly."""
    pick = lambda: (R.choice(list(TARGETS)), R.choice(SOURCES[: R.choice([2, 6])]), R.choice(ROUTES), R.random() < 0.5, R.choice(WRONG) if R.random() < 0.2 else "")
    first = pick()
    second = tuple(x if R.random() < 0.7 else y for x, y in zip(first[:4], pick())) + (pick()[4],)
    return sides_case(R.choice([(1, 1), (1, 2)]), first, second)


def chain_cases():
    """Sessions over so many routers: past 30 steps the other side isn't reached."""
    for count in (2, 3, 4, 5, 29, 30, 31, 32, 33, 40):
        for back in (True, False):
            files = {}
            for k in range(count):
                lines = [f"hostname r{k}", "interface Loopback0", f" ip address 192.168.0.{k} 255.255.255.255"]
                if k:
                    lines += ["interface L", f" ip address 10.1.{k - 1}.2 255.255.255.252"] + (["ip route 192.168.0.0 255.255.255.255 " + f"10.1.{k - 1}.1"] if back or k > 1 else [])
                if k < count - 1:
                    lines += ["interface R", f" ip address 10.1.{k}.1 255.255.255.252", f"ip route 0.0.0.0 0.0.0.0 10.1.{k}.2"]
                if k in (0, count - 1):
                    a = f"192.168.0.{count - 1 - k}"
                    lines += ["router bgp 1", f" neighbor {a} remote-as 1", f" neighbor {a} update-source Loopback0"]
                files[b"r%02d.cfg" % k] = b("\n".join(lines) + "\n")
            yield Case(files, sorted(files), b(f"session r0 192.168.0.{count - 1}\nsession r{count - 1} 192.168.0.0\n"))


def peer_cases():
    """All systematic cases of this file."""
    for cases in (word_cases, value_cases, block_cases, numberless_cases, field_cases, joining_cases, counted_cases, side_cases, mixed_cases, chain_cases):
        yield from cases()


# --- random networks -------------------------------------------------------------------------------
NUMBERS = [65001, 65001, 65002, 65003]


class Wires:
    """Routers, the addresses of their interfaces, and the links between them."""

    def __init__(self, count):
        self.count = count
        self.numbers = [R.choice(NUMBERS) for _ in range(count)]
        self.faces = [[("Loopback0", 0xC0A80000 + k + 1, 32)] if R.random() < 0.85 else [] for k in range(count)]
        self.links = []                                          # (router, its address, router, its address)
        for k in range(R.choice([count - 1, count, count + 1, count + 2])):
            a, z = (k, k + 1) if k < count - 1 and R.random() < 0.9 else R.sample(range(count), 2)
            base, length = 0x0A000000 + (k << 8), R.choice([24, 30, 30, 31])
            ends = (base, base + 1) if length == 31 else (base + 1, base + 2)
            for r, address in zip((a, z), ends):
                self.faces[r].append((f"Ethernet{k}", address, length if R.random() < 0.97 else 29))
            self.links.append((a, ends[0], z, ends[1]))
        self.pairs = [link for link in self.links if R.random() < 0.8]   # (router, its address, router, its address) of a session
        for r, s in itertools.combinations(range(count), 2):
            if R.random() < (0.8 if self.numbers[r] == self.numbers[s] else 0.3) and self.faces[r][:1] and self.faces[s][:1]:
                self.pairs.append((r, self.faces[r][0][1], s, self.faces[s][0][1]))

    def steps(self, s):
        """How many links each router is away from s."""
        away = {s: 0}
        for _ in range(self.count):
            for a, _, z, _ in self.links:
                for here, there in ((a, z), (z, a)):
                    if here in away:
                        away[there] = min(away.get(there, 99), away[here] + 1)
        return away

    def toward(self, r, s):
        """The addresses at the other ends of links of r that lead to s on a shortest way."""
        away = self.steps(s)
        ends = [(z, there) for a, here, z, there in self.links if a == r] + [(a, here) for a, here, z, there in self.links if z == r]
        return [there for z, there in ends if away.get(z, 99) < away.get(r, 99)]

    def next_hops(self, r):
        """Addresses at the other ends of the links of r."""
        return [there for a, here, z, there in self.links if a == r] + [here for a, here, z, there in self.links if z == r]

    def addresses(self, r):
        return [a for _, a, _ in self.faces[r]]


def routes_of(wires, r):
    """Static routes to what isn't next to the router, over the links that it has."""
    hops, lines = wires.next_hops(r), []
    for s in range(wires.count):
        near = (wires.toward(r, s) if R.random() < 0.9 else []) or hops or [0x0A000002]
        for a in wires.addresses(s) if s != r else []:
            for hop in near[: R.choice([1, 9])] if R.random() < (0.95 if a >> 24 == 192 else 0.2) else []:
                hop = dotted(hop)
                through = R.choice([name for name, _, _ in wires.faces[r]] or ["Ethernet9"])
                via = R.choice([hop] * 30 + [f"{through} {hop}", "Null0"])
                lines.append(f"ip route {dotted(a)} 255.255.255.255 {via}{R.choice(['', '', '', '', ' 5', ' 20', ' 200', ' 255'])}")
    if hops and R.random() < 0.3:
        lines.append(f"ip route 0.0.0.0 0.0.0.0 {dotted(R.choice(hops))}")
    return lines


def neighbor_lines(wires, r, a, number, maps):
    name = f"neighbor {dotted(a)}"
    lines = [f"{name} remote-as {number if R.random() < 0.95 else R.choice(NUMBERS)}"] if R.random() < 0.998 else []
    faces = [face for face, _, _ in wires.faces[r]]
    if R.random() < (0.95 if a >> 24 == 192 else 0.04) and faces:
        lines.append(f"{name} update-source {R.choice(faces[:1] * 25 + faces) if R.random() < 0.995 else 'Ethernet9'}")
    if R.random() < (0.9 if a >> 24 == 192 else 0.2):
        lines.append(name + R.choice([" ebgp-multihop", " ebgp-multihop 2"]))
    for text, share in (("next-hop-self", 0.3), ("send-community", 0.4), ("shutdown", 0.03), ("activate", 0.2), ("description text", 0.1), ("send-community both", 0.1)):
        lines += [f"{name} {text}"] * (R.random() < share)
    for way in ("in", "out"):
        if maps and R.random() < 0.4:
            lines.append(f"{name} route-map {R.choice(maps) if R.random() < 0.995 else 'NONE'} {way}")
    return lines


def begun_lines(wires, r):
    """Networks of what the router has, and aggregates around them."""
    lines = []
    for _, a, length in wires.faces[r]:
        if R.random() < 0.5:
            lines.append(f"network {dotted(a & oracle.bits(length))} mask {dotted(oracle.bits(length))}")
    lines += [f"network 10.9.{k}.0 mask 255.255.255.0" for k in range(3) if R.random() < 0.25]
    for text in ("10.9.0.0 255.255.0.0", "10.0.0.0 255.0.0.0", "192.168.0.0 255.255.0.0", "0.0.0.0 0.0.0.0", "10.9.0.0 255.255.254.0"):
        if R.random() < 0.15:
            lines.append(f"aggregate-address {text}{R.choice(['', ' summary-only'])}")
    return lines


def process_block(wires, r, maps, begin):
    """The statements of a process, in some order, in one block or two."""
    lines = []
    targets = [(s, there) for a, here, s, there in wires.pairs if a == r] + [(s, here) for s, here, a, there in wires.pairs if a == r]
    for s, a in dict.fromkeys(targets):
        lines += neighbor_lines(wires, r, a, wires.numbers[s], maps) if R.random() < 0.97 else []
    for s in range(wires.count):
        for a in wires.addresses(s):
            lines += neighbor_lines(wires, r, a, wires.numbers[s], maps) if R.random() < 0.03 else []
    for text, share in ((f"bgp router-id {R.choice([1, 2, 9])}.0.0.1", 0.3), ("bgp always-compare-med", 0.1), ("bgp bestpath as-path multipath-relax", 0.4), ("bgp log-neighbor-changes", 0.1),
                        (f"maximum-paths {R.choice([1, 2, 3, 16])}", 0.5), ("address-family ipv4", 0.1), ("exit-address-family", 0.1)):
        lines += [text] * (R.random() < share)
    lines += begun_lines(wires, r) if begin else []
    if R.random() < 0.3:
        R.shuffle(lines)
    header = f"router bgp {wires.numbers[r]}"
    cut = R.randrange(len(lines) + 1) if R.random() < 0.2 else len(lines)
    blocks = [(header, lines[:cut])] + ([(header if R.random() < 0.95 else "router bgp 7", lines[cut:])] if cut < len(lines) else [])
    return blocks if R.random() < 0.96 else []


def policy_of(maps):
    """Prefix lists, community lists and clauses of these maps."""
    entries = [entry_statement(name) for name in ("A", "B") for _ in range(R.choice([1, 2]))] + ["ip prefix-list A permit 0.0.0.0/0 le 32"]
    communities = [f"ip community-list standard C {R.choice(['permit', 'deny'])} {c}" for c in ("1:1", "65001:7", "1:1 65001:7")]
    clauses = []
    for name in maps:
        for number in R.sample([5, 10, 20], R.choice([1, 2, 3])):
            _, body = clause_block(["A", "A", "B"], ["C"])
            clauses.append((f"route-map {name} {R.choice(['permit', 'permit', 'permit', 'deny'])} {number}", body))
    return [(text, []) for text in entries + communities] + clauses


def peers_network(odd, begin):
    wires = Wires(R.choice([2, 2, 3, 3, 4, 5]))
    files = []
    for r in range(wires.count):
        maps = R.choice([[], ["M"], ["M", "N"]])
        blocks = []
        for name, a, length in wires.faces[r]:
            blocks.append((f"interface {name}", [f"ip address {dotted(a)} {dotted(oracle.bits(length))}"] + ["shutdown"] * (R.random() < 0.03)))
        blocks += [(text, []) for text in routes_of(wires, r)] + [(f"ip route 10.9.{k}.0 255.255.255.0 Null0", []) for k in range(3) if begin and R.random() < 0.3]
        blocks += policy_of(maps) if maps else []
        blocks += process_block(wires, r, maps, begin)
        if R.random() < 0.2:
            R.shuffle(blocks)
        out = Writer(odd)
        out.add(f"hostname r{r + 1}")
        for header, body in blocks:
            if R.random() < 0.3:
                out.noise(False)
            out.add(header)
            for line in body:
                out.add(line, R.choice([b" ", b" ", b" ", b"  ", b"\t"]))
        files.append(out.lines)
    return wires, files


def peers_session(wires, begin):
    asks = []
    for r in range(wires.count):
        for s in range(wires.count):
            asks += [f"session r{r + 1} {dotted(a)}" for a in wires.addresses(s) if R.random() < 0.1]
    for r, here, s, there in wires.pairs:
        asks += [f"session r{r + 1} {dotted(there)}", f"session r{s + 1} {dotted(here)}"]
    prefixes = [f"{dotted(a & oracle.bits(length))}/{length}" for faces in wires.faces for _, a, length in faces]
    if begin:
        prefixes += ["10.9.0.0/24", "10.9.1.0/24", "10.9.2.0/24", "10.9.0.0/16", "10.0.0.0/8", "192.168.0.0/16", "0.0.0.0/0", "10.9.0.0/23"]
    for r in range(wires.count):
        for prefix in prefixes:
            asks += [f"{R.choice(['rib', 'bgp'])} r{r + 1} {prefix}"] if R.random() < (0.5 if begin else 0.05) else []
            if begin and R.random() < 0.2:
                a = dotted(R.choice(wires.addresses(R.randrange(wires.count)) or [0]))
                asks.append(R.choice([f"rib r{r + 1} {prefix} via {a}", f"bgp r{r + 1} {prefix} from {a}"]))
    for r in range(wires.count):
        asks += [f"{R.choice(['reach', 'every'])} r{r + 1} {dotted(a)}" for s in range(wires.count) for a in wires.addresses(s) + [0x0A090001] if R.random() < 0.3]
        asks += [f"element r{r + 1} {R.randrange(60)}"] * (R.random() < 0.5)
    R.shuffle(asks)
    return b("\n".join(asks[: R.choice([5, 10, 40])]) + "\n")


def kind_peers():
    """Networks with processes and sessions over links, static routes and loopbacks."""
    begin = R.random() < 0.7
    odd = R.choice([0] * 8 + [0.01, 0.05])
    wires, files = peers_network(odd, begin)
    data = {b"r%d.cfg" % (k + 1): render(lines) if odd else b"\n".join(lines) + b"\n" for k, lines in enumerate(files)}
    words = sorted(data)
    present = b("\n".join(some_there(data, words, R.choice([0, 3, 10]))) + "\n")
    if R.random() < 0.3:
        words = [b"--rounds", b"%d" % R.choice([1, 2, 3, 4, 5, 6, 10])] + words
    return Case(data, words, R.choice([peers_session(wires, begin) + present, present + peers_session(wires, begin)]))

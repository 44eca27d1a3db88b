"""Cases of access lists and flows: statements word by word, their borders, filters beside each other, and random networks with filters."""
import itertools

import oracle
from asking import joined, of_flows, there, with_questions
from pieces import R, Case, b, dotted, mutate_words, render, write_words
from policies import ODD_NUMBERS, changed

# --- one thing after the other ---------------------------------------------------------------------
HEAD = ["hostname r1", "interface E", " ip address 10.0.0.1 128.0.0.0", "interface F", " ip address 200.0.0.1 128.0.0.0"]
ASK = "flow r1 10.9.0.9 10.0.0.9\nflow r1 10.9.0.1 10.0.0.9\nflow r1 10.9.0.1 200.0.0.9\nlcov\ndead\n"
STANDARD = ["permit any", "deny host 10.9.0.9", "permit 10.9.0.9", "deny 10.9.0.0 0.0.0.254 log", "10 permit any log"]
EXTENDED = ["permit ip any any", "deny ip host 10.9.0.9 10.0.0.0 0.0.255.255 log", "permit ip 10.9.0.0 0.0.0.254 host 10.0.0.9 log-input", "20 deny tcp any any eq 80",
            "permit any any", "remark permit ip any any"]
NUMBERED = ["access-list 7 permit 10.9.0.0 0.0.0.255 log", "access-list 107 deny ip any host 10.0.0.9", "access-list 7 remark permit any"]
GROUPS = ["ip access-group F out", "ip access-group 7 in"]
PUT_IN = ["x", "0", "05", "20", "permit", "deny", "any", "host", "ip", "tcp", "log", "log-input", "10.9.0.9", "10.9.0.256", "0.0.0.255", "in", "out", "remark"]
IN_FORCE = {"in force": ["ip access-group F out"], "not in force": [], "replaced": ["ip access-group F out", "ip access-group G out"], "of both": ["ip access-group G in", "ip access-group F out"]}


def one(lines, ask=ASK):
    return Case({b"r1.cfg": b("\n".join(lines) + "\n")}, [b"r1.cfg"], b(ask))


def applied(groups, lines, ask=ASK):
    """A router that filters by these lines of its first interface."""
    return one(HEAD[:3] + [" " + text for text in groups] + HEAD[3:] + list(lines), ask)


def word_cases():
    listed = [(f"ip access-list {kind} F", " " + new) for kind, texts in (("standard", STANDARD), ("extended", EXTENDED)) for old in texts for new in changed(old, PUT_IN)]
    for header, text in dict.fromkeys(listed):
        for groups in IN_FORCE.values():
            yield applied(groups, [header, text, " permit host 10.9.0.1", " permit ip any any", "ip access-list standard G", " permit any x"] if groups != IN_FORCE["replaced"]
                          else [header, text, "ip access-list standard G", " permit any"])
    for text in dict.fromkeys(new for old in NUMBERED for new in changed(old, PUT_IN)):
        for groups in (["ip access-group 7 out"], ["ip access-group 107 out"], []):
            yield applied(groups, [text, "access-list 7 permit host 10.9.0.1"])
    for text in dict.fromkeys(new for old in GROUPS for new in changed(old, PUT_IN)):
        yield applied([text], ["ip access-list standard F", " deny host 10.9.0.9", " permit any"])
        yield applied([text, "description x"], ["ip access-list standard F", " deny host 10.9.0.9", " permit any x"])


def number_cases():
    """Numbers of lists and of entries at their borders."""
    borders = [str(n) for n in (0, 1, 99, 100, 101, 199, 200, 299, 1299, 1300, 1999, 2000, 2699, 2700)]
    for n in borders + ODD_NUMBERS:
        for rest in ("permit host 10.9.0.9", "permit ip host 10.9.0.9 any", "permit tcp any any", "permit", "deny any x"):
            yield applied([f"ip access-group {n} out"], [f"access-list {n} {rest}"])
            yield applied([], [f"access-list {n} {rest}"])
        yield applied(["ip access-group F out"], ["ip access-list standard F", f" {n} deny host 10.9.0.9", " permit any"])
        yield applied(["ip access-group F out"], [f"ip access-list standard {n}", " deny host 10.9.0.9", f"ip access-list extended {n}", " permit ip any any"])


def bit_cases():
    """Each bit of a wildcard, of the source and of the destination, and wildcards with holes."""
    flips = [0] + [1 << k for k in range(32)]
    for wild in flips + [0xFFFFFFFF, 0x000000FF, 0x0000FF00, 0x00FF00FF, 0x55555555, 0xFFFFFFFE, 0x7FFFFFFF, 0x80000001]:
        for a in (0x0A090009, 0xC8000009, 0x0A090009 | wild):
            sources = "".join(f"flow r1 {dotted(0x0A090009 ^ flip)} 10.0.0.9\nflow r1 {dotted(a ^ flip)} 200.0.0.9\n" for flip in flips)
            groups = ["ip access-group F out", "interface F", " ip access-group F out"]
            yield applied(groups[:1], ["ip access-list standard F", f" permit {dotted(a)} {dotted(wild)}", "interface F", " ip access-group F out"], sources)
            targets = "".join(f"flow r1 10.9.0.9 {dotted(a ^ flip)}\n" for flip in flips)
            yield applied(groups[:1], ["ip access-list extended F", f" permit ip any {dotted(a)} {dotted(wild)}", "interface F", " ip access-group F out"], targets)


def block_cases():
    """Where a list begins, goes on and ends."""
    between = ["!", "", " ", " remark x", "banner motd ^C x ^C", "banner motd ^C\nip access-list standard G\n^C", "end", "interface G", "ip access-list standard F", "ip access-list extended F",
               "ip access-list extended G", "ip access-list standard F x", "ip access-list standard", "ip access-list", "ip access-list F", "ip access-list named F", "no ip access-list standard F",
               "Ip access-list standard F", "ipv6 access-list F", "access-list 7 permit any", "access-list", "access-list 7", " ip access-list extended G", "ip prefix-list A permit 10.0.0.0/8",
               "route-map M permit 10", "router bgp 1", "hostname r1", "ip route 9.0.0.0 255.0.0.0 Null0"]
    inner = [" deny host 10.9.0.9", "\t20 deny host 10.9.0.9", "deny host 10.9.0.9", " deny ip host 10.9.0.9 any", " deny tcp any any", " deny host", " shutdown", " no deny any", " access-list 7 deny any", " ip access-group F out"]
    for header, text, line in itertools.product(("ip access-list standard F", "ip access-list extended F", "access-list 7 permit host 10.9.0.1"), between, inner):
        yield applied(["ip access-group F out"], [header, text, line, " permit 10.9.0.1", " permit ip any any"])
        yield applied(["ip access-group F out"], ["ip access-list standard F", " permit any", header, text, line])


def order_cases():
    """Entries of two lists among each other, by their names and by numbers."""
    entries = ["ip access-list standard 7\n 30 deny host 10.9.0.9", "access-list 7 permit host 10.9.0.9", "ip access-list extended 7\n 10 permit ip any host 10.0.0.9", "access-list 107 deny ip any any",
               "ip access-list extended 7\n permit tcp any any", "ip access-list standard 107\n permit any", "access-list 7 deny any"]
    for few in itertools.permutations(entries, 3):
        for name in ("7", "107"):
            yield applied([f"ip access-group {name} out"], few)


def group_cases():
    """Filters of an interface beside each other: the last of a direction, lists that aren't there, and an odd entry of each list."""
    lists = [f"ip access-list standard {name}\n {text}" for name, text in (("F", "deny host 10.9.0.9"), ("G", "permit host 10.9.0.9"), ("H", "permit any"))]
    texts = [f"ip access-group {name} {way}" for name in ("F", "G", "X") for way in ("in", "out")] + ["no ip access-group F out", "ip access-group F", "ip access-group", "ip access-group F both", "shutdown", "no ip address"]
    for few in itertools.product(texts, repeat=3):
        yield applied(few, lists)
        yield applied(few[:1], [*lists, "ip access-list extended F", " permit ip any", "ip access-list standard G", " permit any x", "interface E", *(" " + text for text in few[1:])])


def filter_cases():
    """All systematic cases of this file."""
    for cases in (word_cases, number_cases, bit_cases, block_cases, order_cases, group_cases):
        yield from cases()


# --- random networks -------------------------------------------------------------------------------
WILDS = ["0.0.0.0", "0.0.0.255", "0.0.0.255", "0.0.255.255", "0.0.0.1", "0.0.0.254", "0.0.0.14", "0.255.0.255", "0.7.0.255", "255.255.255.255", "255.0.255.0"]
NAMES = ["F", "F", "G", "7", "107", "1300", "2000", "permit", "any"]
REST = [" remark permit ip any any", " exit", " no 10", "!", "", " evaluate F", " 10 remark x", " permit", " deny any", " permit any log-input", " permit ip any", " 30 deny 10.1.0.9 0.0.0.255 x", " permit ip any any fragments"]


class Edges:
    """Routers along a line or a ring, some neighbors with two links, each with a network of its own; some of them speak BGP."""

    def __init__(self):
        self.count = R.choice([1, 2, 2, 2, 3, 3, 4])
        pairs = [(k, k + 1) for k in range(self.count - 1)] + ([(0, self.count - 1)] if self.count > 2 and R.random() < 0.5 else [])
        self.links = [pair for pair in pairs for _ in range(R.choice([1, 1, 2, 2, 3]))]
        self.static, self.spoken = R.choice([(1, 0), (0.95, 0), (0.95, 0.9), (0.3, 1), (0, 1)])
        self.hosts = [f"10.{r + 1}.0.{k}" for r in range(self.count) for k in (0, 1, 5, 9)] + ["10.9.0.1", "172.16.0.1"]

    def ends(self, r):
        """Of each link of a router: its number, the own and the other end, and the router there."""
        return [(n, pair.index(r) + 1, 2 - pair.index(r), pair[1 - pair.index(r)]) for n, pair in enumerate(self.links) if r in pair]

    def steps(self, r, target):
        """How many links are on the shortest way."""
        return 0 if r == target else min(abs(r - target), self.count - abs(r - target) if (0, self.count - 1) in self.links else 99)


def side(edges):
    way = R.random()
    if way < 0.3:
        return "any"
    return f"host {R.choice(edges.hosts)}" if way < 0.5 else f"{R.choice(edges.hosts)} {R.choice(WILDS)}"


def entry_text(edges, kind):
    number, action, log = R.choice(["", "", "10 ", "5 "]), R.choice(["permit", "permit", "deny"]), R.choice(["", "", "", " log"])
    if kind == "standard":
        return f"{number}{action} {R.choice([side(edges), side(edges), R.choice(edges.hosts)])}{log}"
    if R.random() < 0.15:
        return f"{number}{action} {R.choice(['tcp any any eq 80', 'udp any any', 'icmp any any', '50 any any', 'any any', 'object-group G any'])}"
    return f"{number}{action} ip {side(edges)} {side(edges)}{log}"


def list_lines(edges, name):
    """A list in one of its forms, sometimes in two; the share of odd entries is small."""
    numbered = name.isdigit() and R.random() < 0.6
    kind = ("standard" if name in ("7", "1300") else "extended") if numbered else R.choice(["standard", "extended", "extended"])
    texts = [entry_text(edges, kind) for _ in range(R.choice([0, 1, 1, 2, 3, 5]))] + [R.choice(["permit ip any any", "permit ip any any log-input"]) if kind == "extended" else "permit any"] * (R.random() < 0.6)
    if kind == "extended" and R.random() < 0.12:
        texts = [f"{R.choice(['permit', 'deny'])} {R.choice(['tcp any any eq 80', 'icmp any any', 'any any'])}" for _ in range(R.choice([1, 1, 2]))]
    if numbered:
        return [f"access-list {name} " + text[text.index(" ") + 1 if text[0].isdigit() else 0:] for text in texts]
    lines = [f"ip access-list {kind} {name}"] + [" " + text for text in texts]
    for _ in range(R.choice([0] * 6 + [1, 2])):
        lines.insert(R.randrange(1, len(lines) + 1), R.choice(REST[:6] if R.random() < 0.6 else REST))
    return lines


def group_lines(names):
    """The filters of an interface, some of them replaced."""
    lines = []
    for way, share in (("in", 0.3), ("out", 0.25)):
        if R.random() < share:
            lines += [f" ip access-group {R.choice(names + ['none'] * (R.random() < 0.1))} {way}" for _ in range(R.choice([1, 1, 1, 2]))]
    return lines + [R.choice([" ip access-group F", " ip access-group F in x", " ip access-group common in", " no ip access-group F in"])] * (R.random() < 0.03)


def route_lines(edges, r):
    """Routes to the networks of the others over each link that is on a shortest way."""
    lines = []
    for target in range(edges.count):
        hops = [(n, far) for n, _, far, s in edges.ends(r) if edges.steps(s, target) < edges.steps(r, target)]
        lines += [f"ip route 10.{target + 1}.0.0 255.255.255.0 10.0.{n}.{far}" for n, far in hops if R.random() < edges.static]
    return lines + [R.choice(["ip route 0.0.0.0 0.0.0.0 Null0", "ip route 10.9.0.0 255.255.0.0 Null0"])] * (R.random() < 0.1)


def process_lines(edges, r):
    if R.random() >= edges.spoken:
        return []
    lines = [f"router bgp {65001 + r}", " maximum-paths 4", " bgp bestpath as-path multipath-relax"][: R.choice([1, 2, 3, 3])]
    lines += [f" neighbor 10.0.{n}.{far} remote-as {65001 + s}" for n, _, far, s in edges.ends(r)]
    return lines + [f" network 10.{r + 1}.0.0 mask 255.255.255.0"] * (R.random() < 0.95)


def router_lines(edges, r):
    names = R.sample(NAMES, R.choice([1, 1, 2, 3]))
    lines = [f"hostname r{r + 1}"]
    for n, own, _, _ in edges.ends(r):
        lines += [f"interface Ethernet{n}", f" ip address 10.0.{n}.{own} 255.255.255.252"] + group_lines(names) + [" shutdown"] * (R.random() < 0.02)
    lines += ["interface Lan0", f" ip address 10.{r + 1}.0.1 255.255.255.0"] + group_lines(names)
    blocks = [route_lines(edges, r), process_lines(edges, r)] + [list_lines(edges, R.choice(names + NAMES[:1])) for _ in range(R.choice([1, 2, 2, 3]))]
    blocks += [["interface Lan0"] + group_lines(names)] * (R.random() < 0.2)
    R.shuffle(blocks)
    return lines + [line for block in blocks for line in block]


def written(lines, odd):
    """The bytes of a file, of which few lines are changed."""
    out = []
    for line in lines:
        ws, indent = b(line).split(), b" " if line[:1] == " " else b""
        out.append(write_words(mutate_words(ws) if ws and R.random() < odd else ws, indent))
    return render(out) if R.random() < 0.1 else b"\n".join(out) + b"\n"


def odd_flows(edges):
    """Lines that look like a flow, few of which are one."""
    a, d = R.choice(edges.hosts), R.choice(edges.hosts)
    return [R.choice([f"flow r9 {a} {d}", f"flow r1 {a}", f"flow r1 {a} {d} {d}", f"flow r1 {a} {d}/32", f"Flow r1 {a} {d}", f"flow {a} {d}", f"flow r1  {a}\t{d} ", f"flow r1 10.0.0.256 {d}", f"flow r1 {a} any",
                      f"flow r1 {a} {d} log", "flow", "flow r1", f"every r1 {a} {d}", f"flow r1 0.0.0.0 {d}", f"flow r1 {a} 255.255.255.255"])] * (R.random() < 0.3)


def asks_of(edges, case):
    """Flows that are there and that aren't, beside other tests and questions."""
    net, rounds = joined(case.files, case.words)
    if net is None:
        return []
    hosts = [oracle.address(b(a)) for a in edges.hosts]
    present, absent = of_flows(net, hosts, 24) if rounds else ([], [])
    others = there(net) if rounds else []
    asks = R.sample(present, min(len(present), R.choice([2, 4, 6]))) + R.sample(absent, min(len(absent), R.choice([0, 1, 2, 3]))) + R.sample(others, min(len(others), R.choice([0, 2, 4])))
    R.shuffle(asks)
    return with_questions(net, asks + odd_flows(edges))


def kind_filters():
    """Few routers with filters at their interfaces, and flows from anywhere to anywhere."""
    edges = Edges()
    odd = R.choice([0] * 9 + [0.02, 0.1])
    files = {b"r%d.cfg" % (r + 1): written(router_lines(edges, r), odd) for r in range(edges.count)}
    case = Case(files, sorted(files), b"")
    return Case(files, case.words, b("".join(line + "\n" for line in asks_of(edges, case) or [f"flow r1 {R.choice(edges.hosts)} {R.choice(edges.hosts)}"])))

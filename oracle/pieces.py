"""What the cases of the comparison are made of: odd words, statements with their blocks, random files and sessions.

The generators reach the odd corners on purpose: statements with a word missing, changed or too many, banners of
every kind, blanks and carriage returns where nobody expects them, addresses and masks at their borders.
"""
import random

import oracle

R = random.Random()


class Case:
    """files: what each name has, None for a folder; words: the words; session: the bytes of standard input"""

    def __init__(self, files, words, session):
        self.files, self.words, self.session = files, words, session


# --- building blocks --------------------------------------------------------------------------------
ADDRESSES = ["10.0.0.1", "10.0.0.2", "10.0.0.3", "10.0.1.1", "10.0.1.2", "10.0.12.1", "10.0.12.2", "10.0.2.1", "10.0.2.2", "10.9.0.1",
             "10.9.1.7", "0.0.0.0", "255.255.255.255", "128.0.0.1", "192.168.0.1", "10.0.0.0", "10.0.0.255"]
ODD_ADDRESSES = ["10.0.0.256", "10.0.0", "10.0.0.0.1", "10.0.00.1", "010.0.0.1", "10.0.0.1.", ".10.0.0.1", "10..0.1", "1.2.3.+4", "10.0.0.01",
                 "10.0.0.1/24", "2001:db8::1", "10.0.0.-1", "4294967296.0.0.1", "10.0.0.18446744073709551617", "a.b.c.d", "...", "10.0.0.x"]
MASKS = ["255.255.255.0", "255.255.255.252", "255.255.255.255", "255.255.255.254", "255.255.0.0", "255.0.0.0", "128.0.0.0", "0.0.0.0", "255.255.255.128"]
ODD_MASKS = ["255.0.255.0", "0.255.255.255", "0.0.0.255", "255.255.255.1", "/24", "24", "255.255.255.253", "255.255.255", "0.0.0.1", "127.0.0.0"]
WORDS = ["x", "Null0", "null0", "Ethernet0", "Ethernet1", "Loopback0", "name", "tag", "permanent", "track", "secondary", "dhcp", "negotiated", "pool",
         "vrf", "0", "1", "5", "254", "255", "256", "05", "+5", "-1", "99999999999999999999", "4294967296", "ip", "no", "address", "shutdown", "route",
         "router", "bgp", "ospf", "interface", "hostname", "description", "!", "!x", "^C", "banner", "#", "seq", "permit", "deny", "10.0.0.0/8",
         "all", "A", "\x00", "\x0b", "\x7f", "é", "10.0.0.1", "10.0.0.0", "255.255.255.0", "sequence-number", "remote-as", "standard", "extended"]
POLICY_WORDS = ["ge", "le", "24", "32", "33", "10.0.0.0/33", "10.0.0.1/8", "10.0.0.0/08", "0.0.0.0/0", "10.9.0.0/16/16", "prefix-list", "community", "additive",
                "exact-match", "1:1", "65535:65535", "65536:1", "1:65536", "01:1", "1:01", ":1", "1:", "1:1:1", "internet", "no-export", "none", "4294967294",
                "4294967295", "65535", "65536", "99", "100", "expanded", "remark", "egp", "igp", "incomplete", "prepend", "last-as", "metric", "match", "set",
                "continue", "M", "B", "route-map", "community-list", "local-preference", "origin", "as-path", "10", "-5"]


def b(text):
    return text.encode("utf-8")


def write_words(ws, indent=b""):
    """A line with plain or odd blanks between and behind."""
    if R.random() < 0.85:
        return indent + b" ".join(ws)
    out = indent
    for k, w in enumerate(ws):
        out += (R.choice([b" ", b"  ", b"\t", b" \t "]) if k else b"") + w
    return out + R.choice([b"", b" ", b"\t", b"  \t"])


def mutate_words(ws):
    ws = list(ws)
    for _ in range(R.choice([1, 1, 1, 2, 3])):
        k = R.randrange(len(ws) + 1)
        way = R.randrange(6)
        pool = R.choice([WORDS, WORDS, POLICY_WORDS, ADDRESSES, ODD_ADDRESSES, MASKS, ODD_MASKS])
        if way == 0 and ws:
            del ws[min(k, len(ws) - 1)]
        elif way == 1:
            ws.insert(k, b(R.choice(pool)))
        elif way == 2 and ws:
            ws[min(k, len(ws) - 1)] = b(R.choice(pool))
        elif way == 3 and ws:
            ws = ws[: max(1, k)]
        elif way == 4:
            ws.append(b(R.choice(pool)))
        elif ws:
            at = min(k, len(ws) - 1)
            w = bytearray(ws[at])
            j = R.randrange(len(w) + 1)
            c = R.choice([b"0", b"1", b".", b"x", b"\x00", b"\x0b", b"\xa0", b"\xff", b"\r", b"-", b"+", b"^", b"C", b"!", b"9"])
            if R.random() < 0.3 and len(w) > 1:
                del w[min(j, len(w) - 1)]
            elif R.random() < 0.5:
                w[j:j] = c
            else:
                w[j:j + 1] = c
            ws[at] = bytes(w)
    return ws


def random_banner():
    first = R.choice([b"banner motd ^C", b"banner motd ^Chello^C", b"banner login ^C text", b"banner ^C^C", b"banner motd ^^C^^C", b"banner\tmotd ^C x",
                      b"banner motd ^C a ^C b ^C", b"banner exec ^C^", b"banner motd ^C ^c", b"banner ^C", b"banner motd ^C\r", b"banner x^Cy"])
    mid = [R.choice([b"", b"text", b"! comment", b" indented", b"hostname zz", b"interface EthernetX", b" ip address 10.7.0.1 255.255.255.0", b"banner motd ^",
                     b"C", b"^", b"router ospf 1", b"ip route 1.0.0.0 255.0.0.0 Null0", b"\x03", b"^c", b" shutdown", b"banner y", b"\r", b"ip route x"])
           for _ in range(R.randrange(4))]
    last = R.choice([b"^C", b"! ^C", b"^C interface Ethernet1", b"  ^C", b"x^C^C", b"^C ^C", b"^^C", b"^C\r", b"banner ^C", b"interface Ethernet1 ^C", b"^C hostname zz"])
    lines = [first] + mid
    if b"^C" in first[first.find(b"^C") + 2:] and R.random() < 0.8:
        return [first]
    if R.random() < 0.95:
        lines.append(last)
    return lines


PREFIXES = [("10.9.0.0", "255.255.0.0"), ("10.9.1.0", "255.255.255.0"), ("0.0.0.0", "0.0.0.0"), ("10.0.0.0", "255.255.255.0"), ("10.0.0.7", "255.255.255.255"),
            ("128.0.0.0", "128.0.0.0"), ("0.0.0.0", "128.0.0.0"), ("10.0.12.0", "255.255.255.252"), ("10.0.0.0", "255.0.0.0"), ("10.0.1.0", "255.255.255.0"),
            ("10.0.0.0", "255.255.255.252"), ("255.255.255.255", "255.255.255.255")]


PASSED = [b"version 15.2", b"end", b"exit", b"ip cef", b"ip forward-protocol nd", b"shutdown", b"ip address 10.0.0.9 255.255.255.0",
          b"line vty 0 4", b"ip prefix-list Q description banner", b"ip prefix-list sequence-number", b"no ip route x", b"router",
          b"ip", b"no router bgp 1", b"ip community-list expanded E permit .*", b"ip community-list 100 permit x", b"no route-map M permit 10", b"match x", b"set",
          b"no ip prefix-list A", b"banner^C", b"\x00", b"access-list 10 remark permit any", b"no shutdown", b"vrf definition V"]
PASSED_IN_BLOCK = [b" description x", b" no match community A", b" ip prefix-list A permit x", b" route-map M permit x", b"  duplex auto", b" ipv6 address x", b"\tip access-group 5", b" hostname q", b" interface E9",
                   b" banner motd ^C", b" router ospf 1", b" Shutdown", b" no ip route", b" ip route 1.0.0.0 255.0.0.0 Null0"]
IDLE = [b"!", b"! x", b"!x", b"", b"  ", b"\t", b" ! x", b"\t!y", b"!\r", b"\r"]


def dotted(a):
    return ".".join(str(a >> s & 255) for s in (24, 16, 8, 0))


class Writer:
    """The lines of a file so far; of its statements the share odd is changed."""

    def __init__(self, odd):
        self.odd = odd
        self.lines = []

    def add(self, text, indent=b""):
        ws = b(text).split(b" ")
        if R.random() < self.odd:
            ws = mutate_words(ws)
        self.lines.append(write_words(ws, indent))

    def noise(self, in_block):
        """Now and then a line that says nothing, or a banner."""
        if R.random() >= 0.22:
            return
        p = R.random()
        if p < 0.35:
            self.lines.append(R.choice(IDLE))
        elif p < 0.55:
            self.lines.extend(random_banner() if self.odd or R.random() < 0.85 else [b"banner motd ^C", b"x ^C"])
        elif p < 0.8 and in_block:
            self.lines.append(R.choice(PASSED_IN_BLOCK))
        elif not in_block or R.random() < 0.1:
            self.lines.append(R.choice(PASSED))


def free_address(used, own):
    """An address and its length, mostly none that is used and no prefix that overlaps; None where none was found."""
    for _ in range(20):
        m = R.choice([24, 24, 24, 30, 30, 31, 32, 16, 8, 1]) if R.random() < 0.5 else R.choice([24, 30])
        a = oracle.address(b(R.choice(ADDRESSES if R.random() < 0.3 else ADDRESSES[:9]))) if R.random() < 0.8 else R.getrandbits(32)
        p = (a & oracle.bits(m), m)
        if R.random() < 0.04 or (a not in used and not any(oracle.inside(p, q) or oracle.inside(q, p) for q in own)):
            return a, m
    return None


def interface_block(place, used, own, hops):
    """The header of an interface and the statements of its block; the addresses nearby are next hops."""
    odd_names = ["Ethernet0", "Ethernet1", "Ethernet2", "Loopback0", "Null0", "10.0.0.2", "permanent", "name", "5", "Gigabit"]
    name = R.choice(odd_names) if R.random() < 0.3 else f"Ethernet{place}"
    body = []
    for _ in range(R.choice([1, 1, 1, 1, 2, 0])):
        found = free_address(used, own)
        if found is None:
            continue
        a, m = found
        own.append((a & oracle.bits(m), m))
        used.add(a)
        body.append(f"ip address {dotted(a)} {dotted(oracle.bits(m))}")
        hops += [dotted(a)] + [dotted(h) for h in (a ^ 1, a ^ 2, (a + 1) & 0xFFFFFFFF)] * 3
    if R.random() < 0.2:
        body.insert(R.randrange(len(body) + 1), "no ip address")
    for _ in range(R.choice([0, 0, 0, 1, 1, 2])):
        body.insert(R.randrange(len(body) + 1), R.choice(["shutdown", "no shutdown"]))
    return "interface " + name + R.choice(["", "", "", " 0/0", " point-to-point", " !"]), body


def route_statements(interfaces, hops):
    """A static route, and now and then the same again with another distance."""
    p = " ".join(R.choice(PREFIXES[: R.choice([3, len(PREFIXES)])]))
    hop, way = R.choice(hops), R.random()
    through = R.choice(interfaces) if interfaces and R.random() < 0.93 else R.choice(["Ethernet9", "Null0"])
    via = hop if way < 0.6 else "Null0" if way < 0.75 else through + " " + hop
    distance = R.choice(["", "", "", "", " 1", " 2", " 2", " 5", " 254", " 255"])
    options = R.choice(["", "", "", "", " name x", " tag 7", " name x tag 7", " tag 99999999999999999999 name permanent", " name tag tag 0"])
    statements = [f"ip route {p} {via}{distance}{options}"]
    if R.random() < 0.2:
        statements.append(f"ip route {p} {via}" + R.choice(["", " 3", " 255", " name y"]))
    return statements


LISTED = ["0.0.0.0/0", "10.0.0.0/8", "10.9.0.0/16", "10.9.1.0/24", "10.0.0.7/32", "10.0.12.3/30", "10.9.7.1/16"]
COMMUNITIES = ["1:1", "65001:7", "65001:9", "0", "0:0", "65535:65535", "4294967295", "65537", "1:2"]
MAPS = ["M", "M", "TAG", "A", "permit", "10"]
LISTS = ["A", "A", "B", "C", "M", "seq", "description", "5"]


def entry_statement(name):
    """An entry of a prefix list."""
    text = R.choice(LISTED)
    length = int(text.split("/")[1])
    low = R.randint(length, 32)
    bounds = R.choice(["", "", "", f" ge {low}", f" le {low}", f" ge {low} le {R.randint(low, 32)}"])
    greatest = R.choice([4294967284, 4294967289, 4294967290, 4294967294, 4294967295])
    seq = R.choice(["", "", f" seq {R.choice([1, 5, 5, 6, 10, 10, 15, 100])}"]) if R.random() < 0.995 else f" seq {greatest}"
    return f"ip prefix-list {name}{seq} {R.choice(['permit', 'deny'])} {text}{bounds}"


def community_statement(name):
    """An entry of a community list; a number 1 to 99 is named with or without `standard`."""
    number = name.isdigit() and R.random() < 0.5
    return f"ip community-list {'' if number else 'standard '}{name} {R.choice(['permit', 'deny'])} " + " ".join(R.choices(COMMUNITIES, k=R.choice([1, 1, 2, 3])))


def set_statement():
    return "set " + R.choice([f"local-preference {R.choice([0, 50, 100, 4294967295])}", f"metric {R.choice([0, 7, 4294967295])}", "origin igp", "origin incomplete",
                              "as-path prepend " + " ".join(str(R.choice([1, 65001, 4294967295])) for _ in range(R.choice([1, 2, 10]))),
                              "community " + " ".join(R.choices(COMMUNITIES, k=R.choice([1, 2, 3]))) + R.choice(["", " additive"])])


def clause_block(lists, communities):
    """The header of a clause and the statements of its block; lists that aren't defined are named now and then."""
    body = []
    for _ in range(R.choice([0, 1, 1, 2, 3])):
        way = R.random()
        if way < 0.35 and (lists or R.random() < 0.02):
            body.append("match ip address prefix-list " + " ".join(R.choices(lists if lists and R.random() < 0.99 else LISTS, k=R.choice([1, 1, 2]))))
        elif way < 0.6 and (communities or R.random() < 0.02):
            body.append("match community " + " ".join(R.choices(communities if communities and R.random() < 0.99 else LISTS, k=R.choice([1, 1, 2]))))
        else:
            body.append(set_statement())
    return f"route-map {R.choice(MAPS)} {R.choice(['permit', 'deny'])} {R.choice([0, 10, 10, 20, 65535])}", body


def policy_blocks():
    """Lists and clauses that name them."""
    entries = [entry_statement(R.choice(LISTS)) for _ in range(R.choice([0, 1, 2, 4, 7]))]
    members = [community_statement(R.choice(LISTS)) for _ in range(R.choice([0, 1, 2, 4]))]
    lists = [text.split(" ")[2] for text in entries]
    communities = [text.split(" ")[3 if "standard" in text else 2] for text in members]
    return [(text, []) for text in entries + members] + [clause_block(lists, communities) for _ in range(R.choice([0, 1, 2, 4]))]


def process_blocks(hops):
    """A process with a few neighbors, in one block or two; a neighbor has mostly a number."""
    asn, body = R.choice([1, 1, 2, 65001]), []
    for a in R.choices(hops, k=R.choice([0, 1, 1, 2, 3])):
        body.append(f"neighbor {a} remote-as {R.choice([1, 1, 2, 65001])}")
        for text, share in (("shutdown", 0.1), ("ebgp-multihop", 0.2), ("update-source Ethernet0", 0.02), ("next-hop-self", 0.2), ("send-community", 0.2), ("activate", 0.3), ("description x", 0.2)):
            body += [f"neighbor {a} {text}"] * (R.random() < share)
    for text, share in (("bgp router-id 10.0.0.1", 0.2), ("maximum-paths 2", 0.2), ("bgp log-neighbor-changes", 0.2), ("address-family ipv4", 0.1), ("network 10.9.0.0 mask 255.255.0.0", 0.01)):
        body += [text] * (R.random() < share)
    if R.random() < 0.3:
        R.shuffle(body)
    cut = R.randrange(len(body) + 1) if R.random() < 0.3 else len(body)
    return [(f"router bgp {asn}", body[:cut])] + ([(f"router bgp {asn if R.random() < 0.9 else 3}", body[cut:])] if cut < len(body) else [])


def blocks_of(used):
    """The statements of a router, each with the statements of its block, in an order of their own."""
    own, hops = [], list(ADDRESSES)
    blocks = [interface_block(i, used, own, hops) for i in range(R.choice([0, 1, 1, 2, 2, 3, 4]))]
    interfaces = [header.split(" ")[1] for header, _ in blocks]
    for _ in range(R.choice([0, 1, 1, 2, 3, 4, 6])):
        blocks += [(text, []) for text in route_statements(interfaces, hops)]
    if R.random() < 0.4:
        blocks += policy_blocks()
    if R.random() < 0.4:
        blocks += process_blocks(hops)
    if R.random() < 0.35:
        R.shuffle(blocks)
    if R.random() < 0.15 and blocks:
        blocks.append(R.choice(blocks))
    return blocks


def written(name, blocks, odd):
    """The lines of a file of this router, its name in some place."""
    out = Writer(odd)
    place = R.randrange(len(blocks) + 1) if R.random() < 0.3 else 0
    for k in range(len(blocks) + 1):
        if k == place and R.random() < 0.985:
            if R.random() < 0.08:
                out.add("hostname old")
            out.add("hostname " + name)
        if k == len(blocks):
            break
        header, body = blocks[k]
        out.noise(False)
        out.add(header)
        for line in body:
            out.noise(True)
            out.add(line, R.choice([b" ", b" ", b" ", b"  ", b"\t", b" \t"]) if R.random() < 0.985 else b"")
    out.noise(False)
    return out.lines


def network(odd=0.0, routers=None):
    """Random files as lists of lines, mostly valid together, and the names of their routers."""
    files, names, used = [], [], set()
    for r in range(routers or R.choice([1, 1, 1, 2, 2, 3, 4])):
        name = f"r{r + 1}" if R.random() < 0.96 else R.choice(["r1", "r", "r1".upper(), "r1", "~!", "x" * 63])
        names.append(name)
        files.append(written(name, blocks_of(used), odd))
    return files, names


def render(lines):
    ends = R.choice([b"\n", b"\n", b"\n", b"\n", b"\r\n"])
    data = b"".join(line + (ends if R.random() < 0.98 else R.choice([b"\n", b"\r\n", b"\r\r\n"])) for line in lines)
    p = R.random()
    if p < 0.2 and data:
        data = data[:-1]
    elif p < 0.24:
        data += R.choice([b"\r", b" ", b"\n", b"\n\n", b"\r\n"])
    return data


def rows_of(files):
    """The rows of the base tables of those files that can be read: the router's name, the prefix, and the next hop or nothing."""
    rows = []
    for lines in files:
        try:
            c = oracle.read_file([line[:-1] if line[-1:] == b"\r" else line for line in lines])
            rows += [(c["name"].decode(), f"{dotted(p[0])}/{p[1]}", dotted(c["statics"][k]["hop"] or 0) if s else "") for p, s, k in oracle.base_table(c)]
        except (oracle.Fault, AssertionError):
            pass
    return rows


def session_for(files, names, odd):
    """Lines that ask for prefixes that stand in the files, and others."""
    prefixes, hops = [], ["10.0.0.2", "10.0.0.1"]
    for lines in files:
        for line in lines:
            w = oracle.words(line)
            for k in range(len(w) - 1):
                a, m = oracle.address(w[k]), oracle.mask(w[k + 1])
                if a is not None and m is not None:
                    prefixes.append(f"{dotted(a & oracle.bits(m))}/{m}")
                if a is not None:
                    hops.append(w[k].decode())
            if w and oracle.address(w[-1]) is not None:
                hops.append(w[-1].decode())
    prefixes += ["0.0.0.0/0", "10.9.0.0/16", "10.9.1.0/24"]
    rows, out = rows_of(files), []                              # rows that are there, to have enough accepted tests
    for _ in range(R.choice([1, 2, 4, 8])):
        name = R.choice(names) if R.random() < 0.95 else R.choice(["r9", "r1".upper(), "r1 ", "", "r1\x00"])
        text, hop = f"rib {name} {R.choice(prefixes)}", ""
        if rows and R.random() < 0.75:
            name, prefix, hop = R.choice(rows)
            text = f"rib {name} {prefix}"
        if R.random() < 0.3:
            text += f" via {hop if hop and R.random() < 0.7 else R.choice(hops)}"
        if R.random() < 0.2:
            text = f"session {R.choice(names)} {R.choice(hops)}"
        line = write_words(b(text).split(b" "))
        if R.random() < odd:
            line = odd_session_line(line)
        out.append(line)
        if R.random() < 0.05:
            out += R.choice([[b"suite"], [b"dead"], [b"suite", b"dead", b"suite"], [b"forget 1", b"suite"]])
    data = b"".join(line + R.choice([b"\n", b"\n", b"\n", b"\r\n"]) for line in out)
    return data[:-1] if R.random() < 0.2 else data


def odd_session_line(line):
    p = R.random()
    if p < 0.3:
        return write_words(mutate_words(oracle.words(line) or [b"rib"]), R.choice([b"", b" ", b"\t"]))
    if p < 0.5:
        return R.choice([b"", b"  ", b"\t", b"# x", b"#x", b"  # rib", b"!", b"! x", b"quit", b" quit ", b"quit x", b"quit\r", b"Quit", b"exit", b"quit#", b"\r"])
    if p < 0.8:
        return R.choice([b"rib", b"rib r1", b"rib r1 10.0.0.1/24", b"rib r1 10.0.0.0/024", b"rib r1 10.0.0.0/33", b"rib r1 10.0.0.0/-1", b"rib r1 10.0.0.0/", b"rib r1 /8",
                         b"rib r1 10.0.0.0", b"rib r1 10.0.0.0/8/8", b"rib r1 10.0.0.0/8 via", b"rib r1 10.0.0.0/8 via x", b"rib r1 10.0.0.0/8 via 10.0.0.1 x",
                         b"rib r9 10.0.0.1/8", b"rib r9 0.0.0.0/0 via 1.1.1.1", b"rib r1 0.0.0.0/00", b"rib r1 10.9.0.0/16 from 10.0.0.2", b"RIB r1 10.0.0.0/24",
                         b"bgp r1 10.0.0.0/8", b"bgp r1 10.0.0.0/8 from 10.0.0.2", b"bgp", b"bgp r1", b"bgp r1 10.0.0.1/8", b"bgp r1 10.0.0.0/8 from", b"bgp r1 10.0.0.0/8 from x",
                         b"bgp r1 10.0.0.0/8 via 10.0.0.2", b"bgp r9 10.0.0.0/8", b"bgp r9 10.0.0.0/33", b"bgp r1 10.0.0.0/8 from 10.0.0.2 x", b"BGP r1 10.0.0.0/8", b"session r1 10.0.0.2", b"session", b"session r1", b"session r1 10.0.0.256", b"session r1 10.0.0.2 x", b"session r9 10.0.0.2", b"Session r1 10.0.0.2",
                         b"session r1 10.0.0.0/24", b"session 10.0.0.2", b"session r9 x", b"reach r1 10.0.0.2", b"every r1 10.0.0.2", b"element r1 2", b"element r1 0", b"forget 1",
                         b"forget 0", b"forget 01", b"forget", b"forget 1 2", b"forget 4294967296", b"implies 1 1", b"implies 1", b"implies 0 1", b"implies 1 1 1", b"implies 1 x", b"show r1", b"lcov", b"json", b"cut 1", b"cut", b"cut x", b"cut 0", b"cut 01", b"cut 4294967296", b"cut 1 1", b"cut 1 r1", b"cut 1 keep", b"cut 1 keep r1", b"cut 9 keep r1 r1", b"cut 9 keep r9", b"cut 1 keep keep", b"cut 1 Keep r1", b"cut keep r1", b"suite", b"dead", b"suite x", b"suite 1", b"dead 1", b"dead r1", b"Suite", b"DEAD", b" suite\t", b"\tdead ", b"dead\r", b"suite\x00", b"suite suite", b"deads", b"suite dead", b"flow r1 1.1.1.1 2.2.2.2", b"frob", b"via",
                         b"rib via 10.0.0.0/8", b"rib r1 10.0.0.0/8 VIA 10.0.0.1", b"rib r1 10.0.0.0 /8", b"rib r1 10.0.0.0/4294967304", b"rib r1 10.0.0.0/8x"])
    if p < 0.9:
        n = R.choice([4095, 4096, 4097, 4098, 5000])
        fill = R.choice([b"a", b" ", b"#", b"\t", b"\r"])
        kind = R.choice([b"", b"quit", b"# ", line, b"rib r1 10.9.0.0/16"])
        return (kind + fill * max(0, n - len(kind)) if R.random() < 0.7 else fill * max(0, n - len(kind)) + kind)
    w = bytearray(line)
    for _ in range(R.choice([1, 2])):
        w[R.randrange(len(w) + 1):R.randrange(len(w) + 1)] = R.choice([b"\x00", b"\xff", b"\r", b" ", b"\t", b"0", b"/", b"\x0b", b"\n", b"\xc3\xa9"])
    return bytes(w)


def named(files):
    return {b"r%d.cfg" % (k + 1): render(lines) for k, lines in enumerate(files)}

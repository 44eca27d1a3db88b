#!/usr/bin/env python3
"""Random and systematic cases for the comparison of NetCov with the oracle: files, words and a session each.

Those of route maps and lists alone stand in policies.py, those of processes and sessions in peers.py, those of routes by
BGP in exchanges.py, those of several ways in ways.py, those of access lists in filtered.py, those of the limit of facts in most_facts.py.
"""
import oracle
from exchanges import kind_routes
from filtered import kind_filters
from pieces import MASKS, R, Case, b, dotted, mutate_words, named, network, random_banner, render, session_for
from peers import kind_peers, kind_sides
from policies import kind_policy
from ways import kind_ways

TEMPLATES = """hostname r1
interface Ethernet0
interface Ethernet0 more words
ip address 10.0.0.1 255.255.255.0
ip address 10.0.0.1 0.0.0.0
no ip address
shutdown
no shutdown
description x y
ip route 10.9.0.0 255.255.0.0 10.0.0.2
ip route 10.9.0.0 255.255.0.0 10.0.0.2 5
ip route 10.9.0.0 255.255.0.0 10.0.0.2 name x
ip route 10.9.0.0 255.255.0.0 10.0.0.2 5 name x tag 7
ip route 10.9.0.0 255.255.0.0 10.0.0.2 tag 99999999999999999999 name permanent
ip route 10.9.0.0 255.255.0.0 Ethernet0 10.0.0.2
ip route 10.9.0.0 255.255.0.0 Ethernet0 10.0.0.2 255 tag 1
ip route 10.9.0.0 255.255.0.0 Null0
ip route 10.9.0.0 255.255.0.0 Null0 255
ip route 10.9.0.0 255.255.0.0 Null0 3 tag 0 name 5
ip route 0.0.0.0 0.0.0.0 10.0.0.2
ip route 10.9.0.0 255.255.0.0 Ethernet0
ip route 10.9.0.0 255.255.0.0 10.0.0.2 permanent
ip route 10.9.0.0 255.255.0.0 10.0.0.2 5 track 1
ip route 10.9.0.0 255.255.0.0 10.0.0.2 name x permanent
ip route 10.9.0.0 255.255.0.0 Null0 tag x track
ip route 10.9.0.0 255.255.0.0 Ethernet0 10.0.0.2 name a name b permanent
ip route vrf V 10.9.0.0 255.255.0.0 10.0.0.2
router bgp 65001
router ospf 1
route-map M permit 10
route-map M deny 70000
ip prefix-list A seq 5 permit 10.0.0.0/8
ip prefix-list A seq 7 deny 10.0.0.0/8 ge 9 le 32
ip prefix-list A permit 10.0.0.0/8 le 24
ip prefix-list A permit 10.0.0.0/8 ge 25 le 24
ip prefix-list A description text of it
ip prefix-list sequence-number
ip prefix-list sequence-number description
ip community-list standard S permit 1:1 65001:7 5
ip community-list 99 deny 65535:65535
ip community-list standard 5 permit internet
ip community-list expanded E permit 1:1
ip community-list 5 remark text
ip default-network 10.0.0.0
no ip routing
ip local policy route-map X
ip nat inside source list 1
ip address dhcp
ip address negotiated
ip address pool P
ip address 10.0.0.3 255.255.255.0 secondary
ip address 10.0.0.3 0.0.0.0 secondary
ip unnumbered Ethernet1
vrf forwarding V
ip vrf forwarding V
ip policy route-map X
ip nat inside
ip access-group 5 in
ip access-group S out
ip access-list standard S
ip access-list extended S
access-list 10 permit any
access-list 100 permit ip any any log
5 permit ip host 10.0.0.1 10.0.0.0 0.0.0.255
deny 10.0.0.1 log
permit tcp any any eq 80
ip community-list 5 permit 1:1
ip forward-protocol nd
ip cef
no ip route 10.9.0.0 255.255.0.0 10.0.0.2
no router bgp 1
no interface Ethernet0
no hostname r1
no banner motd ^C
no auto-summary
ipv6 address 2001:db8::1/64
vrf definition V
vrf forwarding
ip vrf V
bgp router-id 10.0.0.1
bgp always-compare-med
bgp bestpath as-path multipath-relax
bgp bestpath compare-routerid
maximum-paths 2
maximum-paths 0
address-family ipv4
address-family ipv6
exit-address-family
network 10.0.0.0 mask 255.0.0.0
network 10.1.0.0
aggregate-address 10.0.0.0 255.0.0.0 summary-only
neighbor 10.0.0.2 remote-as 2
neighbor 10.0.0.2 route-map M in
neighbor PG peer-group
redistribute static
distance 5
continue 5
continue
match ip address prefix-list A
match ip address prefix-list A B
match ip address 5
match community 5 C
match community C exact-match
match as-path 1
set metric 5
set local-preference 200
set local-preference x
set origin igp
set origin incomplete
set origin egp 5
set as-path prepend 65001 65001
set as-path tag
set community 1:1 65001:7 additive
set community 5
set community none
set comm-list C delete
set ip next-hop 10.0.0.1
default-information originate
exit
end
line vty 0 4
login
version 15.2
banner motd ^C text ^C
banner motd #hello#
banner
banner^C
Banner motd ^C
duplex auto
Shutdown
Interface Ethernet0
IP route 10.9.0.0 255.255.0.0 10.0.0.2
Hostname x
""".split("\n")[:-1]
CONTEXTS = ["none", "interface", "outside", "clause", "process", "list", "interface-comment", "after-route", "top", "top-indented", "deep", "plain-interface"]


# --- kinds of cases -----------------------------------------------------------------------------------
def kind_net():
    files, names = network()
    data = named(files)
    return Case(data, sorted(data), session_for(files, names, 0.05))


def kind_odd():
    files, names = network(odd=R.choice([0.02, 0.05, 0.2]))
    data = named(files)
    return Case(data, sorted(data), session_for(files, names, 0.05))


def kind_join():
    """Few names, addresses and prefixes over many interfaces, so that joining faults stand together."""
    count = R.choice([1, 2, 3, 4, 4])
    names = [f"r{k + 1}" if R.random() < 0.8 else R.choice(["r1", "r2", "a"]) for k in range(count)]
    base = [f"10.{k}.0.{j}" for k in range(R.choice([2, 6, 20])) for j in (1, 2, 3)]
    files = []
    for name in names:
        lines, opened = [b("hostname " + name)], []
        if R.random() < 0.2:
            lines.insert(0, b("hostname " + R.choice(["r1", "r2", "q"])))
        for _ in range(R.choice([1, 2, 3, 5])):
            opened.append(R.choice(["A", "B", "C", "D", "E"]))
            lines.append(b("interface " + opened[-1]))
            for _ in range(R.choice([0, 1, 1, 1, 2])):
                lines.append(b(f" ip address {R.choice(base)} {R.choice(MASKS[:5] + MASKS[-1:] if R.random() < 0.5 else MASKS[:3])}"))
            if R.random() < 0.25:
                lines.append(R.choice([b" shutdown", b" shutdown", b" no ip address", b" no shutdown"]))
            if R.random() < 0.15:
                lines.append(b(f"ip route 20.{R.randrange(3)}.0.0 255.255.0.0 {R.choice('ABCDEF')} {R.choice(base)}{R.choice(['', ' 255', ' 3'])}"))
            if R.random() < 0.1:
                lines.append(b(f"hostname {R.choice(['r1', 'r2', 'b'])}"))
        files.append(lines)
    data = {b"%s%d.cfg" % (R.choice([b"a", b"z"]), k): b"\n".join(x) + b"\n" for k, x in enumerate(files)}
    words = list(data)
    if R.random() < 0.05:
        words.append(R.choice(words))
    return Case(data, words, session_for(files, names, 0))


def kind_static():
    """One to two routers with many routes to few prefixes by all ways."""
    files, names = [], []
    for r in range(R.choice([1, 1, 2])):
        names.append(f"r{r + 1}")
        lines = [b"hostname r%d" % (r + 1)]
        faces = [("A", f"10.0.0.{r + 1}", "255.255.255.0"), ("B", f"10.0.1.{r + 1}", "255.255.255.252"), ("C", f"10.1.0.{r + 1}", "255.255.0.0"), ("D", f"10.0.2.{r + 1}", "255.255.255.255")]
        for name, a, m in faces:
            if R.random() < 0.8:
                lines += [b(f"interface {name}"), b(f" ip address {a} {m}")] + ([b" shutdown"] if R.random() < 0.2 else []) + ([b" no shutdown"] if R.random() < 0.1 else [])
        hops = [f"10.0.0.{k}" for k in (0, 1, 2, 9, 255)] + [f"10.0.1.{k}" for k in (0, 1, 2, 3, 4)] + ["10.1.0.1", "10.1.0.2", "10.1.255.255", "10.2.0.0", "10.0.2.1", "10.0.2.2", "9.9.9.9", "0.0.0.0"]
        prefixes = R.sample([("10.9.0.0", "255.255.0.0"), ("0.0.0.0", "0.0.0.0"), ("10.0.0.0", "255.255.255.0"), ("10.0.2.1", "255.255.255.255"), ("10.0.2.2", "255.255.255.255"),
                             ("10.0.0.0", "255.0.0.0"), ("10.0.0.9", "255.255.255.255"), ("10.0.1.0", "255.255.255.252"), ("10.0.1.0", "255.255.255.254")], R.choice([1, 2, 3]))
        for _ in range(R.choice([1, 3, 6, 10])):
            way = R.random()
            hop = R.choice(hops)
            via = hop if way < 0.55 else "Null0" if way < 0.65 else f"{R.choice('ABCD')} {hop}"
            text = f"ip route {' '.join(R.choice(prefixes))} {via}{R.choice(['', '', '', ' 1', ' 2', ' 2', ' 254', ' 255'])}{R.choice(['', '', '', ' name n', ' tag 1'])}"
            lines.insert(R.randrange(1, len(lines) + 1) if R.random() < 0.2 else len(lines), b(text))
        for name, _, _ in faces:
            if b("interface " + name) not in lines and R.random() < 0.95:
                lines.append(b("interface " + name))
        files.append(lines)
    data = {b"r%d.cfg" % (k + 1): b"\n".join(x) + b"\n" for k, x in enumerate(files)}
    return Case(data, sorted(data), session_for(files, names, 0) + b"\n" + session_for(files, names, 0))


def kind_names():
    """Odd interface names, router names and file names; every line is formed well."""
    odd = [b"!x", b"^C", b"\x00", b"\x0b", b"\xa0", b"\xff\xfe", b"Null0", b"null0", b"10.0.0.2", b"name", b"tag", b"permanent", b"track", b"5", b"vrf", b"0", b"#", b"x" * 5000,
           b"\xc3\xa9", b"Ethernet0", b"ethernet0", b"255.255.255.0", b"\r", b"a\rb", b"description", b"banner", b"via", b"-", b"/", b"\x7f"]
    hosts = [b"#", b"!", b"via", b"quit", b"rib", b"#x", b"r1", b"~", b"x" * 63, b"^C", b"10.0.0.1", b"10.0.0.0/24", b"\"", b"\\", b"%d", b"-"]
    host = R.choice(hosts)
    names = R.sample(odd, R.choice([1, 2, 3]))
    lines = [b"hostname " + host]
    for k, n in enumerate(names):
        lines += [b"interface " + n + R.choice([b"", b" ", b" 0", b"\tx y"]), b" ip address 10.0.%d.1 255.255.255.0" % k]
        if R.random() < 0.3:
            lines.append(b"interface " + R.choice(names) + b" again")
        if R.random() < 0.2:
            lines.append(R.choice([b" shutdown", b" no shutdown"]))
    for _ in range(R.choice([1, 2, 4])):
        lines.append(b"ip route 10.9.%d.0 255.255.255.0 " % R.randrange(2) + R.choice([R.choice(names) + b" ", R.choice(names) + b" ", R.choice(odd) + b" ", b""]) + b"10.0.%d.%d" % (R.randrange(3), R.choice([1, 2, 3]))
                     + R.choice([b"", b"", b" 3", b" name " + R.choice(odd), b" tag 3 name " + R.choice(odd), b" 2 name permanent", b" name " + R.choice(odd) + b" tag 0"]))
    file = R.choice([b"a.cfg", b"#", b"\xc3\xa9.cfg", b"a b.cfg", b"a\nb", b"%s", b"\\", b"!", b"\""])
    asks = [b" ".join([b"rib", R.choice([host, host, host, host, R.choice(hosts)]), x]) for x in (b"10.0.0.0/24", b"10.0.1.0/24", b"10.9.0.0/24", b"10.9.1.0/24", b"10.9.1.0/24 via 10.0.0.2", b"10.9.0.0/24 via 10.0.1.3")]
    return Case({file: render(lines)}, [file], b"\n".join(asks))


def grid_cases():
    """Every length, mask and border of a prefix, one after the other."""
    one = lambda *lines: {b"r1.cfg": b("\n".join(("hostname r1",) + lines) + "\n")}
    edge = [0, 0xFFFFFFFF, 0x0A000001, 0x80000000, 0x7FFFFFFF] + [1 << k for k in range(32)] + [oracle.bits(k) for k in range(33)]
    asks = [f"rib r1 {dotted(a)}/{n}" for a in edge for n in list(range(34)) + ["00", "032", ""]]
    asks += [f"rib r1 {x}.0.0.0/8 via {x}.1.{x}.{y}" for x in list(range(300)) + ["00", "01", "-0", "", "1e1"] for y in (0, x)]
    yield Case(one("interface E", " ip address 10.0.0.1 255.0.0.0", "ip route 0.0.0.0 0.0.0.0 10.0.0.2", "ip route 128.0.0.0 128.0.0.0 10.0.0.2", "ip route 255.255.255.255 255.255.255.255 Null0"), [b"r1.cfg"], b("\n".join(asks)))
    for n in range(33):
        m = oracle.bits(n)
        for flip in [None] + list(range(32)):
            mask = dotted(m if flip is None else m ^ (1 << flip))
            for a in (0, m) if flip is None else (0,):
                yield Case(one(f"ip route {dotted(a)} {mask} Null0"), [b"r1.cfg"], b(f"rib r1 {dotted(a)}/{n}\nrib r1 0.0.0.0/0\n"))
            yield Case(one("interface E", f" ip address 10.77.3.9 {mask}"), [b"r1.cfg"], b(f"rib r1 {dotted(0x0A4D0309 & m)}/{n}\n"))
        for k in range(32):
            yield Case(one(f"ip route {dotted(1 << k)} {dotted(m)} Null0"), [b"r1.cfg"], b(f"rib r1 {dotted(1 << k)}/{n}\n"))
        if n == 0:
            continue
        low = 0xAC101380 & m
        high = low | (0xFFFFFFFF & ~m)
        for own in (low, high, low | 1):
            for hop in {low, high, (low - 1) & 0xFFFFFFFF, (high + 1) & 0xFFFFFFFF, own, own ^ 1, 0, 0xFFFFFFFF}:
                for named in ("", "E ", "F "):
                    yield Case(one("interface F", " ip address 1.2.3.4 255.255.255.255", "interface E", f" ip address {dotted(own)} {dotted(m)}", f"ip route 9.0.0.0 255.0.0.0 {named}{dotted(hop)}"), [b"r1.cfg"], b"rib r1 9.0.0.0/8\n")
        for other in range(1, 33):
            for a in {low, high, (low - 1) & 0xFFFFFFFF, (high + 1) & 0xFFFFFFFF}:
                yield Case(one("interface E", f" ip address {dotted(low)} {dotted(m)}", "interface F", f" ip address {dotted(a)} {dotted(oracle.bits(other))}"), [b"r1.cfg"], b(f"rib r1 {dotted(low)}/{n}\n"))
    for d1 in (None, 1, 2, 9, 10, 99, 100, 199, 200, 253, 254, 255, 0, 256):
        for d2 in (None, 1, 2, 10, 100, 254, 255):
            text = lambda d: "" if d is None else f" {d}"
            yield Case(one("interface E", " ip address 10.0.0.1 255.0.0.0", f"ip route 9.0.0.0 255.0.0.0 10.0.0.2{text(d1)}", f"ip route 9.0.0.0 255.0.0.0 Null0{text(d2)}"), [b"r1.cfg"], b"rib r1 9.0.0.0/8\nrib r1 9.0.0.0/8 via 10.0.0.2\n")
    for power in (8, 16, 31, 32, 63, 64, 127, 128, 256):                # numbers that would be right if they wrapped round
        for n in (2, -254):
            v = (1 << power) + n
            yield Case(one("interface E", " ip address 10.0.0.1 255.0.0.0", f"ip route 9.0.0.0 255.0.0.0 10.0.0.2 {v}"), [b"r1.cfg"], b"rib r1 9.0.0.0/8\n")
            yield Case(one("interface E", " ip address 10.0.0.1 255.0.0.0", f"ip route 9.0.0.0 255.0.0.0 10.0.0.{v}"), [b"r1.cfg"], b"rib r1 9.0.0.0/8\n")
            yield Case(one("interface E", " ip address 10.0.0.1 255.0.0.0", f"ip route 9.0.0.0 255.0.0.0 10.0.0.2 tag {v}"), [b"r1.cfg"], b"rib r1 9.0.0.0/8\n")
            yield Case(one("interface E", f" ip address {v}.0.0.1 255.0.0.0"), [b"r1.cfg"], b"rib r1 2.0.0.0/8\n")
            yield Case(one("interface E", f" ip address 10.0.0.1 255.{(1 << power) + 255}.0.0"), [b"r1.cfg"], b"rib r1 10.0.0.0/8\n")
            yield Case(one("interface E", " ip address 10.0.0.1 255.0.0.0"), [b"r1.cfg"], b(f"rib r1 10.0.0.0/{(1 << power) + 8}\nrib r1 {(1 << power) + 10}.0.0.0/8\nrib r1 10.0.0.0/8 via {v}.0.0.0\n"))
    for n in (0, 1, 62, 63, 64, 65):
        yield Case({b"r1.cfg": b"hostname " + b"a" * n + b"\n"}, [b"r1.cfg"], b"")
    for c in range(256):
        yield Case({b"r1.cfg": b"hostname a" + bytes([c]) + b"b\ninterface x" + bytes([c]) + b"y\n ip address 10.0.0.1 255.0.0.0\nip route 9.0.0.0 255.0.0.0 x" + bytes([c]) + b"y 10.0.0.2\n"}, [b"r1.cfg"], b"rib a" + bytes([c]) + b"b 9.0.0.0/8\n")
        yield Case({b"r1.cfg": b"hostname a\ninterface x" + bytes([c]) + b"y\n" + bytes([c]) + b"ip address 10.0.0.1 255.0.0.0\nip" + bytes([c]) + b"route 9.0.0.0 255.0.0.0 10.0.0.2" + bytes([c]) + b"\n"}, [b"r1.cfg"], b"rib a" + bytes([c]) + b" 9.0.0.0/8" + bytes([c]) + b"\n" + bytes([c]) + b"rib a 9.0.0.0/8\nrib a" + bytes([c]) + b"9.0.0.0/8\n" + bytes([c]) + b"\n")


def in_context(line_words, context):
    """A file with the statement in one place, so that its sort shows itself."""
    out = {
        "none": [b"hostname r1", b"interface Ethernet0", b" ip address 10.0.0.1 255.255.255.0", None, b" shutdown", b" ip address 10.0.1.1 255.255.255.0", b" set metric 5"],
        "interface": [b"hostname r1", b"interface Ethernet0", b" ip address 10.0.0.1 255.255.255.0", (b" ",), b" no shutdown", b"ip route 0.0.0.0 0.0.0.0 10.0.0.2"],
        "outside": [b"hostname r1", b"interface Ethernet0", b" ip address 10.0.0.1 255.255.255.0", b"line vty 0 4", (b" ",), b" shutdown"],
        "clause": [b"hostname r1", b"interface Ethernet0", b" ip address 10.0.0.1 255.255.255.0", b"ip prefix-list A permit 10.0.0.0/8", b"ip community-list 5 permit 1:1",
                   b"ip community-list standard C permit 1:1", b"route-map M deny 10", (b" ",), b" set metric 7", b"ip prefix-list B permit 10.0.0.0/8", b" set metric 8"],
        "process": [b"hostname r1", b"interface Ethernet0", b" ip address 10.0.0.1 255.255.255.0", b"router bgp 65001", b" neighbor 10.0.0.2 remote-as 2", (b" ",), b" neighbor 10.0.0.2 activate"],
        "list": [b"hostname r1", b"interface Ethernet0", b" ip address 10.0.0.1 255.255.255.0", b" ip access-group S in", b"ip access-list extended S", (b" ",), b" permit ip any any"],
        "interface-comment": [b"hostname r1", b"interface Ethernet0", b"!", b"banner motd ^C", b"interface X ^C", (b"\t",), b" ip address 10.0.0.1 255.255.255.0"],
        "after-route": [b"hostname r1", b"interface Ethernet0", b" ip address 10.0.0.1 255.255.255.0", b"ip route 10.9.0.0 255.255.0.0 10.0.0.2", (b" ",), None],
        "top": [None, b" shutdown", b" ip address 10.0.0.1 255.255.255.0", b"hostname r1"],
        "top-indented": [(b" ",), b"hostname r1"],
        "deep": [b"hostname r1", b"interface Ethernet0", b" ip address 10.0.0.1 255.255.255.0", b"  x", (b"        \t",)],
        "plain-interface": [b"hostname r1", b"interface Ethernet1", (b" ",), b"interface Ethernet0", b" ip address 10.0.0.1 255.255.255.0"],
    }[context]
    lines = []
    for x in out:
        lines.append(b" ".join(line_words) if x is None else x[0] + b" ".join(line_words) if isinstance(x, tuple) else x)
    data = b"\n".join(lines) + b"\n"
    return Case({b"r1.cfg": data}, [b"r1.cfg"], b"rib r1 10.0.0.0/24\nrib r1 10.9.0.0/16\nrib r1 0.0.0.0/0\nrib r1 10.0.1.0/24\nflow r1 10.9.0.1 10.0.0.9\n")


def table_cases(count):
    """Every template in every context; then each with each word dropped, doubled, replaced; then random ones."""
    seen = set()
    for t in TEMPLATES:
        ws = b(t).split(b" ")
        variants = [ws]
        for k in range(len(ws)):
            variants.append(ws[:k] + ws[k + 1:])
            variants.append(ws[:k + 1])
            variants.append(ws[:k] + [b"x"] + ws[k:])
            for other in ("0", "255", "256", "10.0.0.2", "10.0.0.256", "255.255.255.0", "Null0", "permanent", "name", "01", "65536", "1:1", "additive"):
                variants.append(ws[:k] + [b(other)] + ws[k + 1:])
        for w in ("x", "5", "0", "name", "tag", "permanent", "track", "secondary", "10.0.0.2", "name y", "tag 3", "tag x", "name permanent", "tag permanent", "name y permanent", "tag y track 1", "1:1", "additive", "exact-match", "le 32", "ge 9"):
            variants.append(ws + b(w).split(b" "))
        for v in variants:
            if not v or v == [b""]:
                continue
            first = b(t).split(b" ")[0]
            for context in CONTEXTS[:5] if v is not ws else CONTEXTS:
                key = (b" ".join(v), context)
                if key not in seen:
                    seen.add(key)
                    yield in_context(v, context)
    for _ in range(count):
        v = mutate_words(b(R.choice(TEMPLATES)).split(b" ")) or [b"x"]
        yield in_context([w for w in v if w] or [b"x"], R.choice(CONTEXTS))


def kind_bytes():
    files, names = network()
    data = named(files)
    session = session_for(files, names, 0.1)
    odd = [b"\x00", b"\x0b", b"\x0c", b"\xa0", b"\xff", b"\r", b"\n", b" ", b"\t", b"!", b"^", b"C", b"^C", b"0", b".", b"1", b"\x03", b"\xef\xbb\xbf", b"banner ", b"x"]
    for _ in range(R.choice([1, 1, 2, 3])):
        name = R.choice(sorted(data))
        w = data[name]
        k = R.randrange(len(w) + 1)
        p = R.random()
        if p < 0.15:
            data[name] = w[:k]
        elif p < 0.35:
            data[name] = w[:k] + w[k + 1:]
        elif p < 0.7:
            data[name] = w[:k] + R.choice(odd) + w[k:]
        else:
            data[name] = w[:k] + R.choice(odd) + w[k + 1:]
    if R.random() < 0.05:
        data[R.choice(sorted(data))] = R.choice([b"", b"\n", b"\r", b"!", b"\xef\xbb\xbfhostname r1\n", b"hostname r1", b"hostname r1\r", b"hostname r1\r\r\n", b"\r\n\r"])
    return Case(data, sorted(data), session)


def kind_banner():
    lines = []
    for _ in range(R.choice([2, 3, 5])):
        lines += R.choice([[b"hostname r1"], [b"interface Ethernet0"], [b" ip address 10.0.0.1 255.255.255.0"], [b" shutdown"], [b"interface Ethernet1", b" ip address 10.0.1.1 255.255.255.0"],
                           [b"!"], [b""], [b"ip route 10.9.0.0 255.255.0.0 10.0.0.2"], [b"version 1"], [b" banner motd ^C"], [b"ip route x"], [b" no shutdown"]])
        if R.random() < 0.7:
            x = random_banner()
            p = R.random()
            if p < 0.1:
                x = [R.choice([b"banner", b"banner motd #x#", b"banner motd ^ C", b"banner motd \x03", b"banner motd ^c x ^c", b"bannerx ^C", b"banner motd ^"])]
            elif p < 0.2:
                x = x[:-1]
            lines += x
    if R.random() < 0.8:
        lines.insert(R.choice([0, 0, len(lines)]), b"hostname r1")
        lines += [b" no shutdown", b"interface Ethernet0", b" ip address 10.0.0.1 255.255.255.0"]
    data = render(lines)
    return Case({b"r1.cfg": data}, [b"r1.cfg"], b"rib r1 10.0.0.0/24\nrib r1 10.0.1.0/24\nrib r1 10.9.0.0/16")


def kind_session():
    files, names = network()
    data = named(files)
    return Case(data, sorted(data), session_for(files, names, 0.6) + (session_for(files, names, 0.9) if R.random() < 0.5 else b""))


def kind_words():
    files, names = network(routers=R.choice([1, 2]), odd=R.choice([0, 0, 0.1]))
    data = named(files)
    words = sorted(data)
    pool = [b"-", b"", b" ", b"--", b"-x", b"--rounds", b"--rounds=5", b"5", b"--fat-tree", b"--fat-tree=2", b"missing.cfg", b"./r1.cfg", b"r1.cfg", b"\xff", b"r1.cfg\xff",
            b"folder", b"folder/", b"odd name", b"odd\nname", "é.cfg".encode(), b"-h", b"--help", b"--version", b"r1.cfg/", b".//r1.cfg", b"/", b".", b"x" * 300, b"--", b"/dev/null", b"big"]
    for _ in range(R.choice([0, 1, 1, 2, 3])):
        words.insert(R.randrange(len(words) + 1), R.choice(pool))
    if R.random() < 0.1:
        words = words[: R.choice([0, 1])]
    data = dict(data)
    if R.random() < 0.5:
        data[b"folder"] = None
    other = R.choice(list(data.values())) or b"hostname q\n"
    for name in (b"-", b" ", b"odd name", b"odd\nname", "é.cfg".encode(), b"-x", b"--", b"5"):
        if R.random() < 0.4:
            data[name] = R.choice([other, b"hostname q%d\n" % R.randrange(9), b"frob\n", b"ip route 1\n"])
    return Case(data, words, session_for(files, names, 0.1))


def limit_cases():
    h = b"hostname r1\n"
    one = h + b"interface Ethernet0\n ip address 10.0.0.1 255.255.255.0\n"
    f = lambda *d: {b"r%d.cfg" % (k + 1): x for k, x in enumerate(d)}
    route = lambda k, x=b"": b"ip route 20.%d.%d.0 255.255.255.0 Null0%s\n" % (k >> 8, k & 255, x)
    ask = b"rib r1 10.0.0.0/24\n"
    for n in (1023, 1024, 1025):
        routes = b"".join(route(k) for k in range(n))
        yield Case(f(h + routes), [b"r1.cfg"], b"rib r1 20.0.0.0/24\nrib r1 20.3.255.0/24\n")
        yield Case(f(h + b"".join(route(k, b" 255") for k in range(n))), [b"r1.cfg"], b"rib r1 20.0.0.0/24\n")
    many = b"".join(route(k) for k in range(1023))
    yield Case(f(h + many + b"interface E\n ip address 10.0.0.1 255.255.255.0\n shutdown\n"), [b"r1.cfg"], ask)
    yield Case(f(h + many + b"interface E\n ip address 10.0.0.1 255.255.255.0\n shutdown\ninterface F\n ip address 10.0.0.2 255.255.255.0\n"), [b"r1.cfg"], ask)
    yield Case(f(h + many + b"interface E\n ip address 10.0.0.1 255.255.255.0\n shutdown\ninterface F\n ip address 10.0.1.2 255.255.255.0\n"), [b"r1.cfg"], ask)
    yield Case(f(h + many + b"interface E\n ip address 10.0.0.1 255.255.255.0\n shutdown\ninterface F\n ip address 10.0.1.2 255.255.255.0\n no ip address\n"), [b"r1.cfg"], ask)
    yield Case(f(h + many, b"hostname r2\ninterface E\n ip address 10.0.0.1 255.255.255.0\nip route 20.0.0.0 255.255.255.0 Null0\n"), [b"r1.cfg", b"r2.cfg"], b"rib r2 10.0.0.0/24\n")
    yield Case(f(h + many + route(2000) + route(2001) + b"ip route 1.0.0.0 255.0.0.0 E9 1.1.1.1\n"), [b"r1.cfg"], ask)
    yield Case(f(h + many + route(2000) + route(2001), b"hostname r1\n"), [b"r1.cfg", b"r2.cfg"], ask)
    for n in (65534, 65535, 65536):
        yield Case(f(one + b"!\n" * (n - 3)), [b"r1.cfg"], ask)
        yield Case(f(one + b"\n" * (n - 4) + b"!"), [b"r1.cfg"], ask)
        yield Case(f(one + b"\n" * (n - 4) + b"\r"), [b"r1.cfg"], ask)
        yield Case(f(b"frob\nip route 1\n" + b"\n" * (n - 2)), [b"r1.cfg"], ask)
        yield Case(f(b"banner ^C\n" + b"\n" * (n - 1)), [b"r1.cfg"], ask)
    for n in (4194303, 4194304, 4194305, 4194400, 5000000):
        yield Case(f(one + b"!" * (n - len(one))), [b"r1.cfg"], ask)
        yield Case(f(one + b"\n" * (n - len(one))), [b"r1.cfg"], ask)
        yield Case(f(b"ip route 1\n" + b"!" * (n - 11)), [b"r1.cfg"], ask)
        yield Case(f(one, b"hostname r2\n" + b" " * (n - 12)), [b"r1.cfg", b"r2.cfg"], ask)
    yield Case(f(b"hostname r1\ninterface " + b"E" * 100000 + b"\n ip address 10.0.0.1 255.255.255.0\n"), [b"r1.cfg"], ask)
    yield Case(f(one + b"ip route 1.0.0.0 255.0.0.0 10.0.0.2 tag " + b"9" * 200000 + b"\n"), [b"r1.cfg"], b"rib r1 1.0.0.0/8\n")
    yield Case(f(one + b" x" * 200000 + b"\n"), [b"r1.cfg"], ask)
    for n in (255, 256, 257):
        files = {b"f%03d.cfg" % k: b"hostname h%d\ninterface E\n ip address 10.%d.%d.1 255.255.255.0\nip route 99.0.0.0 255.0.0.0 10.%d.%d.2\n" % (k, k >> 8, k & 255, k >> 8, k & 255) for k in range(n)}
        yield Case(files, sorted(files), b"rib h0 10.0.0.0/24\nrib h254 99.0.0.0/8\nrib h254 99.0.0.0/8 via 10.0.254.2\n")
        yield Case({}, [b"nothere"] * n, b"")
        yield Case({}, [b"nothere"] * n + [b"--x"], b"")
        yield Case(files, sorted(files)[:-1] + [b"f000.cfg"], ask)
    for n in (4095, 4096, 4097):
        yield Case(f(one), [b"r1.cfg"], ask * n + b"rib r1 9.0.0.0/8\nrib r9 9.0.0.0/8\nfrob\n" + b"a" * 4097 + b"\nquit\n" + ask)
        yield Case(f(one), [b"r1.cfg"], b"rib r1 9.0.0.0/8\nfrob\n" * 3 + ask * n + ask + b"suite\ndead\n")
    top = 16777216
    for extra in (-2, -1, 0, 1, 2):
        n = top + extra
        fill = lambda size, unit: ((b" " * 4000 + b"\n") * (size // 4001) + b"\n" * (size % 4001))
        yield Case(f(one), [b"r1.cfg"], ask + fill(n - len(ask), b"\n"))
        yield Case(f(one), [b"r1.cfg"], ask + fill(n - len(ask) - 5, b"\n") + b"quit\n")
        yield Case(f(one), [b"r1.cfg"], ask + fill(n - len(ask) - 5, b"\n") + b"quit\n" + ask)
        yield Case(f(one), [b"r1.cfg"], ask + fill(n - len(ask) - 6, b"\n") + b"quit\r\n" + ask)
        yield Case(f(one), [b"r1.cfg"], ask + fill(n - len(ask) - 5, b"\n") + b"\nquit")
        yield Case(f(one), [b"r1.cfg"], ask + fill(n - 2 * len(ask), b"\n") + ask)
        yield Case(f(one), [b"r1.cfg"], ask + fill(n - 2 * len(ask) + 1, b"\n") + ask[:-1])
        yield Case(f(one), [b"r1.cfg"], ask + b"\n" + b"a" * (n - len(ask) - 1))
        yield Case(f(one), [b"r1.cfg"], ask + b"\n" + b"a" * (n - len(ask) - 2) + b"\n")
        yield Case(f(one), [b"r1.cfg"], ask + b"quit\n" + b"a" * (n - len(ask) - 5))
    yield Case(f(one), [b"r1.cfg"], ask + b"quit\n" + b"a\n" * 10000000)
    yield Case(f(one), [b"r1.cfg"], b"\n" * (top - 3) + b"quit" + b"\n")
    yield Case(f(one), [b"r1.cfg"], ask + b"a" * (top + 100000))
    yield Case(f(one), [b"r1.cfg"], ask + b"quit" + b" " * 4093 + b"\n" + b"a" * top)
    yield Case(f(b"frob x\n"), [b"r1.cfg"], b"\n" * (top + 1))


RANDOM_KINDS = {
    "net": kind_net,
    "odd": kind_odd,
    "join": kind_join,
    "static": kind_static,
    "policy": kind_policy,
    "peers": kind_peers,
    "sides": kind_sides,
    "routes": kind_routes,
    "ways": kind_ways,
    "filters": kind_filters,
    "names": kind_names,
    "bytes": kind_bytes,
    "banner": kind_banner,
    "session": kind_session,
    "words": kind_words,
}

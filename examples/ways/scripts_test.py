#!/usr/bin/env python3
"""Tests of the scripts that ask NetCov by themselves: suggest, why, refusals, outside, elements, check and their filters.

    python3 examples/ways/scripts_test.py

It prints a line for each test, `held` or `failed`, and its status is 1 where one failed. The variable NETCOV names the
program that answers; it is needed.
"""
import argparse
import codecs
import glob
import os
import re
import shlex
import shutil
import subprocess
import sys
import tempfile

HERE = os.path.dirname(os.path.abspath(__file__))
EXAMPLES = os.path.dirname(HERE)
BACKBONE = sorted(glob.glob(os.path.join(EXAMPLES, "backbone", "*.cfg")))
SYSTEMS = sorted(glob.glob(os.path.join(EXAMPLES, "three-systems", "*.cfg")))
EDGE = sorted(glob.glob(os.path.join(EXAMPLES, "guarded-edge", "*.cfg")))
ONLY_DENY = {("north", line) for line in (53, 54, 55, 56, 57, 58, 61, 62, 63, 64)}


def run(script, words=(), text="", **variables):
    """(status, what it wrote, what it told on the standard error)"""
    data = text if isinstance(text, bytes) else text.encode()
    ran = subprocess.run([os.path.join(HERE, script), *words], input=data, capture_output=True, env={**os.environ, **variables}, check=False)
    return ran.returncode, ran.stdout.decode(), ran.stderr.decode()


def replies(files, session):
    ran = subprocess.run([*shlex.split(os.environ["NETCOV"]), *files], input=session.encode(), capture_output=True, check=True)
    return ran.stdout.decode()


def uncovered(files, session):
    """The uncovered lines after a session, none of whose lines may be refused."""
    said = replies(files, session)
    assert "refused" not in said, said
    reports = [line.rsplit(" ", 1) for line in said.splitlines()[-len(files) :]]
    return {(name, k) for name, marks in reports for k, mark in enumerate(marks, 1) if mark == "U"}


def same(got, wanted):
    assert got == wanted, f"got\n{got}\ninstead of\n{wanted}"


def has(text, part):
    assert part in text, f"{part!r} isn't in\n{text}"


def file_of(folder, name, text):
    path = os.path.join(folder, name)
    with open(path, "wb") as out:
        out.write(text if isinstance(text, bytes) else text.encode())
    return path


def backbone_session():
    lines = open(os.path.join(EXAMPLES, "backbone", "session"), encoding="utf-8").read().splitlines()
    return [line for line in lines if not line.startswith("#")]


def suggest_brings_back(kept):
    session = "".join(line + "\n" for line in kept)
    status, said, _ = run("suggest", BACKBONE, session)
    same(status, 0)
    same(uncovered(BACKBONE, session + said), ONLY_DENY | {("east", 49)})
    has(said, "east:49 ip prefix-list BANK seq 10 permit 198.51.100.192/27: it is dead: refused absent bgp east\n#     198.51.100.192/26 from 198.51.100.6, ")
    return session, said


def suggest_without_the_first_half(_):
    suggest_brings_back(backbone_session()[10:])


def suggest_without_each_second(_):
    suggest_brings_back(backbone_session()[::2])


def suggest_from_nothing(_):
    suggest_brings_back([])


def suggest_nothing_needless(_):
    tests = [line for line in run("suggest", SYSTEMS)[1].splitlines() if not line.startswith("#")]
    whole = uncovered(SYSTEMS, "".join(line + "\n" for line in tests))
    for left_out in tests:
        assert uncovered(SYSTEMS, "".join(line + "\n" for line in tests if line != left_out)) != whole, f"{left_out} is needless"


def suggest_for_weak_lines(_):
    session = "".join(line + "\n" for line in backbone_session())
    said = run("suggest", ["--weak", *BACKBONE], session)[1]
    has(said, "# 2 tests cover 4 of 4 weak lines\n")
    assert " weak 0 " in replies(BACKBONE, session + said).splitlines()[-len(BACKBONE) - 1]


def suggest_tells_refused_lines(_):
    has(run("suggest", SYSTEMS, "rib r9 10.0.0.0/8\nnonsense\n")[1], "# of the session: refused router r9\n# of the session: refused syntax: line 2: nonsense\n")


def suggest_tells_what_was_not_asked(_):
    said = run("suggest", ["--most", "1", *SYSTEMS])[1]
    has(said, "tests that could cover something weren't asked: --most asks more than 1\n")


def suggest_tells_dead_lines(folder):
    more = open(SYSTEMS[1], encoding="utf-8").read() + "route-map TO-PEERS permit 20\n match ip address prefix-list OFFICE\n"
    said = run("suggest", [SYSTEMS[0], file_of(folder, "r2.cfg", more), SYSTEMS[2]])[1]
    has(said, "r2:22 ip community-list standard CUSTOMERS permit 65002:200: it is dead")
    has(said, "r2:32-33 route-map TO-PEERS permit 20: it is dead")


def suggest_asks_few_of_dead_lines(folder):
    """Of a network that nobody accepts the route is covered by a test of what is chosen where it is begun."""
    said = run("suggest", BACKBONE)[1]
    has(said, "bgp bank 198.51.100.192/26\n# covers bank:12 bank:14 bank:18\n")
    has(said, "bgp peer 10.66.0.0/16\n# covers peer:12 peer:14 peer:17\n")
    has(replies(BACKBONE, "dead\n"), " bank:18 east:49 ")


def suggest_flows(folder):
    """Flows cover entries of access lists and filters; of what they can't cover stands why."""
    said = run("suggest", EDGE)[1]
    tests = [line for line in said.splitlines() if line.startswith("flow ")]
    assert len(tests) == 3 and any("edge:8-9 " in line and "edge:27 " in line for line in said.splitlines()), said
    has(said, "edge:29 permit ip 198.51.100.0 0.0.0.255 203.0.113.8 0.0.0.7: line 27 takes every packet that it is of\n")
    has(said, "edge:31 permit tcp any 203.0.113.64 0.0.0.63 established: it is of another protocol than ip")
    has(said, "edge:34 access-list 10 deny   203.0.113.8 0.0.0.7: it only denies\n")
    text = open(EDGE[0], encoding="utf-8").read().replace(" permit ip any 203.0.113.0 0.0.0.15\n", " permit ip any 203.0.113.0 0.0.0.7\n permit ip any 203.0.113.8 0.0.0.7\n")
    text = text.replace(" permit ip 198.51.100.0 0.0.0.255 203.0.113.8 0.0.0.7\n", " permit ip 198.51.100.0 0.0.0.255 203.0.113.0 0.0.0.15\n")
    has(run("suggest", [file_of(folder, "edge.cfg", text), *EDGE[1:]])[1], "203.0.113.0 0.0.0.15: no flow is known on which it decides\n")


def why_ends_with(files, test, end):
    status, said, _ = run("why", files, test + "\n")
    same(status, 1)
    same(said.splitlines()[-1].strip(), "=> " + end)


def why_routes(_):
    why_ends_with(BACKBONE, "bgp east 198.51.100.192/26 from 198.51.100.6", "east's map for what comes in denies it")
    why_ends_with(BACKBONE, "rib peer 198.51.100.64/26", "north's aggregate holds it back by `summary-only`")
    why_ends_with(BACKBONE, "rib peer 10.50.0.0/24", "north's map for what goes out denies it")
    why_ends_with(BACKBONE, "bgp peer 1.0.0.0/8", "no file begins 1.0.0.0/8: there is no `network` and no `aggregate-address` for it")


def why_packets(_):
    two = sorted(glob.glob(os.path.join(EXAMPLES, "two-ways", "*.cfg")))
    why_ends_with(two, "every r1 192.0.2.4", "r3 has no route to 192.0.2.4, and no file begins one by BGP")


def changed(folder, name, *changes):
    """The backbone with one file changed."""
    file = next(file for file in BACKBONE if file.endswith(name))
    text = open(file, encoding="utf-8").read()
    for old, new in changes:
        assert old in text, old
        text = text.replace(old, new)
    return [other if other != file else file_of(folder, name, text) for other in BACKBONE]


def why_flows(_):
    why_ends_with(EDGE, "flow edge 203.0.113.10 203.0.113.70", "edge doesn't let it out: edge:34 access-list 10 deny 203.0.113.8 0.0.0.7")
    why_ends_with(EDGE, "flow provider 198.18.0.10 203.0.113.70", "edge doesn't let it in: no entry of FROM-OUTSIDE is of it")
    why_ends_with(EDGE, "flow provider 203.0.113.3 203.0.113.2", "edge doesn't let it in: edge:25 deny ip 203.0.113.0 0.0.0.255 any")
    why_ends_with(EDGE, "flow office 203.0.113.70 192.0.2.9", "provider has no route to 192.0.2.9, and no file begins one by BGP")


def why_sessions(folder):
    test = "session east 198.51.100.6"
    why_ends_with(BACKBONE, "session west 10.9.9.9", "west has no neighbor 10.9.9.9")
    why_ends_with([file for file in BACKBONE if "bank" not in file], test,
                  "no interface that is up has the address 198.51.100.6: a stub of the device will do")
    why_ends_with(changed(folder, "bank.cfg", ("remote-as 64500", "remote-as 64505")), test, "bank says `remote-as 64505`, and east is AS 64500")
    why_ends_with(changed(folder, "east.cfg", (" neighbor 10.255.0.2 update-source Loopback0\n", "")), "session east 10.255.0.2",
                  "east speaks to 10.255.0.2 from 10.0.0.9, and north has its neighbor at 10.255.0.4: `update-source`?")


def why_next_hop(folder):
    files = changed(folder, "north.cfg", (" neighbor 10.255.0.1 next-hop-self\n", ""))
    why_ends_with(files, "rib west 192.0.2.0/24", "west has no way to the next hop: north needs `neighbor 10.255.0.1 next-hop-self`")


def why_shut_interfaces(folder):
    files = changed(folder, "east.cfg", (" ip address 198.51.100.5 255.255.255.252\n", " ip address 198.51.100.5 255.255.255.252\n shutdown\n"))
    for test in ("session east 198.51.100.6", "session bank 198.51.100.5"):
        why_ends_with(files, test, "east's GigabitEthernet0/2 has 198.51.100.5 and is shut (east:20)")


def why_routes_inside(folder):
    test, neighbor = "bgp west 192.0.2.0/24 from 10.255.0.3", " neighbor 10.255.0.2 {}\n"
    why_ends_with(BACKBONE, test, "south prefers the route from 10.255.0.2 (inside), and sends none of those inside")
    files = changed(folder, "west.cfg", (neighbor.format("remote-as 64500"), neighbor.format("remote-as 64500") + neighbor.format("shutdown")))
    why_ends_with(files, test, "south has it over an internal session, and hands it on over no other: west needs one with the router that has it")


def why_distances(folder):
    text = "hostname a\ninterface Ethernet0\n ip address 10.0.0.1 255.255.255.0\ninterface Ethernet1\n ip address 10.0.1.1 255.255.255.0\n"
    first, second = ("ip route 0.0.0.0 0.0.0.0 10.0.0.2 5\n", "ip route 0.0.0.0 0.0.0.0 Ethernet1 10.0.1.2 250 name BACKUP\n")
    test = "rib a 0.0.0.0/0 via 10.0.1.2"
    why_ends_with([file_of(folder, "a.cfg", text + first + second)], test, "a:7 has the distance 250, and a:6 with the lower distance 5 is used")
    why_ends_with([file_of(folder, "a.cfg", text + first)], test, "its next hops are 10.0.0.2")


def why_shared_addresses(folder):
    host = file_of(folder, "a.cfg", "hostname a\ninterface Ethernet0\n ip address 10.0.0.2 255.255.255.0\nip route 10.9.0.0 255.255.255.0 10.0.0.1\n")
    gateway = file_of(folder, "b.cfg", "hostname b\ninterface Ethernet0\n ip address 10.0.0.3 255.255.255.0\n standby 1 ip 10.0.0.1\n")
    why_ends_with([host, gateway], "reach a 10.9.0.9", "no interface that is up has the next hop 10.0.0.1 of a: routers share it"
                  " (b:4 standby 1 ip 10.0.0.1); name the active one's own address in its place")


def why_nothing_absent(_):
    same(run("why", SYSTEMS, "rib r1 10.1.0.0/24\n"), (0, "", ""))


def why_lines_that_are_not_asked(_):
    slips = b"# a note\nrib r1 10.1.0.0 255.255.255.0\nrib r9 10.1.0.0/24\nelement r1 999\nrib r1 10.1.0.0/24\nrib \xff x\n"
    wanted = ("line 2: rib r1 10.1.0.0 255.255.255.0: refused syntax", "line 3: rib r9 10.1.0.0/24: refused router r9",
              "line 4: element r1 999: refused line", "line 6: rib \\xff x: refused syntax")
    same(run("why", SYSTEMS, slips), (1, "".join(f"not asked: {line}\n" for line in wanted), ""))


FAULTY = """hostname a
banner motd #
router ospf 1
#
router ospf 1
 network 10.0.0.0 0.0.0.255 area 0
interface Ethernet0
 ip address 10.0.0.1 255.255.255.0
 ip address 10.0.1.1 255.255.255.0 secondary
interface Ethernet1
 vrf forwarding management
 ip address 10.9.0.1 255.255.255.0
"""


def refusals_in_one_go(folder):
    faulty, nameless = file_of(folder, "a.cfg", FAULTY), file_of(folder, "b.cfg", "interface Ethernet0\n ip address 10.0.0.1 255.255.255.0\n")
    copies = os.path.join(folder, "copies")
    status, said, _ = run("refusals", ["--copies", copies, faulty, nameless])
    same(status, 1)
    wanted = ["a.cfg:2 unsupported banner motd #", "a.cfg:5 unsupported router ospf 1", "a.cfg:9 unsupported ip address 10.0.1.1 255.255.255.0 secondary",
              "a.cfg:11 unsupported vrf forwarding management", "b.cfg:0 no-name", "b.cfg:2 same-address ip address 10.0.0.1 255.255.255.0"]
    same([line.strip().removeprefix(folder + "/") for line in said.splitlines() if line.startswith("  ")], wanted)
    same(run("refusals", sorted(glob.glob(copies + "/*"))), (0, "", ""))
    lines = open(os.path.join(copies, "a.cfg"), encoding="utf-8").read().splitlines()
    same((len(lines), lines[1], lines[3], lines[4], lines[10]), (12, "banner motd ^C", "^C", "unread router ospf 1", " shutdown"))


def refusals_take_whole_families_out(folder):
    text = "hostname a\nrouter bgp 1\n neighbor 10.0.0.2 remote-as 2\n address-family vpnv4\n  neighbor 10.0.0.2 route-map X in\n exit-address-family\n neighbor 10.0.0.2 activate\n"
    copies = os.path.join(folder, "copies")
    same(run("refusals", ["--copies", copies, file_of(folder, "a.cfg", text)])[0], 1)
    wanted = "hostname a\nrouter bgp 1\n neighbor 10.0.0.2 remote-as 2\n unread address-family vpnv4\n  unread neighbor 10.0.0.2 route-map X in\n unread exit-address-family\n neighbor 10.0.0.2 activate\n"
    same(open(os.path.join(copies, "a.cfg"), encoding="utf-8").read(), wanted)


def advises(folder, text, *parts):
    """What refusals says of a router's file has all of these parts, however its lines are broken."""
    said = " ".join(run("refusals", [file_of(folder, "a.cfg", "hostname a\n" + text)])[1].split())
    for part in parts:
        has(said, part)


def refusals_of_banners(folder):
    text = "banner motd \x03\nhello\n\x03\n"
    advises(folder, text, "banner between bytes 3, which a terminal shows as ^C", r"`sed 's/\x03/^C/g'` puts")
    mended = subprocess.run(["sed", r"s/\x03/^C/g"], input="hostname a\n" + text, capture_output=True, check=True, text=True).stdout
    same(run("refusals", [file_of(folder, "b.cfg", mended)]), (0, "", ""))


def refusals_of_what_has_pitfalls(folder):
    advises(folder, "router ospf 1\n", "one `ip route` for each next hop that OSPF would use at equal cost; a longer way gets a greater distance")
    advises(folder, "interface Ethernet0\n ip address 10.0.1.1 255.255.255.0 secondary\n ip address 10.0.0.1 255.255.255.0\n",
            "take the line out, and add an interface of its own at the end of the file")
    advises(folder, "router bgp 1\n neighbor 10.0.0.2 remote-as 2\n neighbor 10.0.0.2 prefix-list W out\n",
            "put `match ip address prefix-list W` into each of its permit clauses instead")


def refusals_of_another_encoding(folder):
    path = file_of(folder, "a.cfg", FAULTY.splitlines()[0].encode("utf-16"))
    status, said, _ = run("refusals", [path])
    same(status, 1)
    has(said, "a.cfg:0 encoding the file is in UTF-16")


def refusals_of_a_missing_file(folder):
    same(run("refusals", [os.path.join(folder, "none")])[0], 1)


def groups_written_out(_):
    text = "router bgp 1\n neighbor G peer-group\n neighbor G remote-as 2\n neighbor G route-map IN in\n neighbor 10.0.0.2 peer-group G\n neighbor 10.0.0.2 route-map MINE in\n"
    wanted = "router bgp 1\n! neighbor G peer-group\n! neighbor G remote-as 2\n! neighbor G route-map IN in\n neighbor 10.0.0.2 remote-as 2\n neighbor 10.0.0.2 route-map MINE in\n"
    same(run("without-peer-groups", text=text), (0, wanted, ""))
    same(run("without-peer-groups", text="hostname a\n"), (0, "hostname a\n", ""))


def outside_most_telling_first(folder):
    text = "version 15\nhostname a\ninterface Ethernet0\n ip address 10.0.0.1 255.255.255.0\n standby 1 ip 10.0.0.9\n frobnicate\n ip verify unicast reverse-path\n"
    status, said, _ = run("outside", [file_of(folder, "a.cfg", text)])
    same(status, 0)
    same([line.split("  (")[0].strip() for line in said.splitlines() if line.startswith("  ")], ["ip verify unicast reverse-path", "standby 1 ip 10.0.0.9", "frobnicate"])
    has(said, "1 statements carry no traffic")
    status, said, told = run("outside", [file_of(folder, "b.cfg", "hostname b\nrouter ospf 1\n")])
    same((status, said), (1, "0 statements carry no traffic\n"))
    has(told, "isn't read: refused config")


def outside_as_the_document_says(folder):
    """Each statement of LANGUAGE's table of what is outside is accepted, and its line is outside and is listed as one that matters."""
    text = open(os.path.join(os.path.dirname(EXAMPLES), "docs", "LANGUAGE.md"), encoding="utf-8").read()
    rows = re.findall(r"^\| (.*?) \| (`.*?) \| ", text.partition("## What is outside")[2].partition("\n## ")[0], re.M)
    headers = {"interface": "interface Ethernet0\n ip address 10.0.0.1 255.255.255.0", "process": "router bgp 1", "list": "ip access-list extended NAME"}
    lines, count = ["hostname a"], 0
    for where, statements in rows:
        lines += headers[where].split("\n") if where in headers else []
        for statement in re.findall(r"`(.*?)`", statements):
            words = [{"W": "NAME", "A": "10.0.0.9", "N": "5"}.get(word, word) for word in statement.split()]
            lines.append((" " if where in headers else "") + " ".join(words))
            count += 1
    assert count > 40, rows
    status, said, told = run("outside", [file_of(folder, "a.cfg", "\n".join(lines) + "\n")])
    same((status, told), (0, ""))
    same(said.count("\n  "), count)
    same(said.splitlines()[-1], "1 statements carry no traffic")
    assert "not known here" not in said, said


def elements_by_text(_):
    texts = "# a note\nelement r2 = ip prefix-list  OFFICE seq 5 deny 10.1.99.0/24\nelement r2 = route-map FROM-OFFICE permit 10 / set community 65002:100\nrib r1 10.1.0.0/24\n"
    numbers = "# a note\nelement r2 19\nelement r2 27\nrib r1 10.1.0.0/24\n"
    same(run("elements", SYSTEMS, texts), (0, numbers, ""))
    same(run("elements", ["--to-texts", *SYSTEMS], numbers)[1], texts.replace("  OFFICE", " OFFICE"))
    status, said, told = run("elements", SYSTEMS, "element r2 = ip prefix-list GONE\n")
    same((status, said), (1, "# no line of r2 has this text: element r2 = ip prefix-list GONE\n"))
    has(told, "no line of r2 has this text")


def check_compares_lines(folder):
    kept, session = os.path.join(folder, "kept"), file_of(folder, "session", "rib r1 10.1.0.0/24\nrib r3 10.1.0.0/16\n")
    same(run("check", [kept, session, *SYSTEMS])[0], 0)
    os.rename(kept + ".new", kept)
    text = open(SYSTEMS[1], encoding="utf-8").read()
    moved = file_of(folder, "r2.cfg", "!\n!\n" + text)
    same(run("check", [kept, session, SYSTEMS[0], moved, SYSTEMS[2]])[0], 0)
    other = file_of(folder, "r2.cfg", text.replace("set community 65002:100", "set community 65002:200"))
    same(run("check", [kept, session, SYSTEMS[0], other, SYSTEMS[2]])[:2], (1, "no longer covered: r2:23 ip community-list standard CUSTOMERS permit 65002:100\n"))
    more = file_of(folder, "r2.cfg", text + "interface Ethernet9\n")
    said = run("check", [kept, session, SYSTEMS[0], more, SYSTEMS[2]])[1]
    has(said, "new and uncovered: r2:32 interface Ethernet9\n")
    has(run("check", [kept, file_of(folder, "one", "rib r1 10.1.0.0/24\n"), SYSTEMS[0]])[1], "no file of r2 any more\n")


def check_of_all_commands(folder):
    lines = ["rib r1 10.1.0.0/24", "show r1", "lcov", "reach r1 203.0.113.10", "implies 1 2", "suite", "dead", "forget 1", "json", "#" + "x" * 4096, "rib r3 10.1.0.0/24"]
    session = file_of(folder, "session", "".join(line + "\n" for line in lines))
    status, said, _ = run("check", [os.path.join(folder, "kept"), session, *SYSTEMS])
    same((status, said), (1, f"refused long: line 10: #{'x' * 199} ..\nrefused absent rib r3 10.1.0.0/24\n"))


def check_tells_refused_lines(folder):
    slip = file_of(folder, "slip", "# a note\nrib r1 10.1.0.0/24\n\nrib r1 10.1.0.0 255.255.255.0\n")
    same(run("check", [os.path.join(folder, "kept"), slip, *SYSTEMS])[:2], (1, "refused syntax: line 4: rib r1 10.1.0.0 255.255.255.0\n"))


def check_of_odd_sessions(folder):
    kept = os.path.join(folder, "kept")
    status, _, told = run("check", [kept, os.path.join(folder, "none"), *SYSTEMS])
    same(status, 2)
    has(told, "the session can't be read")
    same(run("check", [kept, file_of(folder, "empty", "# nothing\n"), *SYSTEMS])[:2], (1, "the session has no test\n"))
    status, _, told = run("check", [kept, file_of(folder, "early", "rib r1 10.1.0.0/24\nquit\nrib r9 10.1.0.0/24\n"), *SYSTEMS])
    same(status, 0)
    has(told, "early:2 is `quit`: the 1 lines behind it aren't asked")
    file_of(folder, "kept", "test 1 facts 4\n")
    status, _, told = run("check", [kept, file_of(folder, "good", "rib r1 10.1.0.0/24\n"), *SYSTEMS])
    same(status, 2)
    has(told, "it wasn't written by this check")


def encodings_are_told(folder):
    line = "rib r1 10.1.0.0/24\n"
    for data, what in ((codecs.BOM_UTF8 + line.encode(), "begins with a byte order mark"), (line.encode("utf-16"), "is in UTF-16")):
        for script, words in (("suggest", SYSTEMS), ("why", SYSTEMS), ("elements", SYSTEMS)):
            status, _, told = run(script, words, data)
            same(status, 2)
            has(told, what)
        status, _, told = run("check", [os.path.join(folder, "kept"), file_of(folder, "session", data), *SYSTEMS])
        same(status, 2)
        has(told, what)
        same(run("plain-text", text=data), (0, line, f"the input {what}: read as such\n"))
        status, said, told = run("from-pings", text=data.replace(b"rib ", b"").replace(line.encode("utf-16-le")[:8], b""))
        has(told, what)
    same(run("from-pings", text="r1 10.4.0.10\n".encode("utf-16"))[1], "reach r1 10.4.0.10\n")


def help_is_there(_):
    for script in ("suggest", "why", "refusals", "outside", "elements", "check", "plain-text", "without-peer-groups"):
        status, said, _ = run(script, ["--help"])
        same(status, 0)
        has(said, "usage: ")


TESTS = (
    suggest_without_the_first_half, suggest_without_each_second, suggest_from_nothing, suggest_nothing_needless,
    suggest_for_weak_lines, suggest_tells_refused_lines, suggest_tells_what_was_not_asked, suggest_tells_dead_lines,
    suggest_asks_few_of_dead_lines, suggest_flows, why_routes, why_packets, why_flows, why_sessions, why_next_hop, why_shut_interfaces, why_routes_inside, why_distances,
    why_shared_addresses, why_nothing_absent, why_lines_that_are_not_asked, refusals_in_one_go,
    refusals_take_whole_families_out, refusals_of_banners, refusals_of_what_has_pitfalls, refusals_of_another_encoding,
    refusals_of_a_missing_file, groups_written_out, outside_most_telling_first, outside_as_the_document_says, elements_by_text, check_compares_lines,
    check_of_all_commands, check_tells_refused_lines, check_of_odd_sessions, encodings_are_told, help_is_there,
)


def main():
    argparse.ArgumentParser(description=__doc__, formatter_class=argparse.RawDescriptionHelpFormatter).parse_args()
    failed = 0
    for test in TESTS:
        folder, name = tempfile.mkdtemp(), test.__name__.replace("_", " ")
        try:
            test(folder)
            print(f"held   {name}")
        except (AssertionError, OSError, IndexError, subprocess.CalledProcessError) as error:
            failed += 1
            print(f"failed {name}: {error}")
        finally:
            shutil.rmtree(folder)
    return 1 if failed else 0


if __name__ == "__main__":
    sys.exit(main())

"""Which lines make one element, as the page reads files and as NetCov does: `element` marks all lines of one."""
import json

from leads import files_of
from replies import Session

ODD = b"""hostname odd
interface Loopback0
 ip address 192.0.2.1 255.255.255.255
interface Ethernet0 and more words
 description lan
 ip address 10.0.0.1 255.255.255.0
!
interface Ethernet1
 no ip address
 shutdown
 duplex auto
interface Ethernet0
\tno shutdown
ip route 10.9.0.0 255.255.0.0 10.0.0.9
ip route 10.9.0.0 255.255.0.0 10.0.0.9 50 name x tag 3
ip route 10.9.0.0 255.255.0.0 Ethernet0 10.0.0.9
ip route 10.8.0.0 255.255.0.0 Null0 200
ip forward-protocol nd
router bgp 65001
 bgp router-id 192.0.2.1
 bgp log-neighbor-changes
 bgp always-compare-med
 bgp bestpath as-path multipath-relax
 maximum-paths 2
 neighbor 10.0.0.2 remote-as 65002
 neighbor 10.0.0.2 description x
 !
 address-family ipv4
  network 10.0.0.0 mask 255.255.255.0
  network 10.0.0.0
  network 0.0.0.0
  neighbor 10.0.0.2 activate
  neighbor 10.0.0.2 route-map IN in
  neighbor 10.0.0.2 maximum-prefix 10
  neighbor 10.0.0.3 description nothing else
 exit-address-family
 aggregate-address 10.0.0.0 255.0.0.0 summary-only
banner exec ^C
interface Ethernet9
^C
router bgp 65001
 neighbor 10.0.0.2 send-community both
 neighbor 10.0.0.2 send-community extended
 aggregate-address 10.0.0.0 255.0.0.0
ip prefix-list seq permit 10.0.0.0/8 le 24
ip prefix-list seq seq 5 deny 10.0.0.0/8
ip prefix-list seq description none
ip prefix-list A seq 20 permit 10.0.0.0/8
ip prefix-list A permit 11.0.0.0/8 ge 9
ip prefix-list A seq 25 permit 12.0.0.0/8
ip community-list standard C permit 65001:7 8
ip community-list 5 deny 3
ip community-list expanded X permit any
route-map IN permit 10
 description taken
 match ip address prefix-list A seq
 match community C 5
 set local-preference 200
 set community 65001:9 additive
route-map IN deny 20
 shutdown
route-map IN permit 10
 set metric 5
shutdown
 ip address 10.1.1.1 255.255.255.0
line vty 0 4
 login
end
interface Ethernet0
 ip access-group F in
 ip access-group 10 out
 ip access-group F
interface Ethernet1
 ip access-group F in
interface Ethernet0
 ip access-group G in
ip access-list extended G
 remark x
 permit ip any any log-input
 10 deny ip host 10.0.0.1 10.0.0.0 0.0.0.255 log
 permit tcp any any eq 80
 permit any
ip access-list standard F
 permit any log
 deny 10.0.0.1
 20 permit 10.0.0.0 0.0.0.254
!
	deny   host 10.0.0.3
ip access-list standard H
 permit any any
 permit host 10.0.0.1 log x
 permit 10.0.0.1
 05 permit any
access-list 10 permit any
access-list 10 remark x
access-list 200 permit any
access-list 2000 permit ip any any
access-list 1300 deny host 10.0.0.9
 permit any
ip access-list extended X y
 permit ip any any
"""

READ = """[...sides.now.routers.values()].map(router => [router.name, [...router.marks].map((mark, k) => mark === OUTSIDE ? [] : linesOfElement(router, k))])"""


def told_by_netcov(files):
    """By router, for each line the lines that `element` marks; none where it is refused."""
    session = Session(files)
    routers = [(name.decode(), marks) for name, marks in session.routers()]
    places = [(name, k) for name, marks in routers for k, mark in enumerate(marks) if mark not in b"."]
    lines = [line for n, (name, k) in enumerate(places) for line in (f"element {name} {k + 1}", "json", f"forget {n + 1}")]
    replies = [json.loads(line) for line in session.write("\n".join(lines)).splitlines() if line.startswith(b"{")]
    found = {name: [[] for _ in marks] for name, marks in routers}
    for (name, k), reply in zip(places, replies):
        marks = next(router["marks"] for router in reply["routers"] if router["name"] == name)
        found[name][k] = [line for line, mark in enumerate(marks) if mark == "S"]
    return found


def check_examples(page):
    for example in ("three-systems", "two-ways", "static-pair", "first-run", "backbone", "guarded-edge"):
        files = files_of(example)
        agree(page, files)


def agree(page, files):
    shows = "".join(f"show {name.decode()}\n" for name, _ in Session(files).routers())
    page.fresh()
    page.read(("replies", Session(files).write(shows)))
    expected, found = told_by_netcov(files), dict(page.run(READ))
    for name, lines in expected.items():
        wrong = [(name, k + 1, one, found[name][k]) for k, one in enumerate(lines) if found[name][k] != one]
        assert not wrong, wrong[:5]


def check_odd_forms(page):
    """Lines that are of one thing though they are apart, and lines that look alike and aren't read."""
    agree(page, [page.file("odd.cfg", ODD)])
    lines = dict(page.run(READ))["odd"]
    assert sum(bool(one) for one in lines) > 40
    assert lines[5] == [3, 5, 11, 12, 68, 74] and lines[13] == [13, 14] and lines[44] == [44, 45], lines
    assert lines[69] == [69, 75] and lines[70] == [70] and lines[80] == [80] and lines[87] == [87] and lines[90] == [], lines


CHECKS = (check_examples, check_odd_forms)

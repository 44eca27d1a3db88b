"""Replies to `cut`, `implies`, `suite` and `dead` among what is read: made here, in the form that LANGUAGE.md gives them, and as they are answered on examples."""
import os

from replies import Session, TOP, answered, json_of, report_of, shown
from small import FILES, SHOWS, TESTS

LINES = [b"hostname r1", b"interface Ethernet0", b" ip address 10.0.0.1 255.255.255.0", b"!", b"interface Ethernet1", b" description spare",
         b" ip address 10.0.1.1 255.255.255.0", b" shutdown", b"ip route 10.9.0.0 255.255.0.0 10.0.0.9", b"ip prefix-list A deny 10.0.0.0/8",
         b"interface Ethernet0", b" no shutdown"]
MARKS = b".SS.U.UUUUSS"


def check_cuts(page):
    """Each line of a cut stands with its text and a link to it; a test that hangs on one line is told."""
    session = Session(FILES)
    replies = session.write(TESTS) + b"cut 1 1 r2:20\ncut 1 2 r1:8 r1:12\ncut 3 none\nimplies 1 2 no without r2:4\n" + session.write(SHOWS)
    commands = TESTS + "cut 1\ncut 1 keep r2 r3\ncut 3 keep r1 r2 r3\nimplies 1 2\n" + SHOWS
    page.fresh()
    page.read(("replies", replies), ("session", commands.encode()))
    assert page.messages() == [], page.messages()
    told = page.run("[...document.querySelectorAll('#cuts-told > ul > li')].map(item => item.textContent)")
    assert told == [
        "test 1, rib r3 10.1.0.0/16: lost without this line:r2:20, reply 8 ip prefix-list OFFICE seq 10 permit 10.1.0.0/16 le 24",
        "test 1, rib r3 10.1.0.0/16, keeping r2 r3: lost without these 2 lines:r1:8, reply 9 interface GigabitEthernet0/1r1:12, reply 9 interface GigabitEthernet0/2",
        "test 3, rib r1 203.0.113.0/24 via 198.51.100.2, keeping r1 r2 r3: nothing that may be lost breaks it",
        "test 1, rib r3 10.1.0.0/16, holds without this line, and test 2, bgp r2 10.1.0.0/16 from 198.51.100.1, doesn't:r2:4, reply 11 interface GigabitEthernet0/0"
    ], told
    assert page.run("document.querySelector('#cuts-told > p').textContent") == "1 test hangs on one line alone: a single point of failure."
    page.click("#cuts-told a")
    page.wait("!part('router').hidden")
    assert page.run("location.hash") == "#r2:20" and page.target() == "20"
    assert "In the cut of test 1 (alone)." in page.run("part('about').textContent")
    page.go("#r1:10")
    assert "In the cut of test 1 (of 2)." in page.run("part('about').textContent"), "a further line of what the cut names"


def answered_on(example):
    """The lines of an example's session with a `show` for each router behind them, and what is answered."""
    folder = os.path.join(TOP, "examples", example)
    names = [name for name in sorted(os.listdir(folder)) if name.endswith(".cfg")]
    with open(os.path.join(folder, "session"), "rb") as commands:
        asked = commands.read() + b"".join(b"show " + name[:-4].encode() + b"\n" for name in names)
    return asked, answered(tuple(os.path.join(folder, name) for name in names), asked)


def places_of(replies, word):
    """What stands behind the first words of a reply: of `suite` the numbers, of `dead` the places behind their count."""
    line = next(line for line in replies.decode().splitlines() if line.split(" ")[0] == word)
    return line.split(" ")[1 if word == "suite" else 2:]


def check_cut_of_example(page):
    """The cuts that are answered on the example of a shared line: each is told with its line, and its refusals with the others."""
    asked, replies = answered_on("shared-line")
    page.fresh()
    page.read(("replies", replies), ("session", asked))
    assert page.messages() == [], page.messages()
    told = page.run("[...document.querySelectorAll('#cuts-told > ul > li')].map(item => item.textContent)")
    assert len(told) == asked.count(b"\ncut ") - 1, told
    assert told[0].startswith("test 1, reach branch 10.4.0.10: lost without this line:carrier1:10"), told[0]
    refused = page.run("document.body.textContent")
    assert "cut 3 keep centre" in refused, "the refusal of a cut"


def check_suite_of_example(page):
    """The suite that is answered on the example of a provider: each of its tests suffices, and each other one can go."""
    asked, replies = answered_on("backbone")
    kept = places_of(replies, "suite")
    page.fresh()
    page.read(("replies", replies), ("session", asked))
    assert page.messages() == [], page.messages()
    assert f"; {20 - len(kept)} of 20 can go" in page.run("document.querySelector('#answers summary').textContent")
    told = page.run("[[...sides.now.told.suite.kept], [...sides.now.told.suite.spare]]")
    assert [str(k) for k in told[0]] == kept and sorted(told[0] + told[1]) == list(range(1, 21)), told
    page.run("part('answers').open = true")
    page.settle()
    tags = page.run("[...document.querySelectorAll('#answer-rows .row')].map(row => row.querySelector('.tag')?.textContent)")
    assert tags.count("suffices") == len(kept) and tags.count("can go") == 20 - len(kept), tags


def check_dead_of_example(page):
    """The elements that are told as dead on the example of a provider: each with all its lines, and no other line."""
    asked, replies = answered_on("backbone")
    first = {tuple(place.split(":")) for place in places_of(replies, "dead")}
    page.fresh()
    page.read(("replies", replies), ("session", asked))
    assert page.messages() == [], page.messages()
    marks = page.run("[...sides.now.routers.values()].flatMap(router => [...router.marks].map((mark, k) => [router.name, k + 1, String.fromCharCode(mark)]))")
    dead = {(name, str(number)) for name, number, mark in marks if mark == "D"}
    assert dead == first | {("north", "62"), ("north", "64")}, dead
    assert {(name, number) for name, number, mark in marks if mark == "U"} == {("bank", 12), ("bank", 14), ("peer", 12), ("peer", 14)}, marks
    page.go("#north")
    page.press_all("8")
    assert [row[1] for row in page.rows()] == ["53", "54", "55", "56", "57", "58", "61", "62", "63", "64"], page.rows()
    page.go("#bank")
    page.press_all("7")
    assert [row[1] for row in page.rows()] == ["12", "14"], page.rows()


def check_suite(page):
    """Tests that can go are marked among the answers: those that live and aren't in the last reply of `suite`."""
    session = Session(FILES)
    replies = session.write(TESTS + "forget 2\n") + b"suite 1 3 5\n" + session.write("rib r1 10.1.1.0/24")
    page.fresh()
    page.read(("replies", replies))
    assert "; 1 of 4 can go" in page.run("document.querySelector('#answers summary').textContent")
    page.run("part('answers').open = true")
    page.settle()
    tags = page.run("[...document.querySelectorAll('#answer-rows .row')].map(row => [row.querySelector('.t')?.textContent, row.querySelector('.tag')?.textContent])")
    assert [tag for text, tag in tags if text and text.startswith("test ")] == ["suffices", None, "suffices", "can go", "suffices", None], tags
    long = b"test 1 facts 4\n" + report_of([(b"r1", b"S")]) + b"suite " + b" ".join(b"%d" % k for k in range(1, 200)) + b"\n"
    page.fresh()
    page.read(("replies", long))
    assert page.run("sides.now.told.suite.kept.size") == 199 and len(page.messages()) == 1, page.messages()


def check_dead(page):
    """Dead lines have a letter, a ground, a column and filters of their own; so has each line of a statement of several."""
    replies = b"test 1 facts 4\n" + report_of([(b"r1", MARKS)]) + b"dead 2 r1:5 r1:10\n" + shown(LINES, MARKS)
    page.fresh()
    page.read(("replies", replies))
    assert page.messages() == [], page.messages()
    heads = page.run("[...document.querySelectorAll('#routers thead th')].map(head => head.textContent)")
    assert heads[:7] == ["router", "strong", "weak", "uncovered", "dead", "outside", "covered"], heads
    assert page.table()[0][:7] == ["r1", "4", "0", "1", "4", "3", "80 %"], page.table()
    page.go("#r1")
    assert "".join(row[0] for row in page.rows()) == ".SS.D.DDUDSS", page.rows()
    grounds = page.run("['U', 'D', 'O'].map(mark => getComputedStyle(document.querySelector('#lines .row.' + mark)).backgroundColor)")
    assert len(set(grounds)) == 3, grounds
    page.press_all("7")
    assert [row[1] for row in page.rows()] == ["9"], page.rows()
    page.press_all("8")
    assert [row[1] for row in page.rows()] == ["5", "7", "8", "10"], page.rows()
    page.press_all("3")
    assert [row[1] for row in page.rows()] == ["5", "7", "8", "9", "10"], page.rows()
    page.press_all("1n")
    assert page.target() == "9" and page.said() == "Uncovered block 1 of 1 in r1.", page.said()
    page.go("#r1:10")
    about = page.run("part('about').textContent")
    assert "dead, an entry of a prefix list" in about and "It only denies" in about, about
    page.press("?")
    assert "isn't dead by itself" in page.run("part('help').textContent").replace("\n", " ")


def check_dead_textless(page):
    """Without text the first lines alone are marked; what the marks don't know is told, and so is a reply that is cut."""
    routers = [(b"r:1", MARKS), (b"r2", b".S")]
    page.fresh()
    page.read(("replies", json_of(routers) + b"dead 3 r:1:5 r2:1 r3:4\n"))
    told = "\n".join(page.messages())
    assert "2 places of the dead reply are no line" in told and "the first line alone is marked as dead" in told, told
    assert page.table()[0][:5] == ["r:1 no text", "4", "0", "4", "1"], page.table()
    page.fresh()
    page.read(("replies", json_of(routers) + b"dead 3 r2:1 r2\ncut 1 2 r2:2\n"))
    assert ["reply at line 2 is cut" in "".join(page.messages()), "cut reply at line 3 is cut" in "".join(page.messages())] == [True, True], page.messages()
    assert page.table()[0][4] == "3", "no column where nothing is known to be dead"


def check_dead_compared(page):
    """Where dead lines are known of one session alone, they count as uncovered ones, and no line changed by that."""
    told = b"test 1 facts 4\n" + report_of([(b"r1", MARKS)]) + shown(LINES, MARKS)
    page.fresh()
    page.read(("old", told), ("now", told + b"dead 1 r1:5\n"))
    assert page.table()[0][9:] == ["0", "0", "0", "0", "0"] and page.table()[0][6:8] == ["44.4 %", "44.4 %"], page.table()
    page.fresh()
    page.read(("old", told + b"dead 0\n"), ("now", told + b"dead 1 r1:5\n"))
    assert page.table()[0][9:] == ["0", "0", "3", "0", "0"] and page.table()[0][6:8] == ["44.4 %", "66.6 %"], page.table()


CHECKS = (check_cuts, check_cut_of_example, check_suite_of_example, check_dead_of_example, check_suite, check_dead, check_dead_textless, check_dead_compared)

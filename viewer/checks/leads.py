"""What the page leads to: refused tests, tests that broke, what changed, which test covered a line first, which would cover it."""
import json
import os

from replies import TOP, Session, counted
from small import FILES, SHOWS, TESTS

LIST = "[...document.querySelectorAll('#tests-told > ul > li')].map(item => item.textContent)"
ABOUT = "[...document.querySelectorAll('#about p')].map(piece => piece.textContent)"


def files_of(example):
    folder = os.path.join(TOP, "examples", example)
    return [os.path.join(folder, name) for name in sorted(os.listdir(folder)) if name.endswith(".cfg")]


def tests_of(example):
    """The lines of an example's session but for notes and for questions about all of its tests."""
    with open(os.path.join(TOP, "examples", example, "session"), encoding="utf-8") as file:
        return [line.strip() for line in file if line.strip() not in ("", "suite", "dead") and line[0] != "#"]


def shows_of(files):
    return "".join(f"show {os.path.basename(file)[:-4]}\n" for file in files)


def check_refused(page):
    """Refused lines stand on top, with what they asked and why; what the reply doesn't tell, the session's file does."""
    odd = TESTS + "ribs r1\nrib r9 10.0.0.0/8\nelement r1 1\nforget 99\n" + SHOWS
    replies = Session(FILES).write(odd)
    page.fresh()
    page.read(("replies", replies))
    assert page.run("part('tests-title').textContent") == "6 lines were refused"
    told = ["2 rib r3 10.1.0.0/24 its main table has no such row", "7 bgp r1 10.1.0.0/16 from 198.51.100.2 no such route is accepted"]
    assert page.run(LIST) == told + ["8 refused syntax the line is no command", "9 refused router r9 no router has this name",
                                     "10 refused line there is no such line, or nothing that is tested depends on it",
                                     "11 refused test 99 no test has this number, or it was taken back"], page.run(LIST)
    page.read(("session", odd.encode()))
    assert page.run(LIST)[2:4] == ["8 ribs r1 refused syntax: the line is no command", "9 rib r9 10.0.0.0/8 refused router r9: no router has this name"]
    places = page.run("['tests', 'routers'].map(id => part(id).getBoundingClientRect().top)")
    assert places == sorted(places), "above the table"


def compared(page):
    groups = page.run("[...document.querySelectorAll('#tests-told details')].map(group => [...group.querySelectorAll('summary, li')].map(one => one.textContent))")
    return page.run("part('tests-title').textContent"), page.run("document.querySelector('#tests-told > p').textContent"), groups, page.run(LIST)


def check_broken(page):
    """Which tests broke, hold again, are new and are asked no longer: by both sessions' files, by one, and by their places."""
    kept = ["rib r3 10.1.0.0/16", "rib r1 203.0.113.0/24", "bgp r1 10.1.1.0/24"]
    old, now = kept + ["rib r3 203.0.113.0/24"], ["rib r2 10.1.0.0/16", *kept, "rib r3 10.2.0.0/16"]
    text = open(FILES[1], "rb").read()
    broken = page.file("r2.cfg", text.replace(b"permit 65002:100", b"permit 65002:300"))
    changed = [FILES[0], broken, FILES[2]]
    lines = ["\n".join(tests) + "\n" for tests in (old, now)]
    page.fresh()
    page.read(("old", Session(FILES).write(lines[0])), ("s", lines[0].encode()), side="before")
    page.read(("now", Session(changed).write(lines[1])), ("s", lines[1].encode()))
    title, words, groups, listed = compared(page)
    assert title == "1 test broke; 2 lines were refused", title
    assert words == "Since the earlier session 1 test broke, 0 hold again, 2 are new, 1 asked no longer.", words
    assert groups == [["1 new test holds", "rib r2 10.1.0.0/16"], ["1 test is asked no longer", "rib r3 203.0.113.0/24"]], groups
    assert listed == ["2 brokerib r3 10.1.0.0/16 its main table has no such row", "5 newrib r3 10.2.0.0/16 its main table has no such row"], listed
    for beside in ([("s", lines[0].encode())], []):
        page.fresh()
        page.read(("old", Session(changed).write(lines[0])), *beside, side="before")
        page.read(("now", Session(FILES).write(lines[0])))
        title, words, groups, listed = compared(page)
        assert title == "No line was refused" and "0 tests broke, 1 holds again, 0 are new, 0 asked" in words, (title, words)
        assert groups == [["1 test holds again", "rib r3 10.1.0.0/16"]], groups
    page.fresh()
    page.read(("old", Session(FILES).write(lines[0])), ("now", Session(changed).write(lines[1])))
    assert "can't be told here" in compared(page)[1], compared(page)


def check_percent(page):
    """How much was covered before and is now, in all and of each router."""
    old, now = Session(FILES), Session(FILES)
    page.fresh()
    page.read(("now", now.write(TESTS + SHOWS)))
    page.read(("before", old.write("rib r3 10.1.0.0/16\n" + SHOWS)), side="before")

    def part(routers):
        strong, weak, uncovered, _ = counted(routers)
        return f"{1000 * (strong + weak) // (strong + weak + uncovered) / 10:g} %"

    for before, after in zip(old.routers(), now.routers()):
        row = next(row for row in page.table() if row[0] == before[0].decode())
        assert row[5:7] == [part([before]), part([after])], row
    assert page.table()[-1][5:7] == [part(old.routers()), part(now.routers())]
    assert f"{part(now.routers())} of what can be tested is covered, {part(old.routers())} before" in page.run("part('totals').textContent")
    page.go("#r3")
    assert "57.1 % covered before, 100 % now" in page.run("part('counts').textContent"), page.run("part('counts').textContent")


def check_first(page):
    """Of each line the page tells the test that covered it first, and the one that made it strong."""
    tests = tests_of("backbone")
    files = files_of("backbone")
    replies = Session(files).write("\n".join(tests) + "\n" + shows_of(files))
    covered, strong, number = {}, {}, 0
    for line in replies.splitlines():
        words = line.decode().split(" ")
        if words[0] == "test":
            number = int(words[1])
        elif len(words) == 2 and set(words[1]) <= set("SWU."):
            for k, mark in enumerate(words[1]):
                if mark in "SW":
                    covered.setdefault((words[0], k), number)
                if mark == "S":
                    strong.setdefault((words[0], k), number)
    page.fresh()
    page.read(("replies", replies), ("session", ("\n".join(tests) + "\n" + shows_of(files)).encode()))
    told = {tuple(place): text for place, text in page.run("""[...sides.now.routers.values()].flatMap(router => [...router.marks].map((mark, k) =>
        [[router.name, k], firstText(sides.now, router.name, k, String.fromCharCode(mark))]))""")}
    for place, text in told.items():
        first, sure = covered.get(place), strong.get(place)
        later = "" if sure in (first, None) else f"; strong since test {sure}, {tests[sure - 1]}"
        assert text == ("" if first is None else f"Covered first by test {first}, {tests[first - 1]}{later}."), (place, text)
    assert len(covered) == 155 and sum("; strong" in text for text in told.values()) > 3
    page.go("#west:45")
    assert page.run(ABOUT) == ["west 45: strong, a static route. Covered first by test 3, session west 10.255.0.4; strong since test 13, "
                               "every shop 198.51.100.130."], page.run(ABOUT)
    page.click("#lines [data-row='3']")
    assert page.target() == "4" and page.run(ABOUT) == ["west 4: outside. "], page.run(ABOUT)
    page.press_all("jjk")
    assert page.target() == "5"


def check_uncertain(page):
    """Where reports are missing, the page says no more than they tell; what was taken back is told too."""
    replies = Session(FILES).write("rib r3 10.1.0.0/16\nrib r1 203.0.113.0/24\nforget 1\n" + SHOWS)
    page.fresh()
    page.read(("replies", replies[replies.index(b"test 2 "):]))
    page.go("#r3:13")
    assert "Covered first by test 2, or one before it." in page.run(ABOUT)[0], page.run(ABOUT)
    page.fresh()
    page.read(("replies", replies))
    page.go("#r1:4")
    assert "Covered first by test 1 (taken back since; others cover it)." in page.run(ABOUT)[0], page.run(ABOUT)


def marks_beside(files, tests, asked):
    """For each asked test that is accepted beside these tests, the marks by router that there are then."""
    heads = [line for line in Session(files).write("\n".join([*tests, *asked])).splitlines() if line.startswith((b"test ", b"refused "))]
    accepted = [test for test, head in zip(asked, heads[len(tests):]) if head.startswith(b"test ")]
    number = sum(head.startswith(b"test ") for head in heads[:len(tests)])
    lines = [line for k, test in enumerate(accepted) for line in (test, "json", f"forget {number + k + 1}")]
    told = [json.loads(line) for line in Session(files).write("\n".join([*tests, *lines])).splitlines() if line.startswith(b"{")]
    return {test: {router["name"]: router["marks"] for router in one["routers"]} for test, one in zip(accepted, told)}


def check_likely(page):
    """The likely tests of uncovered lines are lines of a session, and all but few of them hold and cover their line."""
    for example, kept, misses in (("three-systems", slice(4, 5), set()), ("two-systems", slice(1), set()), ("two-ways", slice(1), set()),
                                  ("backbone", slice(0, None, 3), {("east", 48)}), ("guarded-edge", slice(1), set())):
        files, tests = files_of(example), tests_of(example)[kept]
        page.fresh()
        page.read(("replies", Session(files).write("\n".join(tests) + "\n" + shows_of(files))))
        found = page.run("""[...sides.now.routers.values()].flatMap(router => [...router.marks].flatMap((mark, k) => mark !== UNCOVERED ? [] :
            [[router.name, k, likelyTests(sides.now, router, k)]]))""")
        likely = {(name, k): told["tests"][0] for name, k, told in found if told["tests"] and not told["tests"][0].startswith("element")}
        assert len(likely) > 3 and all(told["tests"] or told["note"] for _, _, told in found), found
        marks = marks_beside(files, tests, sorted(set(likely.values())))
        missed = {(name, k) for (name, k), test in likely.items() if test not in marks or marks[test][name][k] not in "SW"}
        assert missed == misses, (example, {place: likely[place] for place in missed})


def check_copied(page):
    """The likely test is ready to copy, by a key and by a button; those of a file in one go."""
    page.fresh()
    page.read(("replies", Session(FILES).write("rib r1 10.1.0.0/24\n" + SHOWS)))
    page.go("#r2:30")
    assert page.run(ABOUT)[:2] == ["r2 30: uncovered, a clause of a route map. ", "Likely test: rib r3 10.1.0.0/16 Copy rib r3 10.1.0.0/16"], page.run(ABOUT)
    page.press("y")
    page.wait("part('said').textContent.endsWith('rib r3 10.1.0.0/16')")
    page.go("#r1:17")
    page.click("#about .test:nth-of-type(3) button")
    page.wait("part('said').textContent.endsWith(': rib r2 10.1.0.0/24')")
    page.go("#r2:22")
    assert "No clause of the files here sets them" in page.run(ABOUT)[1], page.run(ABOUT)
    page.click("[data-do=copy-file]")
    page.wait("part('said').textContent.startsWith('Copied the tests') || part('copying').open")
    if page.run("part('copying').open"):
        told = page.run("part('ready').value").splitlines()
        assert told[0] == "rib r2 198.51.100.0/30" and "session r2 198.51.100.6" in told and "rib r3 10.1.0.0/16" in told, told
        page.press("Escape")
    page.go("#r2:28")
    assert page.run(ABOUT)[1] == "Once somebody has looked at it: element r2 28 Copy element r2 28", page.run(ABOUT)
    page.go("#r1:8")
    page.press("y")
    page.wait("part('said').textContent === 'No likely test is known for the marked line.'")


def check_asked(page):
    """A likely test that the session refused already is told apart: here is the planted bug of the example."""
    files = files_of("backbone")
    asked = "bgp east 198.51.100.192/27 from 198.51.100.6\nbgp east 198.51.100.192/26 from 198.51.100.6\n"
    page.fresh()
    page.read(("replies", Session(files).write("\n".join(tests_of("backbone")) + "\n" + asked + shows_of(files))))
    page.go("#east:49")
    assert any("and refused: bgp east 198.51.100.192/27 from 198.51.100.6" in text for text in page.run(ABOUT)), page.run(ABOUT)


def check_begun(page):
    """The first look: a zone to drop on that is seen, and a legend beside the file."""
    page.fresh(height=800)
    zone = page.run("(() => { const b = part('zone').getBoundingClientRect(), s = getComputedStyle(part('zone')); return [b.width, b.height, s.borderTopStyle, s.borderTopWidth] })()")
    assert zone[0] > 400 and zone[1] > 150 and zone[2:] == ["dashed", "2px"], zone
    assert page.run("[...document.querySelectorAll('.slot')].every(slot => slot.hidden)")
    page.read(("replies", Session(FILES).write(TESTS + SHOWS)), drop=True)
    assert page.run("part('welcome').hidden") and not page.run("part('slot-before').hidden")
    assert page.run("document.querySelector('#routers tbody td a').getAttribute('href')") == "#r2:19", "the number of uncovered lines leads to the first"
    page.click("#routers tbody td a")
    page.wait("!part('router').hidden")
    assert page.target() == "19"
    legend = page.run("[...document.querySelectorAll('#file-legend .key')].map(key => key.textContent)")
    assert legend == ["S strong", "W weak", "U uncovered", ". outside"] and page.run("part('file-legend').getBoundingClientRect().bottom <= innerHeight"), legend


def check_flows(page):
    """Flows are tests like others: what is refused stands on top, a covered line tells the flow that covered it first, and an uncovered
    entry the flow that would, or why there is none."""
    files, tests = files_of("guarded-edge"), tests_of("guarded-edge")
    asked = "\n".join(tests[:2] + tests[6:8]) + "\n" + shows_of(files)
    page.fresh()
    page.read(("replies", Session(files).write(asked)), ("session", asked.encode()))
    assert page.messages() == [], page.messages()
    told = ["4 flow provider 198.18.0.10 203.0.113.70 no such packet arrives past all filters"]
    assert page.run(LIST) == told, page.run(LIST)
    taken = "Line 27 takes every packet that it is of, so no test rests on it."
    for line, about in ((27, ["edge 27: strong, an entry of an access list. Covered first by test 1, flow provider 198.18.0.10 203.0.113.2."]),
                        (29, ["edge 29: uncovered, an entry of an access list. ", taken]),
                        (31, ["edge 31: uncovered, an entry of an access list. ", "An entry of another protocol than ip decides on no flow, so no test rests on it."])):
        page.go(f"#edge:{line}")
        assert page.run(ABOUT) == about, page.run(ABOUT)
    page.go("#edge:18")
    assert page.run(ABOUT)[1].startswith("Likely test: flow edge "), page.run(ABOUT)
    page.go("#edge:34")
    assert page.run(ABOUT)[1].startswith("Once somebody has looked at it: element edge 34 "), page.run(ABOUT)


CHECKS = (check_refused, check_broken, check_percent, check_first, check_uncertain, check_likely, check_flows, check_copied, check_asked, check_begun)

"""The example of three systems: the table, each file, keys, filters, search, links, paper."""
import os

from replies import TOP, Session, counted, json_of

FOLDER = os.path.join(TOP, "examples", "three-systems")
FILES = [os.path.join(FOLDER, f"r{k}.cfg") for k in (1, 2, 3)]
TESTS = open(os.path.join(FOLDER, "session"), encoding="utf-8").read()
SHOWS = "show r1\nshow r2\nshow r3\n"


def expected(session, k):
    """The rows of a router, as the page is to have them."""
    marks = session.routers()[k][1].decode()
    return [[mark, str(n + 1), line.decode()] for n, (mark, line) in enumerate(zip(marks, session.lines[k]))]


def check_table(page):
    session = Session(FILES)
    page.fresh()
    page.read(("replies", session.write(TESTS + SHOWS + "show r9\njson\n")))
    assert page.messages() == [], page.messages()
    table = page.table()
    assert [row[0] for row in table[:3]] == ["r2", "r1", "r3"], "what is uncovered stands first"
    for name, marks in session.routers():
        row = next(row for row in table if row[0] == name.decode())
        assert row[1:5] == [str(n) for n in counted([(name, marks)])], row
    assert [row[5] for row in table] == ["85 %", "100 %", "100 %", "92.1 %"], table
    assert table[3][:5] == ["all 3"] + [str(n) for n in counted(session.routers())], table
    widths = page.run("[...document.querySelectorAll('#routers tbody tr:nth-child(1) .bar i')].map(i => i.style.width)")
    assert [round(float(width[:-1]) * 31 / 100) for width in widths] == [17, 0, 3, 11], widths
    assert "5 tests accepted, 3 lines refused" in page.run("part('answers').textContent")


def check_sorting(page):
    assert [row[0] for row in page.table()][:3] == ["r2", "r1", "r3"], "uncovered first"
    for key, order in (("U", ["r1", "r3", "r2"]), ("U", ["r2", "r1", "r3"]), ("name", ["r1", "r2", "r3"]), ("name", ["r3", "r2", "r1"]),
                       ("part", ["r1", "r3", "r2"]), ("place", ["r1", "r2", "r3"])):
        page.click(f"#routers [data-sort='{key}']")
        assert [row[0] for row in page.table()][:3] == order, (key, page.table())


def check_files(page):
    session = Session(FILES)
    page.fresh()
    page.read(("replies", session.write(TESTS + SHOWS)))
    for k in range(3):
        page.go(f"#r{k + 1}")
        assert page.rows() == expected(session, k), page.rows()
    classes = page.run("[...new Set([...document.querySelectorAll('#lines .row')].map(row => row.className.trim()))].sort()")
    assert classes == ["row O", "row S"], classes


def check_keys(page):
    page.fresh()
    page.read(("replies", Session(FILES).write(TESTS + SHOWS)))
    page.press_all("n")
    assert (page.run("location.hash"), page.target()) == ("#r2:19", "19"), page.run("location.hash")
    page.press_all("nn")
    assert page.target() == "28" and page.said() == "Uncovered block 3 of 3 in r2."
    page.press_all("n")
    assert page.target() == "28" and page.said() == "There is no further uncovered block."
    page.press_all("p")
    assert page.target() == "22"
    page.press_all("p")
    assert page.target() == "19"
    page.press_all("p")
    assert page.target() == "19" and page.said() == "There is no uncovered block before this one."
    page.press_all("3")
    assert [row[1] for row in page.rows()] == ["19", "22", "28"]
    page.press_all("]2")
    assert [row[:2] for row in page.rows()] == [["W", "17"]], page.rows()
    page.press_all("3")
    assert page.rows() == [] and page.said() == "No line of r1 is uncovered."
    page.press_all("1[t")
    assert page.run("part('router').hidden") and not page.run("part('overview').hidden")
    page.press("?")
    assert page.run("part('help').open")
    page.press("Escape")
    assert not page.run("part('help').open")


def check_blocks(page):
    """A description in an uncovered block doesn't end it; a comment does."""
    folder = os.path.join(TOP, "examples", "first-run")
    session = Session([os.path.join(folder, "r1.cfg")])
    page.fresh()
    page.read(("replies", session.write(open(os.path.join(folder, "session"), encoding="utf-8").read() + "show r1\n")))
    page.press_all("n")
    assert (page.target(), page.said()) == ("8", "Uncovered block 1 of 2 in r1."), page.said()
    page.press_all("n")
    assert (page.target(), page.said()) == ("13", "Uncovered block 2 of 2 in r1."), page.said()


def check_buttons(page):
    page.fresh()
    page.read(("replies", Session(FILES).write(TESTS + SHOWS)))
    page.click("#routers tbody tr:nth-child(1) th a")
    page.wait("!part('router').hidden")
    page.click("[data-do=next]")
    page.click("[data-do=next]")
    assert page.target() == "22"
    page.click("[data-do=previous]")
    assert page.target() == "19"
    page.click("[data-filter=uncovered]")
    page.settle()
    assert [row[1] for row in page.rows()] == ["19", "22", "28"]
    assert page.run("document.querySelector('[data-filter=uncovered]').ariaPressed") == "true"
    page.go("#r2:20")
    assert page.target() == "20" and len(page.rows()) == 31, "a link to a line that the filter hides shows all lines"


def check_search(page):
    page.fresh()
    page.read(("replies", Session(FILES).write(TESTS + SHOWS)))
    page.go("#r2")
    page.press("/")
    page.browser.type("office")
    page.settle()
    assert page.run("part('found').textContent") == "7 lines", page.run("part('found').textContent")
    marked = page.run("[...document.querySelectorAll('#lines mark')].map(mark => mark.textContent)")
    assert marked == ["office"] + 6 * ["OFFICE"], marked
    page.press("Enter")
    page.press("Enter")
    assert (page.target(), page.run("part('found').textContent")) == ("14", "2 of 7")
    page.press("Enter", shift=True)
    assert page.target() == "5"
    page.press("Escape")
    page.press_all("n")
    assert page.target() == "19", "keys work again once the field is left"


def check_search_all(page):
    session = Session(FILES)
    page.fresh()
    page.read(("replies", session.write(TESTS + SHOWS)))
    page.press("/")
    page.browser.type("NEIGHBOR 198.51.100.6")
    page.wait("part('found-all').textContent !== 'looking …'")
    found = page.run("[...document.querySelectorAll('#hits .row')].map(row => [...row.children].map(part => part.textContent))")
    expected = [[chr(session.routers()[k][1][n]), f"r{k + 1}:{n + 1}", line.decode()]
                for k in range(3) for n, line in enumerate(session.lines[k]) if b"neighbor 198.51.100.6" in line]
    assert found == expected and len(found) == 3, found
    assert page.run("part('found-all').textContent") == "3 lines in 1 router"
    page.click("#hits .row:nth-child(2) a")
    page.wait("!part('router').hidden")
    assert page.run("location.hash") == "#" + found[1][1] and page.target() == found[1][1].split(":")[1]


def check_links(page):
    page.fresh("#r2:22")
    assert page.said() == "The link to r2 is followed once replies are read."
    page.read(("replies", Session(FILES).write(TESTS + SHOWS)))
    assert page.target() == "22" and page.run("part('name').textContent") == "r2"
    assert page.run("document.querySelector('#lines .row:nth-child(5) .n').getAttribute('href')") == "#r2:5"
    page.click("#lines .row:nth-child(5) .n")
    page.settle()
    assert (page.target(), page.run("location.hash")) == ("5", "#r2:5")
    page.press_all("c")
    page.wait("part('said').textContent.endsWith('netcov.html#r2:5')")
    page.go("#r2:99")
    assert page.said() == "r2 has 31 lines; there is no line 99."
    page.go("#r9")
    assert page.said() == "There is no router r9 here." and not page.run("part('overview').hidden")


def check_beside(page):
    """Replies without `show`: the files give the text, the session's file the commands."""
    session = Session(FILES)
    page.fresh()
    page.read(("replies", session.write(TESTS)))
    assert page.messages() == ["note: No router has its text here: end the session with show r1, show r2, show r3, or drop the "
                               "configuration files beside the replies."], page.messages()
    page.go("#r2")
    assert [row[:2] for row in page.rows()] == [row[:2] for row in expected(session, 1)] and page.rows()[0][2] == ""
    page.read(*FILES, os.path.join(FOLDER, "session"), drop=True)
    assert page.messages() == [], page.messages()
    assert page.rows() == expected(session, 1)
    page.go("")
    page.run("part('answers').open = true")
    page.settle()
    answers = page.run("[...document.querySelectorAll('#answer-rows .row')].map(row => row.textContent)")
    assert answers[1] == "2rib r3 10.1.0.0/24   →   refused absent rib r3 10.1.0.0/24", answers
    assert answers[0] == "1rib r3 10.1.0.0/16   →   test 1 facts 64   32 lines covered first" and len(answers) == 7, answers


def check_json(page):
    session = Session(FILES)
    session.write(TESTS)
    page.fresh()
    page.paste(json_of(session.routers()).decode())
    assert page.table()[3][:5] == ["all 3"] + [str(n) for n in counted(session.routers())]
    laid_out = json_of(session.routers()).decode().replace(",", ",\n  ")
    page.fresh()
    page.read(("kept.json", laid_out.encode()))
    assert page.table()[0][:5] == ["r2 no text", "17", "0", "3", "11"], page.table()


def check_newer(page):
    """A test behind the `show` of a router: its newer marks stand."""
    session = Session(FILES)
    first, *others = [line for line in TESTS.splitlines() if line and line[0] != "#"]
    page.fresh()
    page.read(("replies", session.write("\n".join([first, "show r3", *others]))))
    assert any("tests behind its show reply changed marks" in text for text in page.messages()), page.messages()
    page.go("#r3")
    assert page.rows() == expected(session, 2)


def check_paper(page):
    """All lines are printed, though few of them are in sight."""
    session = Session(FILES)
    page.fresh(height=400)
    page.read(("replies", session.write(TESTS + SHOWS)))
    page.go("#r2")
    page.run("addEventListener('beforeprint', () => { window.printed = document.querySelectorAll('#lines .row').length })")
    assert page.browser.paper().startswith(b"%PDF")
    assert page.run("window.printed") == 31


CHECKS = (check_table, check_sorting, check_files, check_keys, check_blocks, check_buttons, check_search, check_search_all, check_links, check_beside, check_json,
          check_newer, check_paper)

"""Two sessions side by side: of the same files, and of files that changed."""
import os

from replies import TOP, Session, report_of, shown
from small import FILES, SHOWS, TESTS

FIRST = "rib r3 10.1.0.0/16\n"


def change(was, now):
    covered = [mark in "SW" for mark in (was, now)]
    return "" if was == now else "~" if covered[0] == covered[1] else "+" if covered[1] else "−"


def check_same_files(page):
    """More tests over the same files: what became covered, and after a swap what no longer is."""
    old, now = Session(FILES), Session(FILES)
    page.fresh()
    page.read(("now", now.write(TESTS + SHOWS)))
    page.read(("before", old.write(FIRST + SHOWS)), side="before", drop=True)
    assert page.messages() == [], page.messages()
    pairs = list(zip(old.routers(), now.routers()))
    table = {row[0]: row for row in page.table()}
    for (name, was), (_, marks) in pairs:
        row, changes = table[name.decode()], [change(chr(a), chr(b)) for a, b in zip(was, marks)]
        assert row[8:] == [str(changes.count(sign)) for sign in "+−~"] + ["0", "0"], (row, changes)
    assert "Since the earlier session 3 lines became covered, and 0 no longer." in page.run("part('totals').textContent")
    page.go("#r3")
    expected = [[chr(b), str(k + 1), line.decode(), change(chr(a), chr(b)), chr(a)]
                for k, (a, b, line) in enumerate(zip(pairs[2][0][1], pairs[2][1][1], now.lines[2]))]
    assert page.rows() == expected, page.rows()
    page.press_all("5")
    assert [row[1] for row in page.rows()] == ["8", "10", "13"], page.rows()
    page.click("[data-do=swap]")
    page.settle()
    page.press_all("6")
    assert [row[:2] + row[3:] for row in page.rows()] == [["U", "8", "−", "S"], ["U", "10", "−", "S"], ["U", "13", "−", "S"]], page.rows()
    page.click("[data-do=drop-before]")
    page.settle()
    assert len(page.rows()) == 14 and len(page.rows()[0]) == 3, page.rows()


def check_changed_files(page):
    """Lines go together by their text, where some are new and some are gone."""
    was = [b"hostname r1", b"interface A", b" ip address 10.0.0.1 255.0.0.0", b"!", b"interface B", b" shutdown", b"!", b"router bgp 1"]
    now = [b"hostname r1", b"ip route 0.0.0.0 0.0.0.0 Null0", b"interface A", b" ip address 10.0.0.2 255.0.0.0", b"!", b"interface B", b"!", b"router bgp 1", b"!"]
    page.fresh()
    page.read(("a", shown(was, b".SS.UU.S")), ("b", shown(now, b".USS.S.U.")), drop=True)
    page.go("#r1")
    assert [[row[3], row[4], row[0], row[1]] for row in page.rows()] == [
        ["", ".", ".", "1"], ["new", "", "U", "2"], ["", "S", "S", "3"], ["gone", "S", "", "3"], ["new", "", "S", "4"], ["", ".", ".", "5"],
        ["+", "U", "S", "6"], ["gone", "U", "", "6"], ["", ".", ".", "7"], ["−", "S", "U", "8"], ["new", "", ".", "9"]], page.rows()
    assert [row[2] for row in page.rows()][3] == " ip address 10.0.0.1 255.0.0.0"
    page.press_all("4")
    assert len(page.rows()) == 7, page.rows()
    page.go("#r1:8")
    assert page.target() == "8"
    page.go("")
    assert page.table()[0][8:] == ["1", "1", "0", "3", "2"], page.table()


def check_other_routers(page):
    """Routers that stand in one of the two alone, and one whose lines can't be put side by side."""
    old = b"test 1 facts 4\n" + report_of([(b"r1", b".SU"), (b"gone", b".S")])
    now = b"test 1 facts 4\n" + report_of([(b"r1", b".SUU"), (b"fresh", b".U")])
    page.fresh()
    page.read(("old", old), ("now", now))
    table = {row[0]: row[1:] for row in page.table()}
    assert table["gone only in the earlier session"][7:] == ["0", "0", "0", "0", "2"], table
    assert table["fresh new"][7:] == ["0", "0", "0", "2", "0"] and table["r1 no text"][7:] == ["0", "0", "0", "4", "3"], table
    assert any("r1" in text and "can't be put side by side" in text for text in page.messages()), page.messages()
    page.go("#gone")
    assert [[row[3], row[4], row[1]] for row in page.rows()] == [["gone", ".", "1"], ["gone", "S", "2"]], page.rows()
    page.go("#gone:1")
    assert "there is no line 1" in page.said(), page.said()


def check_old_and_new(page):
    """The two files of an example with a change: text from the files, each side its own."""
    folder = os.path.join(TOP, "examples", "static-pair")
    tests = open(os.path.join(folder, "session"), encoding="utf-8").read()
    files = [os.path.join(folder, name) for name in ("r1.cfg", "r2.cfg")]
    changed = page.file("r1.cfg", open(files[0], "rb").read().replace(b"ip route 10.99.0.0 255.255.0.0 Null0\n", b"").replace(b"second link", b"other link"))
    page.fresh()
    page.read(("replies", Session([changed, files[1]]).write(tests)), changed, files[1])
    page.read(("replies", Session(files).write(tests)), *files, side="before")
    assert page.messages() == [], page.messages()
    page.go("#r1")
    page.press_all("4")
    assert [[row[3], row[2]] for row in page.rows()] == [
        ["gone", " description second link to r2"], ["new", " description other link to r2"], ["gone", "ip route 10.99.0.0 255.255.0.0 Null0"]], page.rows()


def check_document(page):
    """The change that docs/USING.md goes through, and the rows that it tells."""
    tests = open(os.path.join(TOP, "examples", "ways", "tables.session"), encoding="utf-8").read() + "rib r3 10.1.0.0/16\n"
    old = open(FILES[1], "rb").read()
    changed = page.file("r2.cfg", old.replace(b"set community 65002:100", b"set community 65002:200"))
    files = [FILES[0], changed, FILES[2]]
    page.fresh()
    page.read(("replies", Session(files).write(tests)), *files, drop=True)
    page.read(("replies", Session(FILES).write(tests)), *FILES, side="before", drop=True)
    assert page.messages() == [], page.messages()
    page.go("#r2")
    page.press_all("4")
    told = open(os.path.join(TOP, "docs", "USING.md"), encoding="utf-8").read()
    rows = [f"{sign or ' ':6}{was or ' '} {now or ' '} {number:>4} {text}" for now, number, text, sign, was in page.rows()]
    assert len(rows) == 4 and "\n".join(rows) in told, rows


CHECKS = (check_same_files, check_changed_files, check_other_routers, check_old_and_new, check_document)

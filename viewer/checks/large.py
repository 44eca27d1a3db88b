"""Networks as large as NetCov takes: 256 routers, and a file of 65,535 lines."""
import time

from replies import made_up, replies_of

STILL = 20.0  # seconds that the page may take to read the largest input, on a busy machine


def check_many(page):
    routers = made_up(256, 120, 1)
    page.fresh(height=800)
    page.read(("replies", replies_of(routers)))
    table = page.table()
    told = {row[0]: row[3] for row in table}
    assert len(table) == 257 and all(told[name.decode()] == str(marks.count(b"U")) for name, marks, _ in routers)
    uncovered = [int(row[3]) for row in table[:256]]
    assert uncovered == sorted(uncovered, reverse=True)
    page.click("#routers [data-sort=U]")
    assert [int(row[3]) for row in page.table()[:256]] == uncovered[::-1]
    page.click("#routers [data-sort=U]")
    first = page.table()[0][0]
    name, marks, lines = next(router for router in routers if router[0].decode() == first)
    page.press_all("n")
    assert page.target() == str(marks.index(b"U") + 1) and page.run("part('name').textContent") == first, "the first of the table as it is sorted"
    assert page.run("document.querySelectorAll('#lines .row').length") <= 120
    page.press_all("]")
    assert page.run("part('name').textContent") == page.run("state.listed[1]")


def check_largest(page):
    ((name, marks, lines),) = routers = made_up(1, 65535, 2)
    page.fresh(height=800)
    begun = time.monotonic()
    page.read(("replies", replies_of(routers)))
    page.go("#edge0")
    assert time.monotonic() - begun < STILL, time.monotonic() - begun
    for at in [0, 1, 777, 30000, 65000, 65535]:
        page.run(f"part('lines').scrollTop = {at * 20}")
        page.settle()
        rows = page.rows()
        assert 30 < len(rows) < 200, len(rows)
        for mark, number, text in rows:
            k = int(number) - 1
            assert (mark, text) == (chr(marks[k]), lines[k].decode()), (mark, number, text)
        numbers = [int(row[1]) for row in rows]
        assert numbers == list(range(numbers[0], numbers[-1] + 1)) and numbers[0] <= min(at + 1, 65535 - 25) <= numbers[-1], numbers
    begun = time.monotonic()
    page.press_all("3")
    assert page.run("view.shown.length") == marks.count(b"U")
    page.press_all("pn")
    page.press("/")
    page.browser.type("Ethernet65")
    page.settle()
    assert page.run("part('found').textContent") == f"{sum(b'Ethernet65' in line for line in lines)} lines"
    assert time.monotonic() - begun < STILL, time.monotonic() - begun
    page.go("#edge0:65535")
    assert page.target() == "65535"


def check_compared(page):
    """The largest file against one that changed in many places."""
    ((name, marks, lines),) = made_up(1, 65535, 3)
    changed = [line for k, line in enumerate(lines) if k % 97]
    changed.insert(0, lines[0])
    page.fresh(height=800)
    begun = time.monotonic()
    page.read(("was", replies_of([(name, marks, lines)])), ("now", replies_of([(name, b"." + b"S" * (len(changed) - 1), changed)])))
    assert time.monotonic() - begun < 2 * STILL, time.monotonic() - begun
    gone, new = (int(page.table()[0][k]) for k in (12, 11))
    assert gone - new == len(lines) - len(changed) and gone < 2 * (len(lines) - len(changed)), (gone, new)


CHECKS = (check_many, check_largest, check_compared)

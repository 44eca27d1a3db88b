"""For readers of screens, for keys, for narrow windows and for eyes: names, focus, widths, contrasts, colours that the system forces."""
from leads import files_of, shows_of, tests_of
from replies import Session
from small import FILES, SHOWS, TESTS

CONTROLS = ("button", "link", "searchbox", "textbox", "checkbox", "combobox", "DisclosureTriangle")
WIDTHS = (420, 768, 1280)

CONTRASTS = """(() => {
    const parse = text => { const n = text.match(/[\\d.]+/g).map(Number); return [n[0], n[1], n[2], n[3] ?? 1] };
    const over = (top, under) => [0, 1, 2].map(i => top[i] * top[3] + under[i] * (1 - top[3]));
    const ground = element => {
        const grounds = [];
        for (let one = element; one; one = one.parentElement) grounds.unshift(parse(getComputedStyle(one).backgroundColor));
        return grounds.reduce((under, top) => over(top, under), [255, 255, 255]);
    };
    const light = color => color.map(v => v / 255).map(v => v <= 0.04045 ? v / 12.92 : ((v + 0.055) / 1.055) ** 2.4)
        .reduce((sum, v, i) => sum + v * [0.2126, 0.7152, 0.0722][i], 0);
    const contrast = (a, b) => { const [x, y] = [light(a), light(b)].sort((p, q) => q - p); return (x + 0.05) / (y + 0.05) };
    const of = (color, under) => contrast(over(parse(color), under), under);
    const found = [];
    const tell = (element, what, value) => found.push([what, value, element.id || element.className || element.tagName, element.textContent.slice(0, 30)]);
    for (const element of document.querySelectorAll('body, body *')) {
        if (element.getClientRects().length === 0 || element.closest('.away, canvas')) continue;
        const style = getComputedStyle(element), under = ground(element);
        if ([...element.childNodes].some(node => node.nodeType === 3 && node.data.trim() !== '')) tell(element, 'text', of(style.color, under));
        for (const pseudo of ['::before', '::after', '::placeholder']) {
            const own = getComputedStyle(element, pseudo);
            const there = pseudo === '::placeholder' ? element.placeholder : !['none', 'normal', '\"\"'].includes(own.content);
            if (there) tell(element, 'text', of(own.color, under));
        }
        const outside = element.parentElement ? ground(element.parentElement) : under;
        for (const side of ['Top', 'Right', 'Bottom', 'Left']) {
            const [kind, width] = [style[`border${side}Style`], parseFloat(style[`border${side}Width`])];
            if (kind !== 'none' && width > 0) tell(element, 'border', of(style[`border${side}Color`], outside));
        }
    }
    const root = getComputedStyle(document.documentElement);
    const named = name => { const box = document.createElement('i'); box.style.color = root.getPropertyValue('--' + name); document.body.append(box);
        const color = parse(getComputedStyle(box).color); box.remove(); return over(color, [255, 255, 255]) };
    for (const name of ['S-bar', 'W-bar', 'U-bar', 'D-bar', 'target', 'link']) tell(document.body, 'border', contrast(named(name), named('page')));
    for (const name of ['S', 'W', 'U', 'D']) tell(document.body, 'border', contrast(named('target'), named(name)));
    return found;
})()"""

OUTSIDE = """[...document.querySelectorAll('body *')].filter(element => {
    const box = element.getBoundingClientRect();
    return box.width > 0 && !element.closest('.away, .rows, canvas') && (box.right > innerWidth + 0.5 || box.left < -0.5);
}).map(element => element.outerHTML.slice(0, 80))"""


def dead_replies():
    """Replies with all that the page shows: refusals, cuts, a suite, dead lines, a weak and an uncovered line."""
    files = files_of("backbone")
    text = "\n".join(tests_of("backbone")) + "\nreach peer 198.51.100.200\n"
    replies = Session(files).write(text + shows_of(files))
    return replies + b"cut 1 1 west:6\ncut 12 2 west:45 west:46\nsuite 2 3 4\ndead 6 north:53 north:54 north:58 north:61 north:63 peer:17\n"


def states(page, width=1280):
    """The page in each of its states, with a word for each."""
    page.fresh(height=900)
    page.browser.size(width, 900)
    yield "welcome"
    page.run("document.body.classList.add('over')")
    yield "something is dragged over it"
    page.run("document.body.classList.remove('over')")
    page.read(("replies", dead_replies()), ("odd", b"hostname nobody\n"))
    page.run("part('answers').open = true; part('search-all').value = 'BANK'; searchAll()")
    page.wait("part('hits').querySelector('.row')")
    yield "table"
    page.go("#north")
    page.press_all("n")
    page.run("part('search').value = 'map'; search()")
    page.settle()
    yield "file"
    for line in (53, 46, 65):
        page.go(f"#north:{line}")
        yield f"file at {line}"
    for word in ("help", "paste", "copying"):
        page.run(f"part('{word}').showModal()")
        yield word
        page.run(f"part('{word}').close()")
    page.fresh(height=900)
    page.browser.size(width, 900)
    page.read(("now", Session(FILES).write(TESTS + SHOWS)), ("s", (TESTS + SHOWS).encode()))
    page.read(("before", Session(FILES).write("rib r3 10.1.0.0/16\nrib r3 10.9.0.0/16\n" + SHOWS)), side="before")
    page.run("[...document.querySelectorAll('details')].forEach(one => { one.open = true })")
    page.settle()
    yield "compared table"
    page.go("#r3")
    page.press_all("4j")
    yield "compared file"


def check_contrast(page):
    """In both schemes text has a contrast of 4.5 at least with its ground, and a border one of 3 with what is around it."""
    try:
        for scheme in ("light", "dark"):
            page.browser.scheme(scheme)
            for state in states(page):
                found = page.run(CONTRASTS)
                assert len(found) > 20, found
                low = [one for one in found if one[1] < (4.5 if one[0] == "text" else 3)]
                assert low == [], (scheme, state, low[:8])
    finally:
        page.browser.scheme("light")


def check_names(page):
    """Each control has a name, and no two in sight have the same."""
    for state in states(page):
        names = [name for role, name in page.browser.tree() if role in CONTROLS]
        twice = sorted({name for name in names if names.count(name) > 1})
        assert names and "" not in names and twice == [], (state, twice, names)


def check_rows(page):
    """Marks have words, numbers of lines are heads of rows, names of routers too; the file is a grid whose marked row is told."""
    page.fresh()
    page.read(("replies", dead_replies()))
    tree = page.browser.tree()
    heads = [name for role, name in tree if role == "rowheader"]
    assert heads == ["bank", "north", "peer", "east", "shop", "south", "west", "all 7"], heads
    assert [name for role, name in tree if role == "columnheader"][3:5] == ["uncovered", "dead"]
    page.browser.size(420, 900)
    page.settle()
    assert [name for role, name in page.browser.tree() if role == "rowheader"] == heads, "also where the table is laid out in blocks"
    page.fresh()
    page.read(("replies", dead_replies()))
    page.go("#north:55")
    tree = page.browser.tree()
    assert ("grid", "lines of north") in tree
    cells = [name for role, name in tree if role == "gridcell"]
    marks = [name for name in cells[::2]]
    assert set(marks) == {"strong", "weak", "uncovered", "dead", "outside"} and marks[54] == "uncovered", marks
    assert [name for role, name in tree if role == "rowheader"] == [str(k + 1) for k in range(77)]
    assert page.run("part('lines').getAttribute('aria-activedescendant')") == "row-54"
    assert page.run("document.getElementById('row-54').ariaSelected") == "true"
    assert page.run("part('lines').ariaRowCount") == "77"
    page.read(("before", dead_replies()[:-200]), side="before")
    names = [name for role, name in page.browser.tree() if role == "gridcell"][:3]
    assert names == ["unchanged", "outside before", "outside"], names


def focused(page):
    return page.run("(one => one.id || one.dataset.do || one.dataset.filter || one.dataset.sort || one.textContent)(document.activeElement)")


def check_focus(page):
    """The focus comes back where it was, and numbers of lines are no stops on its way."""
    page.fresh()
    page.read(("replies", Session(FILES).write(TESTS + SHOWS)))
    assert focused(page) != "" and page.run("document.activeElement !== document.body"), "what was read has it, where the button is gone"
    page.click("#routers tbody tr:nth-child(2) th a")
    page.wait("!part('router').hidden")
    assert focused(page) == "lines"
    page.press_all("t")
    assert focused(page) == "r1"
    page.press("/")
    assert focused(page) == "search-all"
    page.press("Escape")
    assert focused(page) == "r1"
    page.press("?")
    page.press("Escape")
    assert focused(page) == "r1"
    page.click("[data-sort=W]")
    assert focused(page) == "W"
    page.go("#r2:19")
    page.click("[data-filter=uncovered]")
    assert focused(page) == "uncovered"
    page.press_all("1")
    page.click("#lines .row:nth-child(5) .n")
    page.settle()
    assert page.target() == "5" and focused(page) == "lines"
    stops = page.run("[...document.querySelectorAll('#lines *')].filter(one => one.tabIndex >= 0).length")
    assert stops == 0, stops
    page.press("ArrowDown")
    page.settle()
    assert page.target() == "6"
    page.press("ArrowUp")
    page.settle()
    assert page.target() == "5"
    page.read(("before", Session(FILES).write("rib r3 10.1.0.0/16\n" + SHOWS)), side="before")
    page.click("[data-do=drop-before]")
    assert focused(page) == "choose before"


def check_widths(page):
    """At each width all that there is has its place in the window: filters wrap, and no column is cut off."""
    for width in WIDTHS:
        for state in states(page, width):
            assert page.run(OUTSIDE) == [], (width, state, page.run(OUTSIDE)[:4])
            if "file" in state:
                box = page.run("[part('lines').clientHeight, part('lines').clientWidth]")
                assert box[0] >= 180 and box[1] > width - 40, (width, state, box)


def check_forced(page):
    """Where the system forces its colours, the marked line and the chosen filter are seen."""
    page.fresh()
    page.read(("replies", dead_replies()))
    page.go("#north:55")
    page.browser.scheme("light", forced="active")
    try:
        assert page.run("matchMedia('(forced-colors: active)').matches")
        outlines = page.run("['.row.target', '.row:not(.target)'].map(one => getComputedStyle(document.querySelector('#lines ' + one)).outlineStyle)")
        assert outlines == ["solid", "none"], outlines
        grounds = page.run("['true', 'false'].map(one => getComputedStyle(document.querySelector(`#filters [aria-pressed=${one}]`)).backgroundColor)")
        assert grounds[0] != grounds[1], grounds
    finally:
        page.browser.scheme("light")


CHECKS = (check_contrast, check_names, check_rows, check_focus, check_widths, check_forced)

"""Markup, odd bytes, odd names, and input that is cut or is something else."""
import base64
import json
import random

from replies import json_of, lcov_of, report_of, shown

MARKUP = [
    b"hostname r<b>1</b>",
    b"<script>window.taken = 1</script>",
    b"<img src=x onerror=\"window.taken = 2\">",
    b" description </span></div></section><h1>here</h1>&lt;&amp;&#60;",
    b"javascript:window.taken=3 \" ' ` ${window.taken=4} <!-- --> ]]> <style>*{display:none}</style>",
]


def two(lines, marks, name):
    """Replies of one router: a test and its `show`."""
    return b"test 1 facts 4\n" + report_of([(name, marks)]) + shown(lines, marks)


def check_markup(page):
    name, marks = b"r<b>1</b>", b".SWU."
    page.fresh()
    page.read(("<img src=x onerror=alert(1)>", two(MARKUP, marks, name) + b"refused absent rib <i>r</i> 10.0.0.0/8\n<u>no reply</u>\n"))
    page.go("#r%3Cb%3E1%3C%2Fb%3E")
    assert page.rows() == [[chr(mark), str(k + 1), line.decode()] for k, (mark, line) in enumerate(zip(marks, MARKUP))], page.rows()
    page.press_all("tn")
    assert page.run("location.hash") == "#r%3Cb%3E1%3C%2Fb%3E:4" and page.target() == "4"
    page.press("/")
    page.browser.type("<img src")
    page.press("Enter")
    assert page.target() == "3"
    page.run("part('search').value = ''")
    page.go("")
    page.run("part('answers').open = true")
    page.settle()
    made = ":is(#overview, #router) :is(b, u, script, img, h1, style), #overview i:not(.bar i), #notes *:not(ul, li)"
    found = page.run(f"[...document.querySelectorAll('{made}')].map(element => element.outerHTML)")
    assert found == [] and page.run("window.taken") is None, found
    assert "<u>no reply</u>" in page.messages()[0], page.messages()


def check_policy(page):
    """The browser itself holds the page to it: no text becomes HTML, and nothing is fetched."""
    page.fresh()
    assert page.run("(() => { try { document.body.innerHTML = '<p>'; return 'taken' } catch (fault) { return fault.name } })()") == "TypeError"
    told = page.run("""new Promise(done => {
        addEventListener('securitypolicyviolation', event => done(event.effectiveDirective));
        fetch('https://netcov.invalid/').catch(() => setTimeout(() => done('asked for'), 500));
    })""")
    assert told == "connect-src", told
    page.browser.events.clear()
    source = page.run("document.documentElement.textContent")
    for word in ("innerHTML", "outerHTML", "insertAdjacent", "document.write", "eval(", "localStorage", "fetch(", "http:", "https:", "import("):
        assert word not in source, word


def check_bytes(page):
    lines = [b"hostname r1", b"caf\xe9 \xc3\xa9", b"nul\x00 esc\x1b[31m", "turned \u202e abc \ufeff".encode(), b"tab\tend\r", b"\xf0\x9f\x98\x80 \xf0\x9f", b"", b"!"]
    marks = b".SWU...."
    page.fresh()
    page.read(("replies", two(lines, marks, b"r1")))
    assert page.messages() == ["note: 2 lines with bytes that aren't UTF-8; these stand as their numbers, like \\xe9."], page.messages()
    page.go("#r1")
    texts = [row[2] for row in page.rows()]
    assert texts == ["hostname r1", "caf\\xe9 é", "nul\\x00 esc\\x1b[31m", "turned \\u{202e} abc \\u{feff}", "tab\tend\\x0d",
                     "😀 \\xf0\\x9f", "", "!"], texts
    odd = page.run("[...document.querySelectorAll('#lines .odd')].map(piece => piece.textContent)")
    assert odd == ["\\xe9", "\\x00", "\\x1b", "\\u{202e}", "\\u{feff}", "\\x0d", "\\xf0", "\\x9f"], odd


def check_like_replies(page):
    """Lines of a file that look like replies, and names that look like their words."""
    lines = [b"hostname strong", b"test 1 facts 4", b"strong 1 weak 0 uncovered 0 outside 0", b"S 1 hostname other", b"refused syntax", b"{}"]
    names = [(b"strong", b".SWU.S"), (b"test", b"SS"), (b"S", b"WU")]
    replies = b"test 1 facts 4\n" + report_of(names) + shown(lines, names[0][1]) + shown([b"hostname test", b"x"], b"SS") + shown([b"hostname S", b"y"], b"WU")
    page.fresh()
    page.read(("replies", replies))
    assert page.messages() == [], page.messages()
    assert [row[:4] for row in page.table()[:3]] == [["strong", "2", "1", "1"], ["S", "0", "1", "1"], ["test", "2", "0", "0"]], page.table()
    page.go("#strong")
    assert [row[2] for row in page.rows()] == [line.decode() for line in lines]


def check_names(page):
    name = b"a:1#%2F?\"\\'&"
    page.fresh()
    page.read(("replies", two([b"hostname " + name, b"x"], b".U", name)))
    page.press_all("n")
    end = page.run("location.hash")
    page.fresh(end)
    page.read(("replies", two([b"hostname " + name, b"x"], b".U", name)))
    assert page.target() == "2" and page.run("part('name').textContent") == name.decode(), end


def check_hostname(page):
    """The name is that of the last hostname in force; in a banner and in a block there is none."""
    lines = [b"hostname first", b"banner exec ^C one line ^C", b"hostname last", b" hostname indented", b"banner motd ^C", b"hostname in-banner",
             b"^C hostname behind", b"interface hostname", b"! hostname noted"]
    page.fresh()
    page.read(("replies", shown(lines, b"." * len(lines))))
    assert [row[0] for row in page.table()] == ["last", "all 1"], page.table()


def message(page, name, data, *parts):
    """The page reads this, and has a message with these parts."""
    page.fresh()
    page.read((name, data))
    assert any(all(part in text for part in parts) for text in page.messages()), page.messages()


def check_messages(page):
    message(page, "empty", b"", "error: empty is empty")
    message(page, "picture", bytes(range(256)), "error: picture has no reply of NetCov in it")
    message(page, "r", b"refused config r1.cfg 12 unsupported\n", "error: NetCov refused r1.cfg at line 12", "doesn't read it", "No test was run")
    message(page, "r", b"refused config r1.cfg 0 no-name\n", "error: NetCov refused r1.cfg: no hostname")
    message(page, "r", b"refused unstable 256\n", "error: NetCov ran no test", "refused unstable 256")
    message(page, "r", b"refused syntax\nrefused router r2\n", "error: r has no show reply")
    message(page, "lcov", b"TN:\nSF:r1.cfg\nDA:1,0\nLF:1\nLH:0\nend_of_record\n", "error: lcov has no show reply")
    message(page, "cut.json", json_of([(b"r1", b"SU")])[:40], "cut.json: line 1 begins like a json reply but isn't a whole one")
    message(page, "session", b"rib r1 10.0.0.0/8\n", "note: The replies are missing still")
    message(page, "r1.cfg", b"hostname r1\n", "note: The replies are missing still")


def check_cut(page):
    lines, marks = [b"hostname r1", b"one", b"two", b"three"], b".SWU"
    whole = two(lines, marks, b"r1")
    message(page, "r", whole[:-4], "warning: r ends inside a line")
    message(page, "r", whole[:-10], "warning: r1: its show reply is cut: 3 of 4 lines have text.")
    page.go("#r1")
    assert [row[0] for row in page.rows()] == list(".SWU") and page.rows()[3][2] == "", page.rows()
    message(page, "r", b"test 1 facts 4\n" + report_of([(b"r1", marks), (b"r2", b"SS")])[:-6], "the report at line 1 is cut: it counts 6 lines, and marks of 4")
    message(page, "r", b"test 1 facts 4\n", "the report at line 1 is cut")
    message(page, "r", two(lines, marks, b"r1")[:len(whole) - len(shown(lines, marks))] + b"test 2 facts 9\n" + shown(lines, b".SSS"), "is cut")
    assert page.table()[0][1:4] == ["3", "0", "0"], "the show reply is newer than the last whole report"
    page.go("#r1")
    assert [row[0] for row in page.rows()] == list(".SSS"), page.rows()


def check_nameless(page):
    """Texts that are cut before their hostname: named by the session's file, by their marks, or by a number."""
    report = b"test 1 facts 4\n" + report_of([(b"r1", b".SW"), (b"r2", b".US"), (b"r3", b".US")])
    message(page, "r", report + b". 1 !\nS 2 x\n", "By its marks it is of r1")
    page.go("#r1")
    assert [row[2] for row in page.rows()] == ["!", "x", ""], page.rows()
    message(page, "r", report + b". 1 !\nU 2 x\n", "It can't be told whose it is: it is called “file 1”")
    assert "file 1" in [row[0] for row in page.table()]
    page.read(("session", b"# notes\nrib r1 10.0.0.0/8\n\nshow r3\nquit\nshow r2\n"))
    assert [row[0] for row in page.table()] == ["r2 no text", "r3", "r1 no text", "all 3"], page.table()


def check_wrong(page):
    """Files that aren't of these replies."""
    report = b"test 1 facts 4\n" + report_of([(b"r1", b".S"), (b"r3", b".U")]) + b"refused absent rib r1 10.0.0.0/8\n"
    page.fresh()
    page.read(("replies", report), ("session", b"rib r1 10.0.0.0/8\nshow r1\n"), ("a.cfg", b"hostname r1\nx\ny\n"), ("b.cfg", b"hostname r2\n"), ("c.cfg", b"hostname r3\n!\n"))
    told = "\n".join(page.messages())
    for part in ("session isn't the session of replies: its command 2, “show r1”", "a.cfg has 3 lines, and the replies have marks of 2 for r1",
                 "b.cfg: the replies know no router r2", "c.cfg: line 2 is blank or a comment, and the replies give it the mark U"):
        assert part in told, told
    page.read(("replies", report))
    assert [text for text in page.messages() if "isn't" in text or "know no" in text] == [], "files that don't go with newer replies are let go"


def check_forms(page):
    """Replies that a shell or an editor put into another form."""
    plain = two([b"hostname r1", b"x"], b".U", b"r1")
    for data in (plain.replace(b"\n", b"\r\n"), b"\xef\xbb\xbf" + plain, plain.decode().encode("utf-16")):
        page.fresh()
        page.read(("replies", data))
        assert page.table()[0][:4] == ["r1", "0", "0", "1"], page.messages()
        page.go("#r1")
        assert [row[2] for row in page.rows()] == ["hostname r1", "x"], page.rows()


def check_long(page):
    """A very long line is cut in sight, and says so."""
    page.fresh()
    page.read(("replies", two([b"hostname r1", b"x" * 100000 + b"end"], b".U", b"r1")))
    page.go("#r1")
    assert page.rows()[1][2] == "x" * 4000 + "… and 96003 more bytes"
    page.press("/")
    page.browser.type("xend")
    page.settle()
    assert page.run("part('found').textContent") == "1 line"


def mangled(data, chance):
    """The same with some bytes changed, left out or moved, or some lines left out, doubled or swapped."""
    if chance.random() < 0.5:
        lines = data.splitlines(keepends=True)
        for _ in range(chance.randint(1, 4)):
            a, b = (chance.randrange(len(lines)) for _ in range(2))
            kind = chance.randrange(3)
            if kind == 0 and len(lines) > 1:
                del lines[a]
            elif kind == 1:
                lines.insert(b % len(lines), lines[a % len(lines)])
            else:
                a, b = a % len(lines), b % len(lines)
                lines[a], lines[b] = lines[b], lines[a]
        return b"".join(lines)
    data = bytearray(data)
    for _ in range(chance.randint(1, 6)):
        at = chance.randrange(len(data))
        data[at:at + chance.choice([0, 1, 1, 30])] = bytes(chance.choice(b"SWU. 1\n\r{}\x00\xff") for _ in range(chance.choice([0, 1, 1, 5])))
    return bytes(data)


def check_mangled(page):
    """Whatever is read, the page has no fault of its own, and each router it shows has marks that are counted right."""
    names = [(b"r1", b".SWU.S"), (b"r2", b"..UU")]
    files = [[b"hostname r1", b"a", b"!", b"b", b"", b"c"], [b"banner motd ^C", b"^C", b"hostname r2", b"x"]]
    base = (b"test 1 facts 4\n" + report_of(names) + b"refused absent rib r1 10.0.0.0/8\n" + shown(files[0], names[0][1])
            + b"implies 1 1 yes\nforgot 1\n" + report_of(names) + json_of(names) + lcov_of([b"r1.cfg", b"r2.cfg"], names) + shown(files[1], names[1][1]))
    script = """(data => {
        const bytes = Uint8Array.from(atob(data), letter => letter.charCodeAt(0));
        takeBytes([{ name: 'mangled', bytes }], 'now');
        for (const name of state.order) {
            openRouter(name);
            const { marks, counts, text } = sides.now.routers.get(name);
            const sum = [...MARKS].reduce((all, mark) => all + counts[mark], 0);
            if (sum !== marks.length || (text !== null && text.count > marks.length)) return name;
        }
        return null;
    })"""
    chance = random.Random(7)
    page.fresh()
    page.read(("session", b"rib r1 10.0.0.0/8\nshow r1\n"))
    for k in range(300):
        data = mangled(base, chance)
        wrong = page.run(f"{script}({json.dumps(base64.b64encode(data).decode())})")
        assert wrong is None, (k, wrong, data)


CHECKS = (check_markup, check_policy, check_bytes, check_like_replies, check_names, check_hostname, check_messages, check_cut, check_nameless,
          check_wrong, check_forms, check_long, check_mangled)

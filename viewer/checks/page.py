"""The page as its tests use it: files go in, and what stands in it comes out."""
import functools
import json
import os
import tempfile
import time

from browser import Browser

HERE = os.path.dirname(os.path.abspath(__file__))
PAGE = "file://" + os.path.join(os.path.dirname(HERE), "netcov.html")

ROWS = """[...document.querySelectorAll('#lines .row')].sort((a, b) => parseFloat(a.style.top) - parseFloat(b.style.top)).map(row => [
    row.querySelector('.m:not(.old)').textContent, row.querySelector('.n').textContent, row.querySelector('.t').textContent,
    row.querySelector('.was')?.textContent ?? null, row.querySelector('.m.old')?.textContent ?? null])"""
TABLE = "[...document.querySelectorAll('#routers tbody tr, #routers tfoot tr')].map(row => [...row.cells].map(cell => cell.textContent))"
MESSAGES = "[...document.querySelectorAll('#notes li')].map(item => item.className + ': ' + item.textContent)"


class Page:
    def __init__(self, program):
        self.browser = Browser(program)
        self.folder = tempfile.mkdtemp(dir=self.browser.folder)
        self.run, self.press, self.click = self.browser.run, self.browser.press, self.browser.click
        self.fresh()

    def fresh(self, end="", height=1600):
        """The page as it is opened, at a link's end; so high that small files are whole in sight."""
        self.browser.size(1280, height)
        self.browser.open(PAGE + end)

    def file(self, name, data):
        """A file of this name, in a folder of its own."""
        path = os.path.join(tempfile.mkdtemp(dir=self.folder), name)
        with open(path, "wb") as file:
            file.write(data)
        return path

    def read(self, *files, side="now", drop=False):
        """Gives files to the page, each a path or a name with its bytes; and waits until they are read."""
        paths = [file if isinstance(file, str) else self.file(*file) for file in files]
        self.run("part('said').textContent = 'waiting'")
        if drop:
            place = self.run(f"(() => {{ const b = part('slot-{side}').getBoundingClientRect(); return [b.x + 9, b.y + 9] }})()")
            self.browser.drop(*(place if side == "before" else (600, 500)), paths)
        else:
            self.browser.choose(f"#choose-{side}", paths)
        self.wait("!['waiting', 'reading …'].includes(part('said').textContent)")

    def paste(self, text, side="now"):
        """Pastes a text into the page's field for it."""
        self.click(f"[data-do='paste {side}']")
        self.run("part('pasted').focus()")
        self.browser.type(text)
        self.run("part('said').textContent = 'waiting'")
        self.click("#paste button[value=read]")
        self.wait("part('said').textContent !== 'waiting'")

    def wait(self, condition, seconds=60):
        end = time.monotonic() + seconds
        while not self.run(f"Boolean({condition})"):
            if time.monotonic() > end:
                raise AssertionError("not in time: " + condition)
            time.sleep(0.02)

    def go(self, end):
        """Follows a link of the page."""
        self.run(f"location.hash = {json.dumps(end)}")
        self.settle()

    def settle(self):
        self.run("new Promise(done => requestAnimationFrame(() => requestAnimationFrame(done)))")

    def press_all(self, keys):
        for key in keys:
            self.press(key)
        self.settle()

    def rows(self):
        """The rows of the file that stand in the page: mark, number, text; in a comparison also change and earlier mark."""
        return [row[:3] if row[3] is None else row for row in self.run(ROWS)]

    def table(self):
        return self.run(TABLE)

    def messages(self):
        return self.run(MESSAGES)

    def said(self):
        return self.run("part('said').textContent")

    def target(self):
        """The number of the marked line, or None."""
        return self.run("document.querySelector('#lines .row.target .n')?.textContent ?? null")

    def faults(self):
        """Errors of the page, what the browser warns of, and what was asked for beside the page; what it logs as information is none."""
        events = self.browser.said("Runtime.exceptionThrown", "Log.entryAdded", "Network.requestWillBeSent")
        return [event["params"] for event in events if not is_harmless(event["params"])]

    def keeps_quiet(self, check):
        """The same check, which fails too where the page had a fault meanwhile."""
        @functools.wraps(check)
        def checked(page):
            self.browser.events.clear()
            check(page)
            faults = self.faults()
            assert not faults, faults
        return checked


def is_harmless(event):
    """Whether an event is the page's own coming, or one that the browser logs as information."""
    if "entry" in event:
        return event["entry"]["level"] in ("info", "verbose")
    return event.get("request", {}).get("url", "").startswith((PAGE, "about:"))

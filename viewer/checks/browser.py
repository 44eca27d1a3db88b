"""Chromium without a window, driven over a pipe by its remote protocol. Nothing is needed but the standard library."""
import base64
import fcntl
import json
import os
import shutil
import subprocess
import tempfile

PROGRAMS = ("chromium-headless-shell", "chromium", "chromium-browser", "google-chrome", "google-chrome-stable", "chrome")
WORDS = (
    "--headless", "--no-sandbox", "--disable-gpu", "--disable-dev-shm-usage", "--hide-scrollbars", "--mute-audio", "--no-first-run",
    "--disable-background-networking", "--disable-component-update", "--disable-sync", "--disable-extensions",
    "--force-color-profile=srgb", "--window-size=1280,800", "--remote-debugging-pipe",
)


def installed():
    """The browser's program: what CHROMIUM names, or the first that is installed; None where there is none."""
    names = (os.environ["CHROMIUM"],) if os.environ.get("CHROMIUM") else PROGRAMS
    return next((path for path in map(shutil.which, names) if path), None)


class Broken(Exception):
    """The browser answered with an error, or ended."""


class Browser:
    """A browser with one page."""

    def __init__(self, program):
        self.folder = tempfile.mkdtemp(prefix="netcov-viewer-")
        self.number, self.events, self.rest = 0, [], b""
        self.start(program)
        target = self.call("Target.createTarget", url="about:blank")["targetId"]
        self.session = self.call("Target.attachToTarget", targetId=target, flatten=True)["sessionId"]
        for domain in ("Page", "Runtime", "Network", "Log"):
            self.call(domain + ".enable")

    def start(self, program):
        """The browser reads commands from its descriptor 3 and writes answers to its descriptor 4."""
        self.session = None
        read_end, self.commands = os.pipe()
        self.answers, write_end = os.pipe()
        read_end, write_end = (fcntl.fcntl(end, fcntl.F_DUPFD, 20) for end in (read_end, write_end))

        def place():
            os.dup2(read_end, 3)
            os.dup2(write_end, 4)

        with open(os.path.join(self.folder, "said"), "wb") as said:
            self.child = subprocess.Popen(
                [program, *WORDS, "--user-data-dir=" + os.path.join(self.folder, "profile")],
                preexec_fn=place, pass_fds=(3, 4), stdin=subprocess.DEVNULL, stdout=said, stderr=said,
            )
        os.close(read_end)
        os.close(write_end)

    def call(self, method, **parameters):
        """Gives a command, and its answer; events that come before it are kept."""
        self.number += 1
        message = {"id": self.number, "method": method, "params": parameters}
        if self.session:
            message["sessionId"] = self.session
        self.send(json.dumps(message).encode() + b"\0")
        while True:
            answer = self.receive()
            if answer.get("id") == self.number:
                if "error" in answer:
                    raise Broken(method + ": " + answer["error"]["message"])
                return answer["result"]
            self.events.append(answer)

    def send(self, data):
        while data:
            data = data[os.write(self.commands, data):]

    def receive(self):
        while b"\0" not in self.rest:
            more = os.read(self.answers, 1 << 20)
            if not more:
                raise Broken("the browser ended")
            self.rest += more
        message, self.rest = self.rest.split(b"\0", 1)
        return json.loads(message)

    def run(self, script):
        """The value of a JavaScript expression in the page, where a promise is waited for."""
        answer = self.call("Runtime.evaluate", expression=script, returnByValue=True, awaitPromise=True, userGesture=True)
        if "exceptionDetails" in answer:
            details = answer["exceptionDetails"]
            raise Broken(script + ": " + details.get("exception", {}).get("description", details["text"]))
        return answer["result"].get("value")

    def open(self, url):
        self.call("Page.navigate", url="about:blank")
        self.call("Page.navigate", url=url)
        self.run("new Promise(done => document.readyState === 'complete' ? done() : addEventListener('load', () => done()))")

    def choose(self, selector, paths):
        """Chooses files in a field of the page."""
        field = self.call("Runtime.evaluate", expression=f"document.querySelector({json.dumps(selector)})")["result"]["objectId"]
        self.call("DOM.setFileInputFiles", files=list(paths), objectId=field)

    def drop(self, x, y, paths):
        """Drops files at a place of the page."""
        data = {"items": [], "files": list(paths), "dragOperationsMask": 1}
        for kind in ("dragEnter", "dragOver", "drop"):
            self.call("Input.dispatchDragEvent", type=kind, x=x, y=y, data=data)

    def press(self, key, shift=False):
        """Presses a key and lets it go."""
        named = {"Enter": 13, "Escape": 27, "Tab": 9, "ArrowUp": 38, "ArrowDown": 40}
        common = {"key": key, "modifiers": 8 if shift else 0, "windowsVirtualKeyCode": named.get(key, ord(key[0].upper()))}
        text = "\r" if key == "Enter" else key if len(key) == 1 else ""
        self.call("Input.dispatchKeyEvent", type="keyDown" if text else "rawKeyDown", text=text, **common)
        self.call("Input.dispatchKeyEvent", type="keyUp", **common)

    def click(self, selector):
        """Clicks with the mouse in the middle of an element, the first that is seen."""
        box = self.run(
            f"(() => {{ const e = [...document.querySelectorAll({json.dumps(selector)})].find(one => one.getClientRects().length > 0);"
            " e.scrollIntoView({block: 'nearest'});"
            " const b = e.getBoundingClientRect(); return [b.x + b.width / 2, b.y + b.height / 2] })()"
        )
        for kind in ("mousePressed", "mouseReleased"):
            self.call("Input.dispatchMouseEvent", type=kind, x=box[0], y=box[1], button="left", clickCount=1)

    def type(self, text):
        self.call("Input.insertText", text=text)

    def size(self, width, height):
        self.call("Emulation.setDeviceMetricsOverride", width=width, height=height, deviceScaleFactor=1, mobile=False)

    def scheme(self, word, forced="none"):
        """Says that the user likes a light or a dark page, or that the system forces its own colours on pages."""
        features = {"prefers-color-scheme": word, "forced-colors": forced}
        self.call("Emulation.setEmulatedMedia", features=[{"name": name, "value": value} for name, value in features.items()])

    def tree(self):
        """What readers of screens are told: the role and the name of each thing in the page."""
        nodes = [node for node in self.call("Accessibility.getFullAXTree")["nodes"] if not node["ignored"]]
        return [(node["role"]["value"], node.get("name", {}).get("value", "")) for node in nodes]

    def picture(self, path):
        data = base64.b64decode(self.call("Page.captureScreenshot", format="png")["data"])
        with open(path, "wb") as file:
            file.write(data)

    def paper(self):
        """The page as it would be printed, a PDF."""
        return base64.b64decode(self.call("Page.printToPDF", printBackground=False)["data"])

    def said(self, *methods):
        """The events of these kinds so far."""
        return [event for event in self.events if event.get("method") in methods]

    def close(self):
        """Ends the browser that this object began, and takes its folder away."""
        try:
            self.session = None
            self.call("Browser.close")
        except (Broken, OSError):
            pass
        try:
            self.child.wait(10)
        except subprocess.TimeoutExpired:
            self.child.kill()
            self.child.wait()
        for end in (self.commands, self.answers):
            os.close(end)
        shutil.rmtree(self.folder, ignore_errors=True)

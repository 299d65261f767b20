"""A browser without a window, driven by its debugging protocol over a pipe: for the tests of pages."""
import base64
import fcntl
import json
import os
import pathlib
import select
import shutil
import signal
import subprocess
import sys
import tempfile
import time
import zlib

NAMES = "chromium", "chromium-browser", "google-chrome", "chrome"
FOUND = next(filter(None, map(shutil.which, NAMES)), None)
WORDS = ["--headless", "--no-sandbox", "--disable-gpu", "--remote-debugging-pipe", "--no-first-run", "--disable-extensions",
         "--disable-background-networking", "--disable-dev-shm-usage", "--disable-component-update", "--disable-sync"]
LONGEST = 60  # seconds for one answer
SHOWN = "typeof page === 'object' && !document.querySelector('main').hidden"  # of a page of a run
BEGIN = "import os, sys; os.dup2(int(sys.argv[1]), 3); os.dup2(int(sys.argv[2]), 4); os.execv(sys.argv[3], sys.argv[3:])"


class Browser:
    """One browser, with one page. `errors` has what went wrong in the page, and `requests` what it has asked for."""

    def __init__(self):
        self.folder = tempfile.TemporaryDirectory()
        to_read, self.to = os.pipe()
        self.source, to_write = os.pipe()
        ends = [fcntl.fcntl(one, fcntl.F_DUPFD, 5) for one in (to_read, to_write)]  # neither is 3 or 4, as which the browser wants them
        words = [sys.executable, "-c", BEGIN, *map(str, ends), FOUND, *WORDS, f"--user-data-dir={self.folder.name}"]
        self.process = subprocess.Popen(words, pass_fds=ends, stdout=subprocess.DEVNULL, stderr=subprocess.DEVNULL, start_new_session=True)
        for one in (to_read, to_write, *ends):
            os.close(one)
        self.number, self.rest, self.events = 0, b"", []
        self.session = None
        target = self.ask("Target.createTarget", url="about:blank")["targetId"]
        self.session = self.ask("Target.attachToTarget", targetId=target, flatten=True)["sessionId"]
        for name in ("Page", "Runtime", "Network", "Log"):
            self.ask(name + ".enable")

    def close(self):
        os.close(self.to)
        try:
            self.process.wait(5)
        except subprocess.TimeoutExpired:
            os.killpg(self.process.pid, signal.SIGKILL)
            self.process.wait()
        os.close(self.source)
        for _ in range(20):  # its helpers may still write there
            try:
                self.folder.cleanup()
                return
            except OSError:
                time.sleep(0.1)

    def ask(self, method, **parameters):
        """The answer to a command of the protocol."""
        self.number += 1
        message = {"id": self.number, "method": method, "params": parameters}
        if self.session:
            message["sessionId"] = self.session
        os.write(self.to, json.dumps(message).encode() + b"\0")
        return self.answer(self.number)

    def answer(self, number):
        end = time.monotonic() + LONGEST
        while True:
            while b"\0" in self.rest:
                text, _, self.rest = self.rest.partition(b"\0")
                found = json.loads(text)
                if found.get("id") == number:
                    if "error" in found:
                        raise RuntimeError(found["error"]["message"])
                    return found["result"]
                self.events.append(found)
            if not select.select([self.source], [], [], max(end - time.monotonic(), 0))[0]:
                raise TimeoutError("the browser gives no answer")
            more = os.read(self.source, 1 << 20)
            if not more:
                raise EOFError("the browser has ended")
            self.rest += more

    def open(self, name, at="", shown=SHOWN):
        """Opens a file, and waits until its page is shown; how many seconds that took."""
        self.events.clear()
        begun = time.monotonic()
        self.ask("Page.navigate", url="about:blank")
        self.ask("Page.navigate", url=pathlib.Path(name).resolve().as_uri() + at)
        while not self.value(shown):
            if self.errors() or time.monotonic() - begun > LONGEST:
                raise AssertionError(self.errors() or "the page isn't shown")
            time.sleep(0.02)
        return time.monotonic() - begun

    def value(self, expression):
        """The value of an expression in the page."""
        found = self.ask("Runtime.evaluate", expression=expression, returnByValue=True, awaitPromise=True)
        if "exceptionDetails" in found:
            raise AssertionError(found["exceptionDetails"].get("exception", {}).get("description", found["exceptionDetails"]["text"]))
        return found["result"].get("value")

    def key(self, name, shift=False):
        """Presses a key."""
        text = {"text": "\r" if name == "Enter" else name} if len(name) == 1 or name == "Enter" else {}
        code = {"Enter": 13, "Tab": 9, "ArrowLeft": 37, "ArrowRight": 39, "Home": 36, "End": 35}.get(name, ord(name[0].upper()))
        for kind in ("keyDown", "keyUp"):
            self.ask("Input.dispatchKeyEvent", type=kind, key=name, modifiers=8 * shift, windowsVirtualKeyCode=code,
                     **(text if kind == "keyDown" else {}))

    def mouse(self, kind, x, y, is_held=True):
        """The left button is Pressed or Released at a place, or the mouse Moved there."""
        button = "left" if is_held or kind != "Moved" else "none"
        self.ask("Input.dispatchMouseEvent", type="mouse" + kind, x=x, y=y, button=button, buttons=int(is_held), clickCount=1)

    def keys(self, text):
        """Types a text."""
        for one in text:
            self.key(one)

    def errors(self):
        """What went wrong: exceptions, and errors and warnings that the browser tells."""
        found = [event["params"] for event in self.events if event["method"] in ("Runtime.exceptionThrown", "Log.entryAdded")]
        return [str(one.get("exceptionDetails", {}).get("exception", {}).get("description") or one.get("entry", {}).get("text")) for one in found
                if one.get("entry", {}).get("level") != "verbose"]

    def requests(self):
        """The addresses that were asked for, without the page itself, and what the browser has in itself."""
        found = [event["params"]["request"]["url"] for event in self.events if event["method"] == "Network.requestWillBeSent"]
        return [url for url in found if not url.startswith(("about:blank", "data:")) and not url.endswith(".html")]

    def size(self, width, height, dark=False, media="screen"):
        """Shows pages on a screen of this size, or on paper, with `print`."""
        self.ask("Emulation.setDeviceMetricsOverride", width=width, height=height, deviceScaleFactor=1, mobile=False)
        scheme = {"name": "prefers-color-scheme", "value": "dark" if dark else "light"}
        self.ask("Emulation.setEmulatedMedia", media=media, features=[scheme])

    def sight(self, name):
        """Shows pages as one sees them who can't tell colours: `achromatopsia` in grey, `deuteranopia` and `protanopia` not red from green."""
        self.ask("Emulation.setEmulatedVisionDeficiency", type=name)

    def pixels(self, x, y, width, height):
        """Red, green and blue of each point of a piece of what is shown, four times as large."""
        clip = {"x": x, "y": y, "width": width, "height": height, "scale": 4}
        return points(base64.b64decode(self.ask("Page.captureScreenshot", format="png", clip=clip)["data"]))

    def picture(self, name, whole=False):
        """A picture of what is shown, or of the whole page, goes to a file."""
        data = self.ask("Page.captureScreenshot", format="png", captureBeyondViewport=whole)["data"]
        pathlib.Path(name).write_bytes(base64.b64decode(data))

    def printed(self):
        """The bytes of the page as it is printed."""
        return base64.b64decode(self.ask("Page.printToPDF", preferCSSPageSize=True, printBackground=True)["data"])


def points(png):
    """Red, green and blue of each point of a picture of three or four bytes a point."""
    at, data, width, depth = 8, b"", 0, 0
    while at < len(png):
        size, kind = int.from_bytes(png[at : at + 4], "big"), png[at + 4 : at + 8]
        piece = png[at + 8 : at + 8 + size]
        if kind == b"IHDR":
            width, depth = int.from_bytes(piece[:4], "big"), {2: 3, 6: 4}[piece[9]]
        data += piece * (kind == b"IDAT")
        at += 12 + size
    raw, row, found = zlib.decompress(data), bytes(width * depth), []
    for start in range(0, len(raw), 1 + width * depth):
        row = unfiltered(raw[start], raw[start + 1 : start + 1 + width * depth], row, depth)
        found += [tuple(row[one : one + 3]) for one in range(0, len(row), depth)]
    return found


def unfiltered(kind, row, above, depth):
    """A row of a picture, by how it differs from what is left of it and above it."""
    out = bytearray(row)
    for at in range(len(out)):
        left, up, corner = (out[at - depth], above[at], above[at - depth]) if at >= depth else (0, above[at], 0)
        guess = left + up - corner
        nearest = min((left, up, corner), key=lambda one: abs(guess - one))
        out[at] = (out[at] + (0, left, up, (left + up) // 2, nearest)[kind]) % 256
    return bytes(out)

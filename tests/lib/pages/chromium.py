"""A headless Chromium that is driven by its DevTools protocol, over a pipe."""

import fcntl
import json
import os
import select
import shutil
import subprocess
import tempfile
import time

NAMES = ("chromium", "chromium-browser", "google-chrome")
WITHIN = 60


class BrowserFault(Exception):
    """The browser ended, said that something is wrong, or did not reply."""


def found():
    """The browser's path; None where there is none."""
    return next((path for path in map(shutil.which, NAMES) if path), None)


def high(descriptor):
    """The same end of a pipe under a number that is no 3 or 4, which the browser has its own ends under."""
    moved = fcntl.fcntl(descriptor, fcntl.F_DUPFD, 10)
    os.close(descriptor)
    return moved


class Page:
    """One page in a browser of its own."""

    def __init__(self, binary, width=1400, height=1250):
        self.room = tempfile.TemporaryDirectory(ignore_cleanup_errors=True)
        its_input, self.to_it = map(high, os.pipe())
        self.from_it, its_output = map(high, os.pipe())

        def ends():
            os.dup2(its_input, 3)
            os.dup2(its_output, 4)

        words = [binary, "--headless=new", "--no-sandbox", "--disable-gpu", "--hide-scrollbars", "--remote-debugging-pipe",
                 "--no-first-run", "--disable-extensions", f"--user-data-dir={self.room.name}", f"--window-size={width},{height}"]
        self.process = subprocess.Popen(words, preexec_fn=ends, pass_fds=(3, 4), stdout=subprocess.DEVNULL, stderr=subprocess.DEVNULL)
        os.close(its_input)
        os.close(its_output)
        self.number, self.read, self.faults, self.session = 0, b"", [], None
        target = self.call("Target.createTarget", url="about:blank")["targetId"]
        self.session = self.call("Target.attachToTarget", targetId=target, flatten=True)["sessionId"]
        for domain in ("Page", "Runtime", "Log"):
            self.call(f"{domain}.enable")
        self.call("Emulation.setDeviceMetricsOverride", width=width, height=height, deviceScaleFactor=1, mobile=False)

    def __enter__(self):
        return self

    def __exit__(self, *_):
        self.process.kill()
        self.process.wait()
        os.close(self.to_it)
        os.close(self.from_it)
        self.room.cleanup()

    def message(self, until):
        """The next message of the browser."""
        while b"\0" not in self.read:
            ready, _, _ = select.select([self.from_it], [], [], max(0, until - time.monotonic()))
            piece = os.read(self.from_it, 1 << 20) if ready else b""
            if not piece:
                raise BrowserFault("the browser ended" if ready else f"the browser said nothing for {WITHIN} s")
            self.read += piece
        first, _, self.read = self.read.partition(b"\0")
        return json.loads(first)

    def call(self, method, **words):
        """What the browser replies. Exceptions of the page's own are gathered in `faults`."""
        self.number += 1
        asked = {"id": self.number, "method": method, "params": words} | ({"sessionId": self.session} if self.session else {})
        os.write(self.to_it, json.dumps(asked).encode() + b"\0")
        until = time.monotonic() + WITHIN
        while True:
            message = self.message(until)
            if message.get("method") == "Runtime.exceptionThrown":
                thrown = message["params"]["exceptionDetails"]
                self.faults.append(thrown.get("exception", {}).get("description") or thrown["text"])
            if message.get("id") == self.number:
                if "error" in message:
                    raise BrowserFault(f"{method}: {message['error']['message']}")
                return message["result"]

    def ask(self, expression):
        """What an expression of the page is, as JSON has it."""
        done = self.call("Runtime.evaluate", expression=expression, returnByValue=True, awaitPromise=True)
        if "exceptionDetails" in done:
            raise BrowserFault(f"{expression}: {done['exceptionDetails'].get('exception', {}).get('description')}")
        return done["result"].get("value")

    def open(self, path):
        """Loads a file, and waits until the page says that it is ready. How long that took, in seconds."""
        begun = time.monotonic()
        self.call("Page.navigate", url="about:blank")
        self.call("Page.navigate", url=f"file://{path}")
        while not self.ask("document.body?.dataset.ready"):
            if self.faults or time.monotonic() > begun + WITHIN:
                raise BrowserFault(f"the page is not ready: {self.faults}")
            time.sleep(0.02)
        return time.monotonic() - begun

    def drawn(self):
        """Waits until what was asked to be drawn is."""
        self.ask("new Promise((done) => requestAnimationFrame(() => requestAnimationFrame(() => done(1))))")

    def press(self, key, times=1):
        """Presses a key so often."""
        for _ in range(times):
            text = {"text": key} if len(key) == 1 else {}
            self.call("Input.dispatchKeyEvent", type="keyDown", key=key, **text)
            self.call("Input.dispatchKeyEvent", type="keyUp", key=key)
        self.drawn()

    def click(self, element, x, y):
        """Clicks at a point of an element."""
        self.ask(f"document.getElementById('{element}').scrollIntoView({{block: 'center'}})")
        box = self.ask(f"(({{x, y}}) => [x, y])(document.getElementById('{element}').getBoundingClientRect())")
        for kind in ("mousePressed", "mouseReleased"):
            self.call("Input.dispatchMouseEvent", type=kind, x=box[0] + x, y=box[1] + y, button="left", clickCount=1)
        self.drawn()

    def text(self, element):
        """The text of an element."""
        return self.ask(f"document.getElementById('{element}').innerText")

"""A browser without a window, driven over two pipes by Chromium's own protocol: messages are JSON with a zero byte after each.

As a program it prints the browser's path, and ends with 1 where there is none.
"""

import base64
import json
import os
import select
import shutil
import subprocess
import sys
import tempfile
import time

NAMES = ("chromium", "chromium-browser", "google-chrome", "chrome")
LONGEST = 30.0  # s that an answer may take
# Keys by the numbers that a browser knows them by.
CODES = {"Tab": 9, "Enter": 13, "PageUp": 33, "PageDown": 34, "End": 35, "Home": 36}
CODES |= {"ArrowLeft": 37, "ArrowUp": 38, "ArrowRight": 39, "ArrowDown": 40}
FRAME = "new Promise(r => requestAnimationFrame(() => requestAnimationFrame(() => r(1))))"


def found():
    """The browser's program, or none."""
    return next(filter(None, map(shutil.which, NAMES)), None)


class Trouble(Exception):
    """The browser did not start, did not answer, or a script failed."""


class Browser:
    """One page. errors: what the page or its script said on the console that is no plain message."""

    def __init__(self):
        self.folder = tempfile.TemporaryDirectory(ignore_cleanup_errors=True)
        to_child, self.out = os.pipe()
        self.read, from_child = os.pipe()
        # Chromium reads on 3 and writes on 4; higher numbers first, so that none is overwritten.
        high = [os.dup2(fd, 100 + n) for n, fd in enumerate((to_child, from_child))]
        words = [found(), "--headless", "--no-sandbox", "--disable-gpu", "--disable-dev-shm-usage", "--remote-debugging-pipe"]
        words += ["--no-first-run", "--disable-extensions", "--hide-scrollbars", f"--user-data-dir={self.folder.name}", "about:blank"]
        script = f"exec 3<&{high[0]} 4>&{high[1]}; exec \"$@\""
        self.process = subprocess.Popen(
            ["bash", "-c", script, "browser", *words], pass_fds=high, stdout=subprocess.DEVNULL, stderr=subprocess.DEVNULL
        )
        for fd in (to_child, from_child, *high):
            os.close(fd)
        self.buffer, self.sent, self.events, self.errors, self.session = b"", 0, [], [], None
        try:
            self.attach()
        except (Trouble, OSError, StopIteration):
            self.close()
            raise Trouble(f"{words[0]} does not start") from None

    def attach(self):
        """To the one page that the browser has open."""
        target = next(t for t in self.ask("Target.getTargets")["targetInfos"] if t["type"] == "page")
        self.session = self.ask("Target.attachToTarget", targetId=target["targetId"], flatten=True)["sessionId"]
        for name in ("Page", "Runtime", "Log"):
            self.ask(f"{name}.enable")

    def __enter__(self):
        return self

    def __exit__(self, *_):
        self.close()

    def close(self):
        """By its own word, which ends all of its processes; else by force."""
        try:
            self.session = None
            self.ask("Browser.close")
            self.process.wait(10)
        except (Trouble, OSError, subprocess.TimeoutExpired):
            self.process.kill()
            self.process.wait()
        os.close(self.out)
        os.close(self.read)
        self.folder.cleanup()

    def message(self, until):
        """The next message."""
        while b"\0" not in self.buffer:
            ready, _, _ = select.select([self.read], [], [], max(until - time.monotonic(), 0))
            more = os.read(self.read, 1 << 20) if ready else b""
            if not more:
                raise Trouble("the browser does not answer")
            self.buffer += more
        text, self.buffer = self.buffer.split(b"\0", 1)
        return json.loads(text)

    def note(self, event):
        self.events.append(event["method"])
        given = event.get("params", {})
        if event["method"] == "Runtime.exceptionThrown":
            details = given["exceptionDetails"]
            self.errors.append(details.get("exception", {}).get("description") or details["text"])
        elif event["method"] == "Runtime.consoleAPICalled" and given["type"] in ("error", "warning", "assert"):
            self.errors.append(" ".join(str(word.get("value", word.get("description"))) for word in given["args"]))
        elif event["method"] == "Log.entryAdded" and given["entry"]["level"] in ("error", "warning"):
            self.errors.append(given["entry"]["text"])

    def ask(self, method, **given):
        self.sent += 1
        words = {"id": self.sent, "method": method, "params": given} | ({"sessionId": self.session} if self.session else {})
        os.write(self.out, json.dumps(words).encode() + b"\0")
        until = time.monotonic() + LONGEST
        while True:
            answer = self.message(until)
            if answer.get("id") == self.sent:
                if "error" in answer:
                    raise Trouble(f"{method}: {answer['error']['message']}")
                return answer["result"]
            if "method" in answer:
                self.note(answer)

    def open(self, file):
        """Opens a file; the seconds until it was loaded and drawn."""
        self.events.clear()
        start, until = time.monotonic(), time.monotonic() + LONGEST
        self.ask("Page.navigate", url=file.resolve().as_uri())
        while "Page.loadEventFired" not in self.events:
            answer = self.message(until)
            if "method" in answer:
                self.note(answer)
        self.value(FRAME)
        return time.monotonic() - start

    def value(self, expression):
        """What an expression of the page's script gives."""
        result = self.ask("Runtime.evaluate", expression=expression, returnByValue=True, awaitPromise=True)
        if "exceptionDetails" in result:
            raise Trouble(f"{expression[:80]}: {result['exceptionDetails'].get('exception', {}).get('description')}")
        return result["result"].get("value")

    def key(self, name, shift=False):
        """A key as a person presses it: a letter, a space, or a name such as ArrowRight."""
        code = CODES.get(name, ord(name.upper()) if len(name) == 1 else 0)
        given = {"key": name, "code": "Space" if name == " " else name, "windowsVirtualKeyCode": code, "modifiers": 8 * shift}
        text = {"text": name} if len(name) == 1 else {"text": "\r"} if name == "Enter" else {}
        self.ask("Input.dispatchKeyEvent", type="keyDown", **given, **text)
        self.ask("Input.dispatchKeyEvent", type="keyUp", **given)
        self.value(FRAME)

    def click(self, x, y):
        for kind in ("mousePressed", "mouseReleased"):
            self.ask("Input.dispatchMouseEvent", type=kind, x=x, y=y, button="left", clickCount=1)
        self.value(FRAME)

    def size(self, width, height, scale=1):
        self.ask("Emulation.setDeviceMetricsOverride", width=width, height=height, deviceScaleFactor=scale, mobile=width < 600)

    def prefer(self, scheme):
        """light or dark."""
        self.ask("Emulation.setEmulatedMedia", features=[{"name": "prefers-color-scheme", "value": scheme}])

    def picture(self, file):
        file.write_bytes(base64.b64decode(self.ask("Page.captureScreenshot", format="png")["data"]))


if __name__ == "__main__":
    print(found() or sys.exit(1))

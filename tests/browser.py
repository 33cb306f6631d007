"""A headless Chromium, driven by its own protocol over two pipes."""

import glob
import json
import os
import select
import shutil
import signal
import subprocess
import sys
import tempfile

from tests.checks import COMES_UP, LONG, Failed, Skipped, has_come, is_installed

NAMES = ("chromium", "chromium-browser", "google-chrome")
# Gives the browser its two pipes as descriptors 3 and 4, and becomes it.
START = """
import fcntl, os, sys
into, out = (fcntl.fcntl(int(it), fcntl.F_DUPFD, 20) for it in sys.argv[1:3])
os.dup2(into, 3)
os.dup2(out, 4)
os.execvp(sys.argv[3], sys.argv[3:])
"""


class Browser:
    """A browser with one page. `said` has the output of its console, and `wrong` what went wrong. If it is not
    installed, or does not start, the test is skipped."""

    def __init__(self, width=1400, height=900):
        name = next(filter(is_installed, NAMES), None)
        if name is None:
            raise Skipped("chromium is not installed")
        self.folder = tempfile.mkdtemp(prefix="waywire-browser-")
        into, self.out = os.pipe()
        self.into, out = os.pipe()
        words = [name, "--headless", "--no-sandbox", "--disable-gpu", "--remote-debugging-pipe", "--no-first-run",
                 "--disable-extensions", "--disable-dev-shm-usage", f"--user-data-dir={self.folder}",
                 f"--window-size={width},{height}", "--enable-precise-memory-info", "about:blank"]
        self.process = subprocess.Popen(
            [sys.executable, "-c", START, str(into), str(out), *words], pass_fds=(into, out),
            env={**os.environ, "TMPDIR": self.folder}, stdin=subprocess.DEVNULL, stdout=subprocess.DEVNULL,
            stderr=subprocess.DEVNULL, start_new_session=True)
        os.close(into)
        os.close(out)
        self.number, self.rest, self.said, self.wrong, self.fetched = 0, b"", [], [], []
        self.session = None
        try:
            self.come_up(width, height)
        except (Failed, OSError) as why:
            self.close()
            raise Skipped(f"{name} has not come up: {why}") from None
        except BaseException:
            self.close()
            raise

    def come_up(self, width, height):
        """Waits until there is a page, and asks for its events."""
        pages = []

        def has_page():
            targets = self.ask("Target.getTargets", COMES_UP)["targetInfos"]
            pages.extend(it["targetId"] for it in targets if it["type"] == "page")
            return pages

        if not has_come(has_page):
            raise Failed(f"no page within {COMES_UP} s")
        found = self.ask("Target.attachToTarget", COMES_UP, targetId=pages[0], flatten=True)
        self.session = found["sessionId"]
        for part in ("Page", "Runtime", "Log", "Network"):
            self.ask(f"{part}.enable", COMES_UP)
        self.ask("Emulation.setDeviceMetricsOverride", COMES_UP, width=width, height=height,
                 deviceScaleFactor=1, mobile=False)

    def __enter__(self):
        return self

    def __exit__(self, *_):
        self.close()

    def close(self):
        """Ends the browser and the processes that it started."""
        for stream in (self.into, self.out):
            os.close(stream)
        try:
            os.killpg(self.process.pid, signal.SIGKILL)
        except ProcessLookupError:
            pass
        self.process.wait()
        shutil.rmtree(self.folder, ignore_errors=True)

    def answers(self, seconds):
        """The messages from the browser, until none comes for this long."""
        while True:
            while b"\0" in self.rest:
                one, _, self.rest = self.rest.partition(b"\0")
                yield json.loads(one)
            if not select.select([self.into], [], [], seconds)[0]:
                return
            new = os.read(self.into, 1 << 20)
            if not new:
                raise Failed("the browser has ended")
            self.rest += new

    def heard(self, found):
        """Keeps the events of the page."""
        parts = found.get("params", {})
        if found.get("method") == "Runtime.exceptionThrown":
            detail = parts["exceptionDetails"]
            self.wrong.append(detail.get("exception", {}).get("description") or detail["text"])
        elif found.get("method") == "Runtime.consoleAPICalled":
            self.said.append(" ".join(str(it.get("value", it.get("description"))) for it in parts["args"]))
        elif found.get("method") == "Log.entryAdded" and parts["entry"]["level"] == "error":
            self.wrong.append(parts["entry"]["text"])
        elif found.get("method") == "Network.requestWillBeSent":
            self.fetched.append(parts["request"]["url"])

    def ask(self, method, wait=LONG, **parts):
        """Calls a method of the browser, and returns its result."""
        self.number += 1
        words = {"id": self.number, "method": method, "params": parts}
        if self.session:
            words["sessionId"] = self.session
        data = json.dumps(words).encode() + b"\0"
        while data:
            data = data[os.write(self.out, data) :]
        for found in self.answers(wait):
            if found.get("id") == self.number:
                if "error" in found:
                    raise Failed(f"{method}: {found['error']['message']}")
                return found["result"]
            self.heard(found)
        raise Failed(f"{method}: no answer within {wait} seconds")

    def run(self, code):
        """The value of an expression in the page, which may be a promise."""
        found = self.ask("Runtime.evaluate", expression=code, awaitPromise=True, returnByValue=True)
        if "exceptionDetails" in found:
            detail = found["exceptionDetails"]
            raise Failed(f"{code}: {detail.get('exception', {}).get('description', detail['text'])}")
        return found["result"].get("value")

    def wait_for(self, code):
        """Waits until an expression is true."""
        if not has_come(lambda: self.run(code)):
            raise Failed(f"{code} has not come within {COMES_UP} seconds: {self.wrong}")

    def busy(self):
        """The processor seconds of the main threads of pages."""
        taken = 0
        for found in glob.glob("/proc/[0-9]*/cmdline"):
            try:
                with open(found, "rb") as file:
                    line = file.read()
                if b"--type=renderer" in line and self.folder.encode() in line:
                    number = found.split("/")[2]
                    with open(f"/proc/{number}/task/{number}/schedstat", encoding="ascii") as file:
                        taken += int(file.read().split()[0])
            except OSError:
                continue
        return taken / 1e9

    def open(self, path, ending=""):
        """Opens a page of the file system, and waits until it is shown."""
        self.wrong.clear()
        self.fetched.clear()
        self.ask("Page.navigate", url="about:blank")
        self.ask("Page.navigate", url=f"file://{os.path.abspath(path)}{ending}")
        self.wait_for("typeof window.app === 'object' && !document.getElementById('status')")

    def size(self, width, height):
        """Sets the size of the next page; a width below 500 is that of a telephone."""
        self.ask("Emulation.setDeviceMetricsOverride", width=width, height=height, deviceScaleFactor=1,
                 mobile=width < 500)

    def press(self, *keys):
        """Presses keys, one after the other."""
        for key in keys:
            text = {"text": key} if len(key) == 1 else {"text": "\r"} if key == "Enter" else {}
            self.ask("Input.dispatchKeyEvent", type="keyDown", key=key, **text)
            self.ask("Input.dispatchKeyEvent", type="keyUp", key=key)

    def pointer(self, kind, x, y, **parts):
        self.ask("Input.dispatchMouseEvent", type=kind, x=x, y=y, **parts)

    def click(self, x, y):
        self.pointer("mousePressed", x, y, button="left", clickCount=1)
        self.pointer("mouseReleased", x, y, button="left", clickCount=1)

    def drag(self, x, y, to_x, to_y):
        self.pointer("mousePressed", x, y, button="left", buttons=1, clickCount=1)
        for part in (0.5, 1):
            self.pointer("mouseMoved", x + (to_x - x) * part, y + (to_y - y) * part, button="left", buttons=1)
        self.pointer("mouseReleased", to_x, to_y, button="left", clickCount=1)

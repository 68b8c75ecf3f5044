"""A real Chromium without a window, driven through its debugging pipe."""

import base64
import fcntl
import json
import os
import select
import shutil
import subprocess
import tempfile
import time
from pathlib import Path

from tests.support.command import end_group
from tests.support.debian import install

PACKAGE = "chromium"
OPTIONS = ["--headless=new", "--no-sandbox", "--disable-gpu", "--no-first-run",
           "--disable-background-networking", "--disable-component-update", "--disable-extensions",
           "--hide-scrollbars", "--remote-debugging-pipe"]
# Where Chromium expects the pipe's ends.
COMMANDS, REPLIES = 3, 4
MOST_SECONDS = 20
POLL_SECONDS = 0.01
PART_BYTES = 1 << 16


class BrowserError(Exception):
    """Chromium is missing, did not answer, or reported an error."""


def above_the_pipe(descriptor):
    """The same file under a number that neither end of the pipe will have."""
    held = fcntl.fcntl(descriptor, fcntl.F_DUPFD_CLOEXEC, REPLIES + 1)
    os.close(descriptor)
    return held


class Chromium:
    """One browser with one tab; a page is opened with `open`. `events` has all it reported."""

    def __init__(self):
        if not shutil.which(PACKAGE):
            install([PACKAGE])
        if not shutil.which(PACKAGE):
            raise BrowserError(f"{PACKAGE} is missing: apt-get install {PACKAGE}")
        self.folder = Path(tempfile.mkdtemp(prefix="chromium"))
        self.events, self.rest, self.last, self.tab = [], b"", 0, None
        self.start()
        self.saved = self.folder / "saved"
        self.saved.mkdir()
        target = self.ask("Target.createTarget", url="about:blank")["targetId"]
        self.tab = self.ask("Target.attachToTarget", targetId=target, flatten=True)["sessionId"]
        self.ask("Browser.setDownloadBehavior", behavior="allow", downloadPath=str(self.saved),
                 eventsEnabled=True)
        for domain in ("Page", "Runtime", "Log", "DOM", "Network", "Accessibility", "Performance"):
            self.ask(f"{domain}.enable")

    def start(self):
        """Start the process with both ends of the pipe."""
        read_commands, self.commands = map(above_the_pipe, os.pipe())
        self.replies, write_replies = map(above_the_pipe, os.pipe())

        def place_pipe():
            os.dup2(read_commands, COMMANDS)
            os.dup2(write_replies, REPLIES)

        self.process = subprocess.Popen(
            [PACKAGE, *OPTIONS, f"--user-data-dir={self.folder / 'profile'}", "about:blank"],
            stdin=subprocess.DEVNULL, stdout=subprocess.DEVNULL, stderr=subprocess.DEVNULL,
            start_new_session=True, pass_fds=(COMMANDS, REPLIES), preexec_fn=place_pipe)
        for each in (read_commands, write_replies):
            os.close(each)

    def ask(self, method, **parameters):
        """The reply to a command of the debugging protocol."""
        self.last += 1
        message = {"id": self.last, "method": method, "params": parameters}
        if self.tab and not method.startswith(("Browser.", "Target.")):
            message["sessionId"] = self.tab
        self.write(json.dumps(message).encode() + b"\0")
        return self.reply_to(self.last, method)

    def write(self, held):
        """All of it: a pipe may take less at a time."""
        while held:
            held = held[os.write(self.commands, held):]

    def reply_to(self, number, method):
        """Read messages up to the reply of this number; others are events."""
        until = time.monotonic() + MOST_SECONDS
        while True:
            while b"\0" in self.rest:
                first, _, self.rest = self.rest.partition(b"\0")
                message = json.loads(first)
                if message.get("id") == number:
                    if "error" in message:
                        raise BrowserError(f"{method}: {message['error']['message']}")
                    return message["result"]
                self.events.append(message)
            ready, _, _ = select.select([self.replies], [], [], max(0, until - time.monotonic()))
            part = os.read(self.replies, PART_BYTES) if ready else b""
            if not part:
                raise BrowserError(f"{method}: no answer")
            self.rest += part

    def open(self, url):
        """Open a page, and wait until it is loaded."""
        self.events.clear()
        self.ask("Page.navigate", url=url)
        self.until('document.readyState === "complete"')

    def value(self, expression):
        """What an expression of JavaScript gives in the page; a promise is awaited."""
        reply = self.ask("Runtime.evaluate", expression=expression, awaitPromise=True,
                         returnByValue=True, userGesture=True)
        if "exceptionDetails" in reply:
            raise BrowserError(str(reply["exceptionDetails"].get("exception", reply)))
        return reply["result"].get("value")

    def until(self, expression):
        """Wait for an expression to hold."""
        until = time.monotonic() + MOST_SECONDS
        while not self.value(expression):
            if time.monotonic() > until:
                raise BrowserError(f"never: {expression}")
            time.sleep(POLL_SECONDS)

    def named(self, *methods):
        """The events of these methods, as their parameters."""
        return [each["params"] for each in self.events if each.get("method") in methods]

    def choose(self, selector, *paths):
        """Choose files in an input of the page."""
        root = self.ask("DOM.getDocument")["root"]["nodeId"]
        node = self.ask("DOM.querySelector", nodeId=root, selector=selector)["nodeId"]
        self.ask("DOM.setFileInputFiles", nodeId=node, files=list(map(str, paths)))

    def drop(self, *paths):
        """Drop files on the page, as a person does with the mouse."""
        data = {"items": [], "files": list(map(str, paths)), "dragOperationsMask": 1}
        for kind in ("dragEnter", "dragOver", "drop"):
            self.ask("Input.dispatchDragEvent", type=kind, x=100, y=100, data=data)

    def press(self, key, shift=False):
        """Press and release a key by its name."""
        codes = {"Tab": 9, "Enter": 13, " ": 32, "ArrowDown": 40}
        text = {"Enter": "\r", " ": " "}.get(key, "")
        for kind in ("keyDown" if text else "rawKeyDown", "keyUp"):
            self.ask("Input.dispatchKeyEvent", type=kind, key=key, code=key,
                     windowsVirtualKeyCode=codes[key], modifiers=8 if shift else 0,
                     text=text if kind == "keyDown" else "")

    def file_saved(self, act):
        """The name and bytes of the file that the page saves when `act` is done."""
        before = len(self.named("Browser.downloadProgress"))
        act()
        until = time.monotonic() + MOST_SECONDS
        while not any(each["state"] == "completed"
                      for each in self.named("Browser.downloadProgress")[before:]):
            if time.monotonic() > until:
                raise BrowserError("nothing was saved")
            self.value("0")
            time.sleep(POLL_SECONDS)
        name = self.named("Browser.downloadWillBegin")[-1]["suggestedFilename"]
        held = (self.saved / name).read_bytes()
        (self.saved / name).unlink()
        return name, held

    def resize(self, width, height=800):
        """Give the page a window of this size, in CSS pixels."""
        self.ask("Emulation.setDeviceMetricsOverride", width=width, height=height,
                 deviceScaleFactor=1, mobile=False)

    def processor_milliseconds(self):
        """What the page's thread has used of the processors so far, whatever else ran on them."""
        held = self.ask("Performance.getMetrics")["metrics"]
        return 1_000 * next(each["value"] for each in held if each["name"] == "ThreadTime")

    def picture(self):
        """The whole page as PNG."""
        return base64.b64decode(self.ask("Page.captureScreenshot", format="png",
                                         captureBeyondViewport=True)["data"])

    def pdf(self):
        """The page as it is printed."""
        return base64.b64decode(self.ask("Page.printToPDF", preferCSSPageSize=True)["data"])

    def close(self):
        """End the browser and remove what it wrote."""
        try:
            self.ask("Browser.close")
            self.process.wait(MOST_SECONDS)
        except (BrowserError, OSError, subprocess.TimeoutExpired):
            pass
        end_group(self.process)
        for each in (self.commands, self.replies):
            os.close(each)
        shutil.rmtree(self.folder, ignore_errors=True)

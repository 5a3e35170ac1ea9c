"""Drives a headless Chromium by the DevTools protocol, over a pipe."""

import base64
import contextlib
import json
import os
import select
import shutil
import subprocess
import tempfile
import time

from checks.lib.tally import Late
from precopy_dev.files import read_text, write_file

SECONDS = 60
WIDER_THAN_PHONES = 560
WORDS = [
    "--headless=new",
    "--remote-debugging-pipe",
    "--no-first-run",
    "--no-default-browser-check",
    "--disable-gpu",
    "--disable-background-networking",
    "--disable-component-update",
    "--disable-sync",
    "--hide-scrollbars",
    # Else more than 200 changes of the address in 10 seconds are passed over.
    "--disable-ipc-flooding-protection",
    "--force-color-profile=srgb",
    "about:blank",
]


class BrowserError(Exception):
    """The browser did not do what it was asked."""


class NoAnswer(BrowserError, Late):
    """The browser said nothing for too long."""


class NotThere(BrowserError, Late):
    """What was waited for did not come."""


class Driven:
    """A browser of its own profile, with one tab, that answers calls by their numbers. Its low priority leaves
    processors to others. How it is started, and how a message goes to it and comes from it, is its own."""

    def __init__(self):
        self.profile = tempfile.mkdtemp()
        self.count, self.events = 0, []

    def __enter__(self):
        return self

    def __exit__(self, *_):
        self.close()

    def wait_for_end(self):
        try:
            self.process.wait(20)
        except subprocess.TimeoutExpired:
            self.process.kill()
            self.process.wait()
        shutil.rmtree(self.profile, ignore_errors=True)

    def call(self, method, seconds=SECONDS, **parameters):
        """Calls a method of the protocol. Events that come meanwhile are kept."""
        self.count += 1
        self.send({"id": self.count, "method": method, "params": parameters})
        until = time.monotonic() + seconds
        while True:
            found = json.loads(self.receive(until))
            if found.get("id") == self.count:
                if "error" in found:
                    told = found["error"] if isinstance(found["error"], dict) else found
                    raise BrowserError(f"{method}: {told['message'][:500]}")
                return found["result"]
            if "method" in found:
                self.events.append(found)

    def wait(self, expression, seconds=SECONDS):
        """Waits until an expression is true, and returns its value."""
        until = time.monotonic() + seconds
        while time.monotonic() < until:
            if found := self.value(expression, seconds):
                return found
            time.sleep(0.02)
        raise NotThere(f"after {seconds} s there is no {expression}")

    def take_lines(self):
        """The lines that the console has got since the last call."""
        self.value("0")
        lines = [self.line_of(event) for event in self.events]
        self.events = [event for event, line in zip(self.events, lines) if line is None]
        return [line for line in lines if line is not None]

    def keep_picture(self, path, found):
        write_file(base64.b64decode(found["data"]), path)


class Browser(Driven):
    """Chromium."""

    def __init__(self, command):
        super().__init__()
        (their_in, self.to), (self.back, their_out) = os.pipe(), os.pipe()
        words = ["nice", "-n", "19", "sh", "-c", f'exec "$@" 3<&{their_in} 4>&{their_out}', "sh", command]
        words += [f"--user-data-dir={self.profile}", *(["--no-sandbox"] if os.geteuid() == 0 else []), *WORDS]
        quiet = {"stdin": subprocess.DEVNULL, "stdout": subprocess.DEVNULL, "stderr": subprocess.DEVNULL}
        self.process = subprocess.Popen(words, pass_fds=(their_in, their_out), **quiet)
        os.close(their_in)
        os.close(their_out)
        self.rest, self.session = b"", None
        targets = self.call("Target.getTargets")["targetInfos"]
        tab = next(target["targetId"] for target in targets if target["type"] == "page")
        self.session = self.call("Target.attachToTarget", targetId=tab, flatten=True)["sessionId"]
        for name in ("Page", "Runtime", "Network", "Log", "DOM"):
            self.call(f"{name}.enable")

    def close(self):
        os.close(self.to)
        self.wait_for_end()
        os.close(self.back)

    def send(self, message):
        if self.session:
            message["sessionId"] = self.session
        os.write(self.to, json.dumps(message).encode() + b"\0")

    def receive(self, until):
        """The next message of the browser."""
        while b"\0" not in self.rest:
            ready, _, _ = select.select([self.back], [], [], max(0, until - time.monotonic()))
            piece = os.read(self.back, 1 << 20) if ready else b""
            if not piece:
                raise BrowserError("the browser ended") if ready else NoAnswer("the browser does not answer")
            self.rest += piece
        message, _, self.rest = self.rest.partition(b"\0")
        return message

    def value(self, expression, seconds=SECONDS):
        """The value of an expression of JavaScript, waited for if it is a promise."""
        found = self.call("Runtime.evaluate", seconds, expression=expression, returnByValue=True, awaitPromise=True)
        if "exceptionDetails" in found:
            details = found["exceptionDetails"]
            raise BrowserError(details.get("exception", {}).get("description", details["text"]))
        return found["result"].get("value")

    @staticmethod
    def line_of(event):
        """The line of the console that an event tells of, or None."""
        told = event["params"]
        if event["method"] == "Log.entryAdded":
            return told["entry"]["text"]
        if event["method"] == "Runtime.exceptionThrown":
            details = told["exceptionDetails"]
            return details.get("exception", {}).get("description", details["text"])
        if event["method"] == "Runtime.consoleAPICalled":
            return " ".join(str(part.get("value", part.get("description"))) for part in told["args"])
        return None

    def begin_with(self, script):
        """Runs a script in each page before its own."""
        self.call("Page.addScriptToEvaluateOnNewDocument", source=script)

    def open_page(self, url):
        self.call("Page.navigate", url="about:blank")
        self.call("Page.navigate", url=url)

    def forget_pages(self):
        """Leaves no page to go back to. The list is bounded, and Chromium drops from it what no user came to."""
        self.call("Page.resetNavigationHistory")

    def choose(self, selector, paths):
        """Chooses files as a user does."""
        root = self.call("DOM.getDocument")["root"]["nodeId"]
        node = self.call("DOM.querySelector", nodeId=root, selector=selector)["nodeId"]
        self.call("DOM.setFileInputFiles", nodeId=node, files=list(paths))

    def press(self, key, code):
        for kind in ("rawKeyDown", "keyUp"):
            self.call("Input.dispatchKeyEvent", type=kind, key=key, code=key, windowsVirtualKeyCode=code)

    def dress(self, width, height, is_dark=False, is_still=False, ratio=1):
        """Sets the size of the page, with so many pixels of the screen for each of its own, and what the user prefers.
        A narrow page is on a phone: it is touched."""
        # Touch comes first: a page that is laid out for a size asks whether it is touched.
        self.call("Emulation.setTouchEmulationEnabled", enabled=width < WIDER_THAN_PHONES, maxTouchPoints=1)
        sizes = {"width": width, "height": height, "deviceScaleFactor": ratio, "mobile": False}
        self.call("Emulation.setDeviceMetricsOverride", **sizes)
        features = [
            {"name": "prefers-color-scheme", "value": "dark" if is_dark else "light"},
            {"name": "prefers-reduced-motion", "value": "reduce" if is_still else "no-preference"},
        ]
        self.call("Emulation.setEmulatedMedia", features=features)

    def longest_task(self, act):
        """Does something, and returns how long the longest task of a page's own thread worked meanwhile, in
        milliseconds. The clock is the processor's, which stops while others have it. Garbage of before goes first."""
        self.call("HeapProfiler.collectGarbage")
        config = {"includedCategories": ["toplevel"], "excludedCategories": ["*"]}
        self.call("Tracing.start", traceConfig=config, transferMode="ReportEvents")
        try:
            act()
        finally:
            # Or else no further case could begin it.
            self.call("Tracing.end")
            while not any(event["method"] == "Tracing.tracingComplete" for event in self.events):
                self.value("0")
        told = [
            some
            for event in self.events
            if event["method"] == "Tracing.dataCollected"
            for some in event["params"]["value"]
        ]
        self.events = [event for event in self.events if not event["method"].startswith("Tracing.")]
        threads = {
            (some["pid"], some["tid"])
            for some in told
            if some["name"] == "thread_name" and some["args"]["name"] == "CrRendererMain"
        }
        tasks = [some["tdur"] for some in told if "tdur" in some and (some["pid"], some["tid"]) in threads]
        if not tasks:
            raise BrowserError("the browser tells no task of a page")
        return max(tasks) / 1_000

    def memory(self):
        """How much memory the browser's processes have, in bytes. What they share counts once."""
        size, numbers = 0, [self.process.pid]
        while numbers:
            folder = f"/proc/{numbers.pop()}"
            with contextlib.suppress(OSError):
                for thread in os.listdir(f"{folder}/task"):
                    numbers += read_text(f"{folder}/task/{thread}/children").split()
                with open(f"{folder}/smaps_rollup", encoding="ascii") as lines:
                    size += sum(int(line.split()[1]) << 10 for line in lines if line.startswith("Pss:"))
        return size

    def picture(self, path, is_whole=True):
        """Writes a picture of the page."""
        self.keep_picture(path, self.call("Page.captureScreenshot", format="png", captureBeyondViewport=is_whole))

    def picture_of(self, path, x, y, width, height):
        """Writes a picture of a part of the page."""
        clip = {"x": x, "y": y, "width": width, "height": height, "scale": 1}
        found = self.call("Page.captureScreenshot", format="png", captureBeyondViewport=True, clip=clip)
        self.keep_picture(path, found)

    def printed(self):
        """The page on paper, as a PDF in base64."""
        return self.call("Page.printToPDF", printBackground=True, paperWidth=8.27, paperHeight=11.69)["data"]

"""Drives a headless Firefox by the WebDriver BiDi protocol, over a WebSocket."""

import base64
import json
import os
import re
import select
import socket
import struct
import subprocess
import time

from checks.page.browser import SECONDS, BrowserError, Driven, NoAnswer

LISTENING = re.compile(rb"WebDriver BiDi listening on ws://([\d.]+):(\d+)")
PREFERENCES = {
    "remote.active-protocols": 1,
    "datareporting.policy.dataSubmissionEnabled": False,
    "toolkit.telemetry.enabled": False,
    "app.update.disabledForTesting": True,
    "browser.shell.checkDefaultBrowser": False,
    "security.fileuri.strict_origin_policy": True,
}


def plain(value):
    """A value of JavaScript, as the protocol says it."""
    if value["type"] == "array":
        return [plain(each) for each in value["value"]]
    if value["type"] == "object":
        return {name: plain(each) for name, each in value["value"]}
    return value.get("value")


class WebSocket:
    """The client's end of a WebSocket (RFC 6455), for texts."""

    def __init__(self, host, port, path):
        self.socket = socket.create_connection((host, port), SECONDS)
        key = base64.b64encode(os.urandom(16)).decode()
        head = [
            f"GET {path} HTTP/1.1",
            f"Host: {host}:{port}",
            "Upgrade: websocket",
            "Connection: Upgrade",
            f"Sec-WebSocket-Key: {key}",
            "Sec-WebSocket-Version: 13",
            "",
            "",
        ]
        self.socket.sendall("\r\n".join(head).encode())
        self.rest = b""
        while b"\r\n\r\n" not in self.rest:
            self.rest += self._piece()
        answer, _, self.rest = self.rest.partition(b"\r\n\r\n")
        if b" 101 " not in answer.split(b"\r\n")[0]:
            raise BrowserError(f"no WebSocket: {answer[:100]!r}")

    def _piece(self):
        piece = self.socket.recv(1 << 20)
        if not piece:
            raise BrowserError("the browser ended")
        return piece

    def _take(self, count):
        pieces, have = [self.rest], len(self.rest)
        while have < count:
            pieces.append(self._piece())
            have += len(pieces[-1])
        text = b"".join(pieces)
        self.rest = text[count:]
        return text[:count]

    def send(self, text):
        data, mask = text.encode(), os.urandom(4)
        length = len(data)
        head = bytes([0x81]) + (
            bytes([0x80 | length])
            if length < 126
            else struct.pack(">BH", 0xFE, length)
            if length < 1 << 16
            else struct.pack(">BQ", 0xFF, length)
        )
        whole = int.from_bytes(data, "big") ^ int.from_bytes((mask * (length // 4 + 1))[:length], "big")
        self.socket.sendall(head + mask + whole.to_bytes(length, "big"))

    def receive(self):
        """The next text, of as many frames as it has."""
        parts = []
        while True:
            first, second = self._take(2)
            length = second & 0x7F
            if length > 125:
                form, size = (">H", 2) if length == 126 else (">Q", 8)
                (length,) = struct.unpack(form, self._take(size))
            data = self._take(length)
            if first & 0x0F in (0, 1):
                parts.append(data)
                if first & 0x80:
                    return b"".join(parts).decode()


class Firefox(Driven):
    def __init__(self, command="firefox-esr", preferences=None):
        super().__init__()
        with open(os.path.join(self.profile, "user.js"), "w", encoding="utf-8") as file:
            for name, value in {**PREFERENCES, **(preferences or {})}.items():
                file.write(f"user_pref({json.dumps(name)}, {json.dumps(value)});\n")
        words = [
            "nice",
            "-n",
            "19",
            command,
            "--headless",
            "--no-remote",
            "--profile",
            self.profile,
            "--remote-debugging-port=0",
            "about:blank",
        ]
        quiet = {"stdin": subprocess.DEVNULL, "stdout": subprocess.DEVNULL}
        environment = {**os.environ, "HOME": self.profile, "MOZ_DISABLE_CONTENT_SANDBOX": "1"}
        self.process = subprocess.Popen(words, stderr=subprocess.PIPE, env=environment, **quiet)
        host, port = self._address()
        self.socket = WebSocket(host, port, "/session")
        self.call("session.new", capabilities={"alwaysMatch": {"acceptInsecureCerts": False}})
        self.tab = self.call("browsingContext.getTree")["contexts"][0]["context"]
        self.call("session.subscribe", events=["log.entryAdded"])

    def _address(self):
        """Where the browser listens, as it says itself."""
        said, until = b"", time.monotonic() + SECONDS
        while time.monotonic() < until:
            ready, _, _ = select.select([self.process.stderr], [], [], 1)
            said += os.read(self.process.stderr.fileno(), 1 << 16) if ready else b""
            if found := LISTENING.search(said):
                return found[1].decode(), int(found[2])
        raise BrowserError(f"the browser does not listen: {said[-200:]!r}")

    def close(self):
        self.process.terminate()
        self.wait_for_end()
        self.process.stderr.close()

    def send(self, message):
        self.socket.send(json.dumps(message))

    def receive(self, until):
        """The next message of the browser."""
        self.socket.socket.settimeout(max(0.01, until - time.monotonic()))
        try:
            return self.socket.receive()
        except TimeoutError as fault:
            raise NoAnswer("the browser does not answer") from fault

    def value(self, expression, seconds=SECONDS):
        """The value of an expression of JavaScript, waited for if it is a promise."""
        found = self.call(
            "script.evaluate", seconds, expression=expression, target={"context": self.tab}, awaitPromise=True
        )
        if found["type"] == "exception":
            raise BrowserError(found["exceptionDetails"]["text"])
        return plain(found["result"])

    @staticmethod
    def line_of(event):
        """The line of the console that an event tells of, or None."""
        return event["params"]["text"] if event["method"] == "log.entryAdded" else None

    def begin_with(self, script):
        """Runs a script in each page before its own."""
        self.call("script.addPreloadScript", functionDeclaration=f"() => {{ {script} }}")

    def forget_pages(self):
        """Firefox keeps all pages to go back to that the checks need."""

    def open_page(self, url):
        for each in ("about:blank", url):
            self.call("browsingContext.navigate", context=self.tab, url=each, wait="complete")

    def choose(self, selector, paths):
        """Chooses files as a user does."""
        found = self.call("browsingContext.locateNodes", context=self.tab, locator={"type": "css", "value": selector})
        node = {"sharedId": found["nodes"][0]["sharedId"]}
        self.call("input.setFiles", context=self.tab, element=node, files=list(paths))

    def dress(self, width, height, ratio=1, **_):
        """Sets the size of the page, with so many pixels of the screen for each of its own. What the user prefers is
        set before the start."""
        size = {"width": width, "height": height}
        self.call("browsingContext.setViewport", context=self.tab, viewport=size, devicePixelRatio=ratio)

    def picture(self, path, is_whole=True):
        """Writes a picture of the page."""
        origin = "document" if is_whole else "viewport"
        self.keep_picture(path, self.call("browsingContext.captureScreenshot", context=self.tab, origin=origin))

    def picture_of(self, path, x, y, width, height):
        """Writes a picture of a part of the page."""
        clip = {"type": "box", "x": x, "y": y, "width": width, "height": height}
        found = self.call("browsingContext.captureScreenshot", context=self.tab, origin="document", clip=clip)
        self.keep_picture(path, found)

    def printed(self):
        """The page on paper, as a PDF in base64."""
        page = {"width": 21.0, "height": 29.7}
        return self.call("browsingContext.print", context=self.tab, background=True, page=page)["data"]

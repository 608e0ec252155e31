"""A browser without a screen, which is driven over its DevTools protocol: JSON over a WebSocket (RFC 6455)."""

import base64
import contextlib
import http.client
import itertools
import json
import os
import pathlib
import re
import socket
import struct
import subprocess
import tempfile
import time

import tools

NAMES, PACKAGE = ("chromium-headless-shell", "chromium"), "chromium-headless-shell"
OPTIONS = ("--headless", "--no-sandbox", "--disable-gpu", "--disable-dev-shm-usage", "--remote-debugging-port=0")
LISTENING = re.compile(r"DevTools listening on ws://127\.0\.0\.1:(\d+)/")
# how long an answer of the browser is waited for, and what a page is to show
LIMIT, WAIT = 30.0, 10.0
TEXT, CLOSE, PING = 1, 8, 9
CONSOLE = ("Runtime.consoleAPICalled", "Runtime.exceptionThrown", "Log.entryAdded")
KEYS = {"Tab": 9, "Enter": 13, "Escape": 27, "ArrowDown": 40, "ArrowUp": 38, "Backspace": 8}


class Fault(Exception):
    """The browser does not do what it is asked."""


def browser_path():
    """The path of a browser, or none."""
    return tools.tool(NAMES, PACKAGE)


def masked(key, payload):
    return bytes(byte ^ key[at & 3] for at, byte in enumerate(payload))


class WebSocket:
    """A client's side of a WebSocket: texts go out in one frame each, and come in as many as they like."""

    def __init__(self, port, path):
        self.socket = socket.create_connection(("127.0.0.1", port), LIMIT)
        key = base64.b64encode(os.urandom(16)).decode()
        fields = ("Upgrade: websocket", "Connection: Upgrade", f"Sec-WebSocket-Key: {key}", "Sec-WebSocket-Version: 13")
        head = (f"GET {path} HTTP/1.1", f"Host: 127.0.0.1:{port}", *fields, "", "")
        self.socket.sendall("\r\n".join(head).encode())
        self.stream = self.socket.makefile("rb")
        if b" 101 " not in self.stream.readline():
            raise Fault("no WebSocket")
        while self.stream.readline().strip():
            pass

    def close(self):
        self.stream.close()
        self.socket.close()

    def send(self, payload, kind=TEXT):
        """One frame, whose bytes are masked as a client's have to be."""
        count, key = len(payload), os.urandom(4)
        if count < 126:
            head = struct.pack("!BB", 0x80 | kind, 0x80 | count)
        elif count < 65536:
            head = struct.pack("!BBH", 0x80 | kind, 0x80 | 126, count)
        else:
            head = struct.pack("!BBQ", 0x80 | kind, 0x80 | 127, count)
        self.socket.sendall(head + key + masked(key, payload))

    def frame(self):
        """Whether the next frame is the last of its text, its kind, and its payload."""
        first, second = self.taken(2)
        count = second & 127
        if count > 125:
            count = int.from_bytes(self.taken(2 if count == 126 else 8), "big")
        return first >> 7, first & 15, self.taken(count)

    def taken(self, count):
        found = self.stream.read(count)
        if len(found) < count:
            raise Fault("the WebSocket was closed")
        return found

    def receive(self):
        """The next text."""
        text, is_last = b"", False
        while not is_last:
            is_last, kind, payload = self.frame()
            if kind == PING:
                self.send(payload, kind=10)
            if kind == CLOSE:
                raise Fault("the WebSocket was closed")
            if kind >= CLOSE:
                is_last = False
            else:
                text += payload
        return text


class Tab:
    """A tab of the browser, and what has happened in it."""

    def __init__(self, port, path):
        self.web_socket, self.numbers, self.events = WebSocket(port, path), itertools.count(1), []
        for domain in ("Page", "Runtime", "Log"):
            self.call(f"{domain}.enable")

    def __enter__(self):
        return self

    def __exit__(self, *_):
        # a page that is left open goes on asking
        with contextlib.suppress(Fault, OSError):
            self.call("Page.close")
        self.web_socket.close()

    def call(self, method, **parameters):
        """What the browser answers. What happens meanwhile is kept."""
        number = next(self.numbers)
        self.web_socket.send(json.dumps({"id": number, "method": method, "params": parameters}).encode())
        while True:
            told = json.loads(self.web_socket.receive())
            if told.get("id") == number:
                if "error" in told:
                    raise Fault(f"{method}: {told['error']}")
                return told["result"]
            if "method" in told:
                self.happens(told["method"], told["params"])

    def happens(self, name, parameters):
        self.events.append((name, parameters))
        # a dialog holds the page until it is closed
        if name == "Page.javascriptDialogOpening":
            closing = {"id": next(self.numbers), "method": "Page.handleJavaScriptDialog", "params": {"accept": True}}
            self.web_socket.send(json.dumps(closing).encode())

    def opens(self, address):
        self.call("Page.navigate", url=address)

    def value(self, expression):
        """What an expression of JavaScript is in the page."""
        told = self.call("Runtime.evaluate", expression=expression, returnByValue=True, awaitPromise=True)
        if "exceptionDetails" in told:
            raise Fault(f"{expression}: {told['exceptionDetails'].get('exception', {}).get('description')}")
        return told["result"].get("value")

    def awaits(self, expression, is_right, wait=WAIT):
        """The value of an expression once it is right, or what it is when the wait is over."""
        end = time.monotonic() + wait
        while True:
            found = self.value(expression)
            if is_right(found) or time.monotonic() > end:
                return found
            time.sleep(0.05)

    def types(self, text):
        self.call("Input.insertText", text=text)

    def presses(self, key):
        further = {"text": "\r"} if key == "Enter" else {}
        for kind in ("keyDown", "keyUp"):
            words = {"type": kind, "key": key, "code": key, "windowsVirtualKeyCode": KEYS[key]}
            self.call("Input.dispatchKeyEvent", **words, **(further if kind == "keyDown" else {}))

    def has_size(self, width, height, is_phone=False):
        words = {"width": width, "height": height, "deviceScaleFactor": 1, "mobile": is_phone}
        self.call("Emulation.setDeviceMetricsOverride", **words)

    def has_scheme(self, scheme):
        """The page is asked for in the dark, or in the light."""
        self.call("Emulation.setEmulatedMedia", features=[{"name": "prefers-color-scheme", "value": scheme}])

    def picture(self, path):
        pathlib.Path(path).write_bytes(base64.b64decode(self.call("Page.captureScreenshot")["data"]))

    def of_console(self, but=()):
        """What was written to the console, without the lines of a fetch that has one of these statuses."""
        found = [(name, parameters) for name, parameters in self.events if name in CONSOLE]
        return [str(it)[:300] for it in found if not any(is_of_fetch(it, words) for words in but)]

    def dialogs(self):
        return [parameters["message"] for name, parameters in self.events if name == "Page.javascriptDialogOpening"]


def is_of_fetch(event, words):
    """Whether a line of the console is the browser's own, of a fetch that failed with these words."""
    entry = event[1].get("entry", {})
    return entry.get("source") == "network" and words in entry.get("text", "")


class Browser:
    """A run of the browser, with a folder of its own, which is ended where it is left."""

    def __init__(self, path, folder):
        self.place = pathlib.Path(tempfile.mkdtemp(prefix="browser-", dir=folder))
        words = [path, *OPTIONS, f"--user-data-dir={self.place}", "about:blank"]
        with open(self.place / "errors", "wb") as errors:
            streams = {"stdin": subprocess.DEVNULL, "stdout": subprocess.DEVNULL, "stderr": errors}
            self.run = subprocess.Popen(words, start_new_session=True, **streams)
        self.port = None

    def __enter__(self):
        self.port = self.listens()
        return self

    def __exit__(self, *_):
        if self.run.poll() is None:
            os.killpg(self.run.pid, 9)
        self.run.wait(LIMIT)

    def listens(self):
        """The port that it is driven over, which it tells on standard error."""
        end = time.monotonic() + LIMIT
        while time.monotonic() < end and self.run.poll() is None:
            found = LISTENING.search((self.place / "errors").read_text(errors="replace"))
            if found:
                return int(found.group(1))
            time.sleep(0.05)
        self.__exit__()
        raise Fault("the browser does not begin")

    def tab(self):
        """A new tab, which shares nothing that is kept for a tab alone."""
        visitor = http.client.HTTPConnection("127.0.0.1", self.port, timeout=LIMIT)
        visitor.request("PUT", "/json/new?about:blank")
        address = json.loads(visitor.getresponse().read())["webSocketDebuggerUrl"]
        visitor.close()
        return Tab(self.port, "/" + address.split("/", 3)[3])

"""Visits over HTTP/1.1 (RFC 9112): the bytes that a visitor sends, and the response that comes back."""

import re
import socket
import threading
import time
from typing import NamedTuple

# the longest wait of a visitor for a next byte
WAIT = 10.0
MOMENT = re.compile(r'"(?:seen|now)":(\d+)')
# every response of the server's own has these
COMMON = ("cache-control: no-store", "connection: close", "x-content-type-options: nosniff")
JSON = "application/json"


class Response(NamedTuple):
    """A response: its first line, its fields in alphabetical order, and its body."""

    line: str
    fields: tuple
    body: bytes

    @property
    def status(self):
        return self.line.partition(" ")[2]

    def without_body(self):
        return self._replace(body=b"")


def read(text):
    """The response that the bytes spell, or all of them as a body where they are none."""
    head, blank, body = text.partition(b"\r\n\r\n")
    line, *fields = head.decode("latin-1").split("\r\n")
    return Response(line, tuple(sorted(fields)), body) if blank else Response("", (), text)


def told(status, body, *further, kind=JSON):
    """The response with this status, this text as its body, and further fields."""
    body = body.encode()
    fields = (*COMMON, f"content-length: {len(body)}", f"content-type: {kind}", *further)
    return Response(f"HTTP/1.1 {status}", tuple(sorted(fields)), body)


def refused(status, text, *further):
    return told(status, '{"error":"%s"}' % text, *further)


def refused_unread(status):
    """The bytes that answer what is no request that could be read."""
    return b"HTTP/1.1 " + status.encode() + b"\r\nconnection: close\r\ncontent-length: 0\r\n\r\n"


def filled(body, response):
    """The body with the moments of the response in place of each MOMENT: the server alone knows them."""
    moments = iter(MOMENT.findall(response.body.decode("utf-8", "replace")))
    return re.sub("MOMENT", lambda _: next(moments, "none"), body)


def spelled(target, method="GET", fields=(), host="127.0.0.1", version="HTTP/1.1"):
    """The bytes of a request. Without a host it has no such field."""
    hosts = () if host is None else (f"Host: {host}",)
    return "\r\n".join((f"{method} {target} {version}", *hosts, *fields, "", "")).encode()


def connected(address, wait=WAIT):
    return socket.create_connection(address, wait)


def say(visitor, pieces, pause=0.0):
    """Sends the pieces, as many as a server takes that may close before the last."""
    try:
        for piece in pieces:
            visitor.sendall(piece)
            time.sleep(pause)
    except OSError:
        pass


def hear(visitor):
    """All bytes that come until the connection is closed. Where it stays open, a text behind them says so."""
    found = b""
    try:
        while piece := visitor.recv(1 << 16):
            found += piece
    except TimeoutError:
        return found + b" (and it stays open)"
    except OSError:
        pass
    return found


def answer_to(address, *pieces, pause=0.0, ends=False):
    """The bytes that answer the pieces, until the connection is closed; with `ends` the visitor ends his side first."""
    try:
        with connected(address) as visitor:
            say(visitor, pieces, pause)
            if ends:
                visitor.shutdown(socket.SHUT_WR)
            return hear(visitor)
    except OSError as fault:
        return str(fault).encode()


def ask(address, target, method="GET", **further):
    """The response to a request on a connection of its own."""
    return read(answer_to(address, spelled(target, method, **further)))


def is_closed(visitor):
    """Whether the server has closed the connection, from which nothing else is to come."""
    visitor.settimeout(0.0)
    try:
        return not visitor.recv(1)
    except BlockingIOError:
        return False
    except OSError:
        return True


class Visitor(threading.Thread):
    """A visitor who asks for the health until he is stopped, and knows his answers and his longest wait."""

    def __init__(self, address, pause=0.0):
        super().__init__(daemon=True)
        self.address, self.pause, self.stopped = address, pause, threading.Event()
        self.answers, self.longest, self.faults = 0, 0.0, []

    def run(self):
        while not self.stopped.wait(self.pause):
            begun = time.monotonic()
            response = ask(self.address, "/v1/health")
            self.longest = max(self.longest, time.monotonic() - begun)
            if response.status == "200 OK":
                self.answers += 1
            else:
                self.faults.append(response)

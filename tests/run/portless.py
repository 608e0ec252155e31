"""Datagrams that nobody can answer, since they come from port 0."""

import re
import socket
import struct
import time

from asking import Client
from checks import SERVES
from coap import CONFIRMABLE, EMPTY, Message, bytes_of
from devices import is_soon
from exposition import measures_of

PINGS, AT_ONCE = 3_000, 50
# how many such lines there are in a second, at most
LINES = 10
LINE = re.compile(r"send passed over\b.* to=127\.0\.0\.1:0\b")


def from_no_port(port, payload):
    """A UDP datagram whose source port is 0: RFC 768 has that where no reply is wanted. It has no checksum."""
    return struct.pack("!HHHH", 0, port, 8 + len(payload), 0) + payload


def unanswerable(scene):
    """Each reply that cannot be sent is counted. Few of them are logged, each with whom it was for."""
    try:
        raw = socket.socket(socket.AF_INET, socket.SOCK_RAW, socket.IPPROTO_UDP)
    except OSError:
        scene.passes_over("datagrams from port 0, since no raw socket can be opened")
        return
    with raw, scene.serving(*SERVES) as server, Client(server.port) as client:
        begun, answered = time.monotonic(), []
        for number in range(PINGS):
            ping = bytes_of(Message(CONFIRMABLE, EMPTY, number, b""))
            raw.sendto(from_no_port(server.port, ping), ("127.0.0.1", 0))
            if number % AT_ONCE == 0:
                answered.append(client.ping())
        is_soon(lambda: measures_of(server).get("fleet_send_faults_total") == PINGS)
        seconds = int(time.monotonic() - begun) + 2
        found = measures_of(server).get("fleet_send_faults_total")
        lines = [it for it in server.errors().splitlines() if "send passed over" in it]
    scene.holds("pings unanswered beside those from port 0", answered.count(False), 0)
    scene.holds(f"replies to {PINGS} pings from port 0 that are counted as not sent", found, PINGS)
    most = LINES * seconds
    scene.is_true(f"{len(lines)} of them are logged", 1 <= len(lines) <= most, f"none, or more than {most}")
    others = [it for it in lines if not LINE.search(it)]
    scene.holds("lines without whom it was for", (len(others), others[:1]), (0, []))

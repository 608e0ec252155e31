"""What checks of HTTP have in common: servers, devices that have registered, and what is told of them."""

import re
import time

from coap import register
from visiting import ask, filled, told

VISITS = ("--http", "127.0.0.1:0")
SERVES = ("--memory", "--port", "0", *VISITS)
VERSION = "0.1.0"


def milliseconds():
    return time.time_ns() // 1_000_000


def start_of(server):
    """The tag of the start, as the server tells it."""
    found = re.search(r'"start":"([0-9a-f]{16})"', ask(server.visited, "/v1/node").body.decode())
    return found.group(1) if found else "none"


class Shown:
    """A device that has registered, and the JSON text of its registration."""

    def __init__(self, client, endpoint, text=None, lifetime=86400, further=("b=U",), **members):
        self.begun = milliseconds()
        self.id = client.ask(register(endpoint, lifetime, further=further)).located
        self.ended = milliseconds()
        self.members = {
            "address": '"127.0.0.1:%d"' % client.socket.getsockname()[1],
            "attributes": "{}",
            "binding": '"U"',
            "endpoint": text or f'"{endpoint}"',
            "id": f'"{self.id}"',
            "lifetime": str(lifetime),
            "lwm2m": '"1.1"',
            "objects": '"</1/0>,</3/0>"',
            "queue": "false",
            "seen": "MOMENT",
            "sms": "null",
            **members,
        }

    @property
    def address(self):
        return self.members["address"].strip('"')

    def text(self):
        return "{%s}" % ",".join(f'"{name}":{text}' for name, text in self.members.items())


def page_text(shown, next_="null"):
    return '{"next":%s,"registrations":[%s]}' % (next_, ",".join(it.text() for it in shown))


def shows(scene, server, target, body, status="200 OK"):
    """A resource is told with this body, and HEAD tells its head."""
    response = ask(server.visited, target)
    want = told(status, filled(body, response))
    scene.holds(f"GET {target}", response, want)
    scene.holds(f"HEAD {target}", ask(server.visited, target, "HEAD"), want.without_body())


def answers(scene, server, rows):
    """Each target has its response."""
    for target, want in rows:
        scene.holds(f"GET {target}", ask(server.visited, target), want)

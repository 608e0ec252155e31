"""A device that others wrote: libcoap's server, whose resources are observed."""

import pathlib
import re
import signal
import subprocess
import tempfile
import time

import tools
from devices import COMMANDS, cancel, is_soon, notices, observe, token_of
from observing import ENDED
from ports import free_port
from serving import LIMIT
from visiting import told

RESOURCE = "/3/0/9"
# a value that fits into one message, and one that comes in blocks
LONG = "".join(f"{it:05}" for it in range(1_000))
# a device that hears of a change tells it at once; on a busy machine that may take so many seconds
TELLS = 10.0


class RealDevice:
    """A server of libcoap at a port, which is ended where it is left. Its resources are put by a client."""

    endpoint = "real"

    def __init__(self, scene, tool, client):
        self.scene, self.tool, self.client, self.port = scene, tool, client, free_port()
        self.place = pathlib.Path(tempfile.mkdtemp(prefix="device-", dir=scene.folder))
        self.id, self.run = "none", None

    def __enter__(self):
        return self

    def __exit__(self, *_):
        if self.run:
            self.run.kill()
            self.run.wait(LIMIT)

    def registers(self, port):
        """Registers from the port that the device will have, and gives the code of the answer."""
        words = ["-p", str(self.port), "-m", "post", "-t", "40", "-e", "</3/0>"]
        path = f"rd?ep={self.endpoint}&lt=86400&lwm2m=1.1&b=U"
        code, self.id = tools.asked_by_client(self.client, words, port, path)
        return code

    def starts(self):
        words = [self.tool, "-d", "10", "-p", str(self.port), "-A", "127.0.0.1", "-v", "7"]
        with open(self.place / "log", "ab") as log:
            self.run = subprocess.Popen(words, stdin=subprocess.DEVNULL, stdout=log, stderr=log)
        return is_soon(lambda: self.asked("-m", "get", path="")[0] == "2.05", TELLS)

    def asked(self, *words, path=RESOURCE):
        return tools.asked_by_client(self.client, list(words), self.port, path.lstrip("/"))

    def puts(self, value, *words):
        """Puts a value, and gives the code of the last answer."""
        path = self.place / "value"
        path.write_text(value)
        return self.asked(*words, "-m", "put", "-t", "0", "-f", str(path))[0]

    def watch(self, token):
        members = (self.endpoint, self.id, RESOURCE, token)
        return '{"accept":null,"endpoint":"%s","id":"%s","path":"%s","token":"%s"}' % members


def values_of(found, token):
    """What notices of a token tell: each value with whether it is whole and has ended, and that numbers rise."""
    of_token = [(it["complete"], it["notice"]) for it in found if it["notice"]["token"] == token]
    return [(bytes.fromhex(it["payload"]).decode(), complete, it["ended"]) for complete, it in of_token]


def tells(server, token, value):
    """Whether the last notice of a token soon has a value, whole."""
    def is_told():
        found = values_of(notices(server, 0), token)
        return found[-1:] == [(value, True, False)]

    return is_soon(is_told, TELLS)


def real_devices(scene):
    """A real device's resource is observed, in blocks and over a restart, until that ends."""
    tool, client = tools.real_device(), tools.real_client()
    if not tool or not client:
        scene.passes_over("a real device, since there is no coap-server (FLEET_INSTALL=1 has it installed)")
        return
    data = scene.place("real")
    with RealDevice(scene, tool, client) as device:
        with scene.serving("--data", data, "--port", "0", *COMMANDS) as server:
            scene.holds("a Register from the port of a real device", device.registers(server.port), "2.01")
            scene.is_true("the device starts", device.starts(), (device.place / "log").read_text()[-300:])
            scene.holds("PUT of a first value", device.puts("first"), "2.01")
            response = observe(server, device, RESOURCE)
            port, token = server.port, token_of(response)
            scene.holds("POST of its observation", response, told("201 Created", device.watch(token)))
            changes(scene, server, device, token)
            scene.holds("the end by kill -9", server.kill(), -signal.SIGKILL)
        with scene.serving("--data", data, "--port", port, *COMMANDS) as server:
            over_a_restart(scene, server, device, token)


def is_told(scene, server, token, what, value):
    found = values_of(notices(server, 0), token)
    is_right = tells(server, token, value)
    scene.is_true(f"what a real device tells: {what}", is_right, values_of(notices(server, 0), token)[-1:] or found)


def changes(scene, server, device, token):
    """Each value that is put is told, whole."""
    is_told(scene, server, token, "its first value", "first")
    for what, value, words in (
        ("another value", "second", ()),
        ("5,000 bytes", LONG, ("-b", "1024")),
        ("5,000 other bytes", LONG[::-1], ("-b", "256")),
        ("few bytes again", "third", ()),
        ("900 bytes", LONG[:900], ()),
        ("no more than one block", LONG[:1024], ("-b", "512")),
    ):
        scene.holds(f"PUT of {what}", device.puts(value, *words), "2.04")
        is_told(scene, server, token, what, value)
    found = notices(server, 0)
    numbers = [it["notice"]["observe"] for it in found]
    is_rising = None not in numbers and numbers == sorted(set(numbers))
    scene.is_true("its numbers rise", is_rising, numbers)
    scene.holds("notices that are not whole", [it["number"] for it in found if not it["complete"]], [])


def over_a_restart(scene, server, device, token):
    """The device tells the server that was started again, until the observation is cancelled."""
    scene.holds("PUT after a restart", device.puts("after"), "2.04")
    is_told(scene, server, token, "a value after a restart", "after")
    scene.holds("PUT of 5,000 bytes after it", device.puts(LONG, "-b", "1024"), "2.04")
    is_told(scene, server, token, "5,000 bytes after a restart", LONG)
    count = len(notices(server, 0))
    scene.holds("DELETE of its token", cancel(server, token), ENDED)
    is_cancelled = is_soon(lambda: has_ended(device, token), TELLS)
    scene.is_true("the device hears that it has ended", is_cancelled, (device.place / "log").read_text()[-600:])
    scene.holds("PUT once it has ended", device.puts("unseen"), "2.04")
    time.sleep(1)
    scene.holds("notices afterwards", len(notices(server, 0)) - count, 0)
    token = token_of(observe(server, device, RESOURCE))
    is_told(scene, server, token, "a value that is observed anew", "unseen")
    scene.holds("its DELETE", cancel(server, token), ENDED)


def has_ended(device, token):
    """Whether the device has logged a request with the token and Observe 1."""
    log = (device.place / "log").read_text(errors="replace")
    return re.search(rf"GET.*{token}.*Observe:1", log) is not None

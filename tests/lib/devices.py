"""Devices that are observed, by the bytes of CoAP, and the JSON of what is told of them."""

import itertools
import json
import re
import time
from urllib.parse import quote

from asking import CLOSED, Client
from checks import VISITS, start_of
from coap import ACCEPT, ACKNOWLEDGEMENT, CONFIRMABLE, CONTENT, EMPTY, OBSERVE, RESET, URI_PATH, Message
from coap import bytes_of, parsed, register, unsigned
from visiting import ask, told

COMMANDS = (*VISITS, "--http-commands")
OBSERVES = ("--memory", "--port", "0", *COMMANDS)
# how long is waited for what is to come at once, and for what is not to come, in seconds
SOON, NOTHING = 5.0, 0.4
PATH = "/3/0"


class Observed(Client):
    """A device that has registered, hears what the server asks, and answers as it is told to."""

    def __init__(self, port, endpoint, own=1, asks=True):
        super().__init__(port)
        self.endpoint, self.mids = endpoint, itertools.count(own << 12)
        self.id = self.ask(register(endpoint)).located if asks else None

    def goes_to(self, port):
        """Its server is at another port from now on."""
        self.socket.connect(("127.0.0.1", port))

    def heard(self, wait=SOON):
        """The next message of the server, or none."""
        text = self.hear(wait)
        return parsed(text) if isinstance(text, bytes) else None

    def hears_nothing(self, wait=NOTHING):
        """What comes in that time, which is to be none."""
        text = self.hear(wait)
        return text.hex() if isinstance(text, bytes) else "closed" if text is CLOSED else None

    def answers(self, request, payload=b"", options=(), code=CONTENT):
        """Acknowledges a request by a response (RFC 7252, section 5.2.1)."""
        self.say(bytes_of(Message(ACKNOWLEDGEMENT, code, request.mid, request.token, options, payload)))

    def replies(self, kind, mid):
        """Sends an empty message: an acknowledgement or a Reset."""
        self.say(bytes_of(Message(kind, EMPTY, mid, b"")))

    def tells(self, token, observe, payload, kind=CONFIRMABLE, further=(), code=CONTENT):
        """Sends a notification, with so many Observe options as it has numbers, and gives its message ID."""
        numbers = () if observe is None else ((OBSERVE, unsigned(observe)),)
        options = tuple(sorted((*numbers, *further), key=lambda it: it[0]))
        mid = next(self.mids) & 0xFFFF
        self.say(bytes_of(Message(kind, code, mid, bytes.fromhex(token), options, payload)))
        return mid

    def told(self, token, observe, payload, **further):
        """Sends a notification that asks for an acknowledgement, and gives what answers it."""
        mid = self.tells(token, observe, payload, **further)
        message = self.heard()
        return answer_of(message, mid)

    def watch(self, token, path=PATH, accept="null"):
        """The JSON of an observation of it."""
        members = (accept, self.endpoint, self.id, path, token)
        return '{"accept":%s,"endpoint":"%s","id":"%s","path":"%s","token":"%s"}' % members

    def notice(self, token, observe, payload, code=CONTENT, ended="false", kind="null", path=PATH):
        """The JSON of what it told of an observation."""
        members = (code, kind, ended, self.endpoint, self.id, observe, path, payload.hex(), token)
        return NOTICE % members


NOTICE = (
    '{"code":%d,"content_format":%s,"ended":%s,"endpoint":"%s","id":"%s",'
    '"observe":%s,"path":"%s","payload":"%s","token":"%s"}'
)


def answer_of(message, mid):
    """What an empty message answers to the one with this message ID: `acknowledged`, `reset`, or else all of it."""
    for kind, name in ((ACKNOWLEDGEMENT, "acknowledged"), (RESET, "reset")):
        if message == Message(kind, EMPTY, mid, b""):
            return name
    return message


def asks_for(path, *before, accept=None):
    """The options of a request for a path, those before its segments first."""
    segments = tuple((URI_PATH, it.encode()) for it in path.split("/")[1:])
    return (*before, *segments, *(() if accept is None else ((ACCEPT, unsigned(accept)),)))


def observations(device, query=""):
    return f"/v1/registrations/{quote(device.endpoint, safe='')}/observations{query}"


def observe(server, device, path=PATH, further="", **fields):
    """The response to a command that observes a path of a device."""
    return ask(server.visited, observations(device, f"?path={path}{further}"), "POST", **fields)


def cancel(server, token, **fields):
    return ask(server.visited, f"/v1/tokens/{token}", "DELETE", **fields)


def token_of(response):
    """The token of an observation that was made, or none."""
    found = re.search(r'"token":"([0-9a-f]{16})"', response.body.decode("utf-8", "replace"))
    return found.group(1) if found and response.status == "201 Created" else "none"


def noted(number, notice, complete="true"):
    """The JSON of a notification with its number."""
    return '{"complete":%s,"notice":%s,"number":%d}' % (complete, notice, number)


def notes(found, next_, start):
    """The response that tells these notifications."""
    return told("200 OK", '{"next":%d,"notifications":[%s],"start":"%s"}' % (next_, ",".join(found), start))


def asked_of(server, query="?from=0"):
    return ask(server.visited, f"/v1/notifications{query}")


def notifications(server, query="?from=0"):
    """What is told of notifications: the answer's JSON, or none."""
    response = asked_of(server, query)
    return json.loads(response.body) if response.status == "200 OK" else {"notifications": [], "next": response.status}


def notices(server, count, wait=SOON):
    """The notifications of a start once there are so many, or those that are there after a while."""
    end = time.monotonic() + wait
    while len(found := notifications(server)["notifications"]) < count and time.monotonic() < end:
        time.sleep(0.02)
    return found


def tells_from(scene, check, server, number, want):
    """What is told from a number on, once there is as much as these, is these."""
    notices(server, number + len(want))
    start = start_of(server)
    got = asked_of(server, f"?from={number}&start={start}")
    scene.holds(check, got, notes(want, number + len(want), start))


def is_soon(truth, wait=SOON):
    """Whether it becomes true in that time."""
    end = time.monotonic() + wait
    while not truth():
        if time.monotonic() > end:
            return False
        time.sleep(0.02)
    return True

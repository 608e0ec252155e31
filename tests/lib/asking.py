"""Clients that ask a server over UDP."""

import itertools
import random
import socket
import struct
import threading
import time

import coap

# a token of a request is that of no other
TOKENS = itertools.count(1)
CLOSED = object()
# how long replies are waited for that were sent before the port was closed
DRAIN = 0.1


class Client:
    """A socket that is connected to a server, so that it hears of a port that is closed."""

    def __init__(self, port, address="127.0.0.1"):
        family = socket.AF_INET6 if ":" in address else socket.AF_INET
        self.socket = socket.socket(family, socket.SOCK_DGRAM)
        # a link-local address stands before its scope, as fe80::1%eth0
        self.socket.connect(socket.getaddrinfo(address, port, family, socket.SOCK_DGRAM)[0][4])

    def __enter__(self):
        return self

    def __exit__(self, *_):
        self.close()

    def close(self):
        self.socket.close()

    def hear(self, wait):
        """The next datagram, none where nothing comes for so long, or `CLOSED`."""
        self.socket.settimeout(wait)
        try:
            return self.socket.recv(2048)
        except ConnectionRefusedError:
            return CLOSED
        except OSError:
            return None

    def say(self, datagram):
        """Whether the datagram was sent, and nothing has told that the port is closed."""
        try:
            self.socket.send(datagram)
        except OSError:
            return False
        return True

    def ping(self, wait=5.0):
        return self.say(coap.PING) and self.hear(wait) == coap.PONG

    def ask(self, request, wait=5.0):
        """The reply, none, or `CLOSED` where the port is."""
        token = struct.pack("!I", next(TOKENS))
        if not self.say(coap.spelled(request, int.from_bytes(token[2:], "big"), token)):
            return CLOSED
        end = time.monotonic() + wait
        while (left := end - time.monotonic()) > 0:
            heard = self.hear(left)
            if heard is CLOSED or heard is None:
                return heard
            reply = coap.read(heard)
            if reply and reply.token == token:
                return reply
        return None

    def code_of(self, request, wait=5.0):
        """The code of the reply, or `none`, or `closed`."""
        reply = self.ask(request, wait)
        return "closed" if reply is CLOSED else reply.code if reply else "none"

    def ask_all(self, requests, at_once=100, wait=5.0):
        """The reply to each request, or none: so many are under way at once.

        Where the port is closed, or nothing comes for so long, no more is asked. What was answered before is heard.
        """
        replies, waiting, asked, is_open = [None] * len(requests), {}, 0, True
        while waiting or (is_open and asked < len(requests)):
            while is_open and asked < len(requests) and len(waiting) < at_once:
                token = struct.pack("!I", next(TOKENS))
                is_open = self.say(coap.spelled(requests[asked], asked & 0xFFFF, token))
                waiting[token] = asked
                asked += 1
            heard = self.hear(wait if is_open else DRAIN)
            if heard is None:
                break
            if heard is CLOSED:
                is_open = False
                continue
            reply = coap.read(heard)
            if reply and reply.token in waiting:
                replies[waiting.pop(reply.token)] = reply
        return replies


def codes_of(replies):
    """How many replies have each code, or are none."""
    codes = [reply.code if reply else "none" for reply in replies]
    return {code: codes.count(code) for code in sorted(set(codes))}


def identifiers(replies):
    """The identifiers of the Registers that were answered."""
    return [reply.located for reply in replies if reply and reply.code == "2.01"]


def registered(port, count, at_once=25, **further):
    """The identifiers of so many Registers, of those that were answered.

    So few are under way at once that the socket's buffer holds them, long lists too.
    """
    with Client(port) as client:
        return identifiers(client.ask_all([coap.register(f"name-{it}", **further) for it in range(count)], at_once=at_once))


class Device(threading.Thread):
    """A client that registers names of its own, until it is stopped, whatever becomes of the server.

    Of eight registrations one is removed. Between the Registers are Updates of registrations that it was told of.
    Between its turns it pauses for a random time, so that a fast server is not asked much more than a slow one.
    """

    # A reply that comes later counts as none: a server that was killed with a request in its buffer gives none.
    WAIT = 0.06
    # The longest pause, in seconds.
    PAUSE = 0.004

    def __init__(self, number, port):
        super().__init__(daemon=True)
        self.number, self.port, self.stopped = number, port, threading.Event()
        self.chance = random.Random(number)
        # the identifiers of the Registers that were answered and never removed, those whose Deregister was answered,
        # and the codes of Updates that were answered by another than 2.04
        self.known, self.removed, self.faults = [], [], []

    def run(self):
        with Client(self.port) as client:
            for turn in itertools.count():
                if self.stopped.is_set():
                    return
                self.registers(client, turn)
                if self.known:
                    self.updates(client, self.known[turn * 7 % len(self.known)])
                time.sleep(self.chance.uniform(0, self.PAUSE))

    def registers(self, client, turn):
        reply = client.ask(coap.register(f"device-{self.number}-{turn}"), self.WAIT)
        if reply is CLOSED or reply is None:
            return
        if reply.code != "2.01":
            self.faults.append(f"a Register is {reply.code}")
        elif turn % 8:
            self.known.append(reply.located)
        elif client.code_of(coap.deregister(reply.located), self.WAIT) == "2.02":
            self.removed.append(reply.located)

    def updates(self, client, identifier):
        code = client.code_of(coap.update(identifier), self.WAIT)
        if code not in ("2.04", "none", "closed"):
            self.faults.append(f"an Update is {code}")


class Pinger(threading.Thread):
    """A client that pings until it is stopped, and knows the longest wait for a reply."""

    def __init__(self, port):
        super().__init__(daemon=True)
        self.port, self.stopped = port, threading.Event()
        self.longest, self.unanswered = 0.0, 0

    def run(self):
        with Client(self.port) as client:
            while not self.stopped.wait(0.003):
                begun = time.monotonic()
                self.unanswered += not client.ping()
                self.longest = max(self.longest, time.monotonic() - begun)


class Updater(threading.Thread):
    """A client that makes Updates of registrations, one after another, until it is stopped or the port is closed."""

    def __init__(self, port, found):
        super().__init__(daemon=True)
        self.port, self.stopped = port, threading.Event()
        self.requests, self.faults = [coap.update(it) for it in found], []

    def run(self):
        with Client(self.port) as client:
            while not self.stopped.is_set():
                replies = client.ask_all(self.requests, at_once=50, wait=1.0)
                self.faults += [reply.code for reply in replies if reply and reply.code != "2.04"]


class Changer(threading.Thread):
    """A client that changes registrations of its own, until it is stopped: what was answered is noted by what comes of it.

    Some have a second to live since their Update, some a day since theirs, and some are removed.
    """

    LIVES = {"ended": (86400, 1), "kept": (4, 86400)}
    # A compaction may take so long.
    WAIT = 1.0

    def __init__(self, name, port):
        super().__init__(daemon=True)
        self.endpoint, self.port, self.stopped = name, port, threading.Event()
        self.ended, self.kept, self.removed = [], [], []

    def run(self):
        with Client(self.port) as client:
            for turn in itertools.count():
                if self.stopped.wait(0.002):
                    return
                self.changes(client, turn, ("ended", "kept", "removed")[turn % 3])

    def changes(self, client, turn, kind):
        before, after = self.LIVES.get(kind, (86400, None))
        reply = client.ask(coap.register(f"{self.endpoint}-{turn}", before), self.WAIT)
        if reply is CLOSED or reply is None or reply.code != "2.01":
            return
        request, code = (coap.update(reply.located, after), "2.04") if after else (coap.deregister(reply.located), "2.02")
        if client.code_of(request, self.WAIT) == code:
            getattr(self, kind).append(reply.located)

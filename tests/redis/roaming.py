"""Devices that go from one server of a fleet to another at each request, and the servers that they go to."""

import contextlib
import itertools
import random
import socket
import struct
import threading
import time

import coap
from asking import CLOSED, TOKENS, Client
from keeper import ends_with_the_test, lasting_port
from scene import NoServer
from scenes import VISITS, settle
from serving import LIMIT

# how long is listened at once, and waited where a port is closed, in seconds
TURN = 0.02


class Fleet:
    """Servers over one Redis, each on a port of its own, which keeps that when it is killed and started again."""

    def __init__(self, scene, redis, count):
        self.scene, self.redis = scene, redis
        self.ports = [lasting_port(socket.SOCK_DGRAM) for _ in range(count)]
        self.servers = [None] * count
        # how often each was killed
        self.ends = [0] * count
        # how many turns devices may have made that go on until they are stopped
        self.turns = 0

    def __enter__(self):
        unserved = self.starts(*range(len(self.ports)))
        try:
            if unserved:
                raise NoServer(unserved)
            settle(self.servers)
        except BaseException:
            self.__exit__()
            raise
        return self

    def __exit__(self, *_):
        for server in filter(None, self.servers):
            server.kill()

    def address(self, _place):
        """Where the server at a place has its Redis."""
        return self.redis.address

    def starts(self, *places):
        """Starts the servers at these places, and gives what those have logged that do not serve."""
        for place in places:
            words = ("--redis", self.address(place), "--port", self.ports[place], *VISITS)
            self.servers[place] = self.scene.server(*words, before=ends_with_the_test)
        return [self.servers[place].errors()[-200:] for place in places if not self.servers[place].serves()]

    def kills(self, *places):
        """Kills servers. What they had asked of Redis is done before anybody hears of it."""
        for place in places:
            self.servers[place].run.kill()
        for place in places:
            self.servers[place].kill()
        self.settles(places)
        for place in places:
            self.ends[place] += 1

    def settles(self, _places):
        """Waits until Redis has done whatever servers had asked it that were killed."""
        self.redis.settles()


class Roamer(threading.Thread):
    """A device that registers names of its own at one server, updates them at others, and removes each eighth.

    It makes the turns that its fleet grants, until it is stopped. A request to a server that was killed is sent again
    to another one. That a server which was not killed does not answer is a fault.
    """

    def __init__(self, number, fleet):
        super().__init__(daemon=True)
        self.number, self.fleet, self.stopped = number, fleet, threading.Event()
        self.chance, self.clients = random.Random(number), []
        # identifiers that were told and never removed, those whose Deregister was answered, and other answers
        self.known, self.removed, self.faults = [], [], []
        self.again = 0

    def run(self):
        with contextlib.ExitStack() as stack:
            self.clients = [stack.enter_context(Client(port)) for port in self.fleet.ports]
            for turn in itertools.count():
                while turn >= self.fleet.turns or self.stopped.is_set():
                    if self.stopped.wait(TURN / 10):
                        return
                self.lives(turn)

    def made(self):
        """How many of its Registers were answered."""
        return len(self.known) + len(self.removed)

    def lives(self, turn):
        reply = self.told(coap.register(f"device-{self.number}-{turn}"), "2.01")
        if reply is None:
            return
        if turn % 8:
            self.known.append(reply.located)
            self.told(coap.update(reply.located), "2.04")
            self.told(coap.update(self.chance.choice(self.known)), "2.04")
        else:
            self.removes(reply.located)

    def removes(self, identifier):
        # one that is sent again may have been done before
        if self.told(coap.deregister(identifier), "2.02", "4.04"):
            self.removed.append(identifier)

    def told(self, request, code, again=None):
        """The reply, where it has this code, or the other one that is right too where the request was sent again."""
        reply, place, attempts = self.answered(request)
        if reply is None or reply.code == code or (attempts and reply.code == again):
            return reply
        self.faults.append((self.number, place, attempts, reply.code, request.options[-1]))
        return None

    def answered(self, request):
        """The reply, its server, and how often the request was sent before in vain. No reply where it is stopped."""
        place = None
        for attempts in itertools.count():
            place = self.chance.choice([it for it in range(len(self.clients)) if it != place])
            reply = self.asked(place, request)
            if reply is not None or self.stopped.is_set():
                return reply, place, attempts
            self.again += 1

    def asked(self, place, request):
        """The reply of a server, or none where it was killed or its port is closed."""
        client, ends, token = self.clients[place], self.fleet.ends[place], struct.pack("!I", next(TOKENS))
        if not client.say(coap.spelled(request, int.from_bytes(token[2:], "big"), token)):
            return self.finds_it_closed()
        end = time.monotonic() + LIMIT
        while time.monotonic() < end:
            heard = client.hear(TURN)
            if heard is CLOSED:
                return self.finds_it_closed()
            if heard is None:
                if self.fleet.ends[place] != ends or self.stopped.is_set():
                    return None
                continue
            reply = coap.read(heard)
            if reply and reply.token == token:
                return reply
        self.faults.append((self.number, place, "no answer", request.options[-1]))
        return None

    def finds_it_closed(self):
        """A port is closed until its server is there again."""
        time.sleep(TURN)


class Traveller(Roamer):
    """Devices, one after another: each registers, is updated, each time at the next server, and a third are removed."""

    UPDATES = 4

    def __init__(self, number, fleet, names):
        super().__init__(number, fleet)
        self.names, self.place = names, number
        # the identifier of each that is not removed
        self.registered, self.updates = {}, 0

    def run(self):
        with contextlib.ExitStack() as stack:
            self.clients = [stack.enter_context(Client(port)) for port in self.fleet.ports]
            for number, name in enumerate(self.names):
                self.travels(name, is_removed=number % 3 == 2)

    def travels(self, name, is_removed):
        reply = self.goes(coap.register(name), "2.01")
        if reply is None:
            return
        for _ in range(self.UPDATES):
            self.updates += self.goes(coap.update(reply.located), "2.04") is not None
        if not is_removed:
            self.registered[name] = reply.located
        elif self.goes(coap.deregister(reply.located), "2.02"):
            self.removed.append(reply.located)

    def goes(self, request, code):
        """The reply of the next server, where it has this code."""
        self.place = (self.place + 1) % len(self.clients)
        reply = self.asked(self.place, request)
        if reply is not None and reply.code == code:
            return reply
        self.faults.append((self.number, self.place, reply and reply.code, request.options[-1]))
        return None


class Registrant(threading.Thread):
    """A device that registers names of its own, at one server after another, until it is stopped."""

    def __init__(self, number, servers):
        super().__init__(daemon=True)
        self.number, self.servers, self.stopped = number, servers, threading.Event()
        # the identifiers that it was told, by their names
        self.known = {}

    def run(self):
        with contextlib.ExitStack() as stack:
            clients = [stack.enter_context(Client(it.port)) for it in self.servers]
            for turn in itertools.count(self.number):
                if self.stopped.wait(TURN / 2):
                    return
                name = f"registrant-{self.number}-{turn}"
                reply = clients[turn % len(clients)].ask(coap.register(name), 1.0)
                if reply not in (None, CLOSED) and reply.code == "2.01":
                    self.known[name] = reply.located

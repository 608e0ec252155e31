"""Devices that ask servers by lot, and the faults by lot that they meet meanwhile."""

import contextlib
import itertools
import random
import signal
import struct
import threading
import time

import coap
from asking import CLOSED, TOKENS, Client
from between import CUTS, DELAYS, HOLDS, KEEPS, LOSES, PASSES, PIECES, REFUSES, STANDS, Between
from model import DEREGISTERS, REGISTERS, UPDATES, Model, Sent
from roaming import Fleet
from scene import running
from scenes import SOON, ended, is_soon, listed

SEEDS = 20240607, 20240611
SERVERS, DEVICES = 4, 24
# how long faults go on, how long devices wait for an answer, and at most between two requests, in seconds
LASTS, LEAST_WAIT, MOST_WAIT, MOST_PAUSE = 30, 0.3, 1.0, 0.02
# how often of 100 times a request that was not answered is made again at once
AGAIN = 50
LEAST_LIFETIME, MOST_LIFETIME = 7_200, 86_400
# how long all may take to come to the same once all faults are over, in seconds
MOST_SETTLING = 30.0
LEAST_ANSWERED = 500
OBJECTS = tuple(b",".join(b"</%d/0>" % it for it in range(1, count)) for count in (2, 5, 40))
# what a device asks that is registered, and how often of all times
KINDS = {UPDATES: 78, REGISTERS: 6, DEREGISTERS: 8, "one that has ended": 8}


class Wanderer(threading.Thread):
    """A device that makes one request at a time, each at a server drawn by lot, and keeps what it was told."""

    def __init__(self, number, seed, fleet):
        super().__init__(daemon=True)
        self.fleet, self.stopped, self.chance = fleet, threading.Event(), random.Random(f"{seed} {number}")
        self.model, self.numbers = Model(f"wanderer-{number}", fleet.ends), itertools.count(1)
        self.last, self.clients, self.asked, self.answered = None, [], 0, 0

    def run(self):
        with contextlib.ExitStack() as stack:
            self.clients = [stack.enter_context(Client(port)) for port in self.fleet.ports]
            while not self.stopped.wait(self.chance.uniform(0, MOST_PAUSE)):
                self.asks(self.next())

    def next(self):
        """What it asks next: the same again that was not answered, or another."""
        if self.last and self.chance.randrange(100) < AGAIN:
            return self.last.again()
        lifetime = self.chance.randrange(LEAST_LIFETIME, MOST_LIFETIME)
        kind, model = self.chance.choices(list(KINDS), KINDS.values())[0], self.model
        if kind not in (REGISTERS, UPDATES, DEREGISTERS) and model.ended:
            return Sent(UPDATES, self.chance.choice(model.ended))
        if model.identifier is None or kind == REGISTERS:
            return Sent(REGISTERS, None, lifetime, self.chance.choice(OBJECTS))
        if kind == DEREGISTERS:
            return Sent(DEREGISTERS, model.identifier)
        return Sent(UPDATES, model.identifier, self.chance.choice((None, None, lifetime)))

    def asks(self, sent):
        sent.place, sent.number = self.chance.randrange(len(self.clients)), next(self.numbers)
        client, token = self.clients[sent.place], struct.pack("!I", next(TOKENS))
        datagram = coap.spelled(sent.request(self.model.endpoint), int.from_bytes(token[2:], "big"), token)
        settled, is_said = self.model.settled(), client.say(datagram)
        sent.ends = self.fleet.ends[sent.place]
        if not is_said:
            return
        reply = self.reply_from(client, token)
        self.asked, self.answered = self.asked + 1, self.answered + bool(reply)
        self.last = None if reply else sent
        if reply:
            self.model.hears(sent, settled, reply.code, reply.located)
        else:
            self.model.hears_nothing(sent)

    def reply_from(self, client, token):
        """The reply with this token, or none where it does not come for so long, or the port is closed."""
        end = time.monotonic() + self.chance.uniform(LEAST_WAIT, MOST_WAIT)
        while (left := end - time.monotonic()) > 0:
            heard = client.hear(left)
            if heard is CLOSED or heard is None:
                return None
            reply = coap.read(heard)
            if reply and reply.token == token:
                return reply
        return None


class Counted:
    """How often each fault was made."""

    def __init__(self):
        self.counts = {}

    def adds(self, kind):
        self.counts[kind] = self.counts.get(kind, 0) + 1

    def text(self):
        return ", ".join(f"{kind} {self.counts[kind]}" for kind in sorted(self.counts))


def shuffled(chance, kinds):
    """All of these in an order by lot, again and again."""
    while True:
        yield from chance.sample(kinds, len(kinds))


class LinkFaults(threading.Thread):
    """Faults of the connections between servers and Redis, one after another, until it is stopped."""

    KINDS = STANDS, KEEPS, DELAYS, REFUSES, PIECES, HOLDS, CUTS, LOSES
    # how long those last at most after which a server gives up its connection, and others, in seconds
    LONG, LONGEST, MOST = (STANDS, KEEPS), 3.0, 1.2

    def __init__(self, seed, betweens):
        super().__init__(daemon=True)
        self.betweens, self.chance = betweens, random.Random(f"links {seed}")
        self.counted, self.stopped = Counted(), threading.Event()

    def run(self):
        kinds = shuffled(self.chance, self.KINDS)
        while not self.stopped.wait(self.chance.uniform(0, 0.5)):
            between, kind = self.chance.choice(self.betweens), next(kinds)
            self.counted.adds(f"connection {kind}")
            between.does = kind
            self.stopped.wait(self.chance.uniform(0.1, self.LONGEST if kind in self.LONG else self.MOST))
            between.does = PASSES


class HostFaults:
    """Faults of servers and of Redis, one after another."""

    def __init__(self, seed, fleet):
        self.fleet, self.redis, self.chance = fleet, fleet.redis, random.Random(f"hosts {seed}")
        self.counted, self.unserved = Counted(), []
        self.kinds = {
            "server stopped": self.stops_server,
            "server killed": self.kills_server,
            "all servers killed": self.kills_all,
            "redis stopped": self.stops_redis,
            "redis killed": self.kills_redis,
            "connections closed": self.closes_connections,
        }

    def go_on(self, seconds):
        end, kinds = time.monotonic() + seconds, shuffled(self.chance, list(self.kinds))
        while time.monotonic() < end:
            self.waits(0.1, 0.8)
            kind = next(kinds)
            self.counted.adds(kind)
            self.kinds[kind]()

    def waits(self, least, most):
        time.sleep(self.chance.uniform(least, most))

    def stops_server(self):
        """Some stand still for longer than what lies in a socket is good for."""
        server = self.chance.choice(self.fleet.servers)
        server.run.send_signal(signal.SIGSTOP)
        self.waits(0.1, 4.5)
        server.run.send_signal(signal.SIGCONT)

    def kills(self, *places):
        self.fleet.kills(*places)
        self.waits(0, 0.5)
        self.unserved += self.fleet.starts(*places)

    def kills_server(self):
        self.kills(self.chance.randrange(SERVERS))

    def kills_all(self):
        self.kills(*range(SERVERS))

    def stops_redis(self):
        self.redis.stop()
        self.waits(0.1, 3)
        self.redis.goes_on()

    def kills_redis(self):
        self.redis.kill()
        self.waits(0, 1.5)
        self.redis.start()

    def closes_connections(self):
        self.redis.ask("CLIENT", "KILL", "TYPE", "normal")


class Linked(Fleet):
    """A fleet whose servers have each a connection to Redis of their own that may be disturbed."""

    def __init__(self, scene, redis, betweens):
        super().__init__(scene, redis, len(betweens))
        # `begun` has all servers that were ever started
        self.betweens, self.begun = betweens, []

    def address(self, place):
        return self.betweens[place].address

    def starts(self, *places):
        unserved = super().starts(*places)
        self.begun += [self.servers[it] for it in places]
        return unserved

    def settles(self, places):
        """What servers that were killed have said to Redis comes there before anybody hears of their ends."""
        is_soon(lambda: all(self.betweens[it].is_idle for it in places))
        super().settles(places)


def wandering(scene):
    """Devices go from server to server under faults by lot, and each is told what fits to what it was told."""
    for seed in SEEDS:
        with scene.redis() as redis, contextlib.ExitStack() as stack:
            betweens = [stack.enter_context(Between(redis.port)) for _ in range(SERVERS)]
            wanders(scene, seed, stack.enter_context(Linked(scene, redis, betweens)))


def wanders(scene, seed, fleet):
    devices = [Wanderer(number, seed, fleet) for number in range(DEVICES)]
    links, hosts = LinkFaults(seed, fleet.betweens), HostFaults(seed, fleet)
    with running(*devices):
        with running(links):
            hosts.go_on(LASTS)
        time.sleep(MOST_WAIT)
    asked, answered = sum(it.asked for it in devices), sum(it.answered for it in devices)
    what = f"seed {seed}"
    scene.says(f"{what}: {asked} requests, {answered} answered; {hosts.counted.text()}, {links.counted.text()}")
    models = [it.model for it in devices]
    wrong, given = [it for model in models for it in model.wrong], [it for model in models for it in model.given]
    scene.is_true(f"{what}: answers to devices", answered >= LEAST_ANSWERED, answered)
    scene.holds(f"{what}: answers that nothing explains", (len(wrong), wrong[:3]), (0, []))
    scene.holds(f"{what}: identifiers that were given twice", len(given) - len(set(given)), 0)
    scene.holds(f"{what}: starts that do not serve", hosts.unserved, [])
    scene.holds(f"{what}: servers that have ended by themselves", ended(fleet.servers), [])
    losers = [it.errors()[-200:] for it in fleet.begun if "log lost\n" in it.errors()]
    scene.holds(f"{what}: servers that tell of a loss, where nothing is lost", losers, [])
    shows_as_told(scene, what, fleet, models, set(given))


def shows_as_told(scene, what, fleet, models, told):
    """All servers, and a newcomer, come to show the same, which is what each device was told."""
    begun = time.monotonic()
    is_soon(lambda: are_alike(fleet.servers), MOST_SETTLING)
    seconds = time.monotonic() - begun
    with scene.sharing(fleet.redis.address) as newcomer:
        servers = [*fleet.servers, newcomer]
        same = is_soon(lambda: are_alike(servers), SOON)
        scene.is_true(f"{what}: all servers and a newcomer show the same, after {seconds:.1f} s", same, "not")
        shown = [listed(it) for it in servers]
    wrong = [(place, it.endpoint) for place, found in enumerate(shown) for it in models if not fits(it, found, told)]
    scene.holds(f"{what}: devices that are shown otherwise than they were told", (len(wrong), wrong[:3]), (0, []))
    others = [sorted(set(found) - {it.endpoint for it in models})[:3] for found in shown]
    scene.holds(f"{what}: devices that are shown and were never there", others, [[]] * len(servers))


def fits(model, found, told):
    return model.explains(found.get(model.endpoint), told)


def are_alike(servers):
    """Whether all tell of the same registrations, member by member."""
    found = [listed(it) for it in servers]
    return None not in found and all(it == found[0] for it in found)

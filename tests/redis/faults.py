"""A Redis that is away, or refuses for a while, and comes back."""

import contextlib
import json
import socket
import threading
import time

from asking import Client, identifiers
from coap import OBSERVE, deregister, register, update
from devices import Observed, cancel, notices, observations, observe, token_of
from scene import running
from scenes import FOUND, SOON, ended, is_answered, is_soon
from visiting import ask, refused

AWAY = refused("503 Service Unavailable", "away")
# how long a server waits at a start, and how much longer the last reply may take that it waits for, in seconds
PATIENCE, LAST_REPLY = 10, 5
# how long a Redis is away at least, and at most, in seconds
LEAST_AWAY, MOST_AWAY = 3, 15
# A Redis that loads answers behind each 1,024 commands. So there are more, and each takes so many microseconds.
FILLING, LOADING_SLOWLY = 12_000, ("--key-load-delay", "250")
# how many connections a Redis takes that is not told otherwise
MOST_CLIENTS = 10_000


class Speaker(threading.Thread):
    """Somebody who is no Redis, and says so to all who come."""

    def __init__(self):
        super().__init__(daemon=True)
        self.stopped, self.front = threading.Event(), socket.create_server(("127.0.0.1", 0))
        self.port = self.front.getsockname()[1]
        self.front.settimeout(0.05)

    def run(self):
        while not self.stopped.is_set():
            with contextlib.suppress(OSError):
                visitor, _ = self.front.accept()
                with visitor:
                    visitor.sendall(b"HTTP/1.1 400 Bad Request\r\n\r\n")
        self.front.close()


class Watcher(threading.Thread):
    """A visitor who asks who is registered until he is stopped."""

    def __init__(self, server):
        super().__init__(daemon=True)
        self.server, self.stopped, self.answers = server, threading.Event(), []

    def run(self):
        while not self.stopped.wait(0.02):
            self.answers.append(ask(self.server.visited, "/v1/registrations"))

    @property
    def has_heard(self):
        return AWAY in self.answers

    def others(self):
        """What else he was told once he was told that the server is away."""
        return [it for it in self.answers[self.answers.index(AWAY) :] if it != AWAY] if self.has_heard else []


def nobody(scene):
    """Where no Redis is at the address, a start ends after ten seconds, and not before."""
    closed = scene.closed_port()
    with socket.create_server(("127.0.0.1", 0)) as silent, contextlib.ExitStack() as stack:
        speaker = Speaker()
        stack.enter_context(running(speaker))
        ports = {"nobody": closed, "somebody silent": silent.getsockname()[1], "no Redis": speaker.port}
        begun = time.monotonic()
        runs = {it: stack.enter_context(scene.sharer(f"127.0.0.1:{port}")) for it, port in ports.items()}
        ended = {}
        while len(ended) < len(runs) and time.monotonic() < begun + PATIENCE + SOON:
            for it in [it for it, server in runs.items() if it not in ended and server.run.poll() is not None]:
                ended[it] = time.monotonic() - begun
            time.sleep(0.01)
        for it, server in runs.items():
            scene.holds(f"the end where {it} is at the address", server.ends(0.1), (1, "redis away"))
            seconds = ended.get(it, 0)
            is_right = PATIENCE <= seconds <= PATIENCE + LAST_REPLY
            scene.is_true(f"it comes after {PATIENCE} seconds ({seconds:.1f})", is_right, f"{seconds:.1f} s")
            scene.holds("and nothing else is told", server.errors(), "redis away\n")


def late(scene):
    """A Redis that is started within ten seconds is soon enough."""
    redis = scene.empty_redis()
    with contextlib.ExitStack() as stack:
        stack.callback(redis.kill)
        server = stack.enter_context(scene.sharer(redis.address, FOUND))
        time.sleep(LEAST_AWAY)
        found = server.run.poll(), server.errors()
        scene.holds("a server that waits for its Redis, and what it says", found, (None, ""))
        redis.start()
        scene.is_true("it serves once Redis is there", server.serves(SOON), server.errors()[-200:])
        with Client(server.port) as client:
            scene.holds("a Register then", client.code_of(register("late")), "2.01")


class Known:
    """What devices were told by several servers: the identifiers that are registered, and those that were removed."""

    def __init__(self, servers, count=40):
        self.known, self.removed = [], []
        for number, server in enumerate(servers):
            with Client(server.port) as client:
                requests = [register(f"told-{number}-{it}") for it in range(count)]
                found = identifiers(client.ask_all(requests, at_once=25))
            self.known += found[count // 4 :]
            # each is removed at another server than it was registered at
            with Client(servers[number - 1].port) as client:
                replies = client.ask_all([deregister(it) for it in found[: count // 4]])
            self.removed += [it for it, reply in zip(found, replies) if reply and reply.code == "2.02"]
        self.all = len(self.known) + len(self.removed) == count * len(servers)


@contextlib.contextmanager
def told(scene, what, **further):
    """A Redis, three servers over it, and what they have told devices."""
    with scene.redis(**further) as redis, scene.several(redis.address, 3) as servers:
        found = Known(servers)
        scene.is_true(f"{what}: all devices are told", found.all, (len(found.known), len(found.removed)))
        scene.agree(what, servers)
        yield redis, servers, found


def nothing_is_told(scene, what, servers, known, seconds):
    """Meanwhile no device is answered, and visitors are told that the servers are away."""
    watchers, codes = [Watcher(it) for it in servers], []
    begun = time.monotonic()
    with contextlib.ExitStack() as stack:
        clients = [stack.enter_context(Client(it.port)) for it in servers]
        stack.enter_context(running(*watchers))
        while (passed := time.monotonic() - begun) < seconds or not all(it.has_heard for it in watchers):
            codes += [client.code_of(update(known[len(codes) % len(known)]), 0.1) for client in clients]
            if passed > MOST_AWAY:
                break
    answered = [it for it in codes if it != "none"]
    scene.holds(f"{what}: of {len(codes)} Updates those that are answered", answered, [])
    found = [it.answers[-1:] for it in watchers if not it.has_heard]
    scene.holds(f"{what}: servers that do not tell visitors of it", found, [])
    found = [it.others()[:1] for it in watchers if it.others()]
    scene.holds(f"{what}: servers that tell visitors else afterwards", found, [])


def all_goes_on(scene, what, redis, servers, found):
    """Each server answers again by itself, and knows all, and so does a newcomer."""
    begun = time.monotonic()
    answered = [is_answered(it, update(found.known[0])) for it in servers]
    scene.holds(f"{what}: each server soon answers again ({time.monotonic() - begun:.1f} s)", answered, [True] * 3)
    lines = [{it: f"{it}\n" in server.errors() for it in ("log away", "log back")} for server in servers]
    scene.holds(f"{what}: what they log", lines, [{"log away": True, "log back": True}] * 3)
    is_mended(scene, what, servers)
    scene.all_know(what, redis.address, servers, found.known, found.removed)


def is_mended(scene, what, servers):
    """Who logs that the log has lost something, writes all anew."""
    losers = [it for it in servers if "log lost\n" in it.errors()]
    if losers:
        found = [is_soon(lambda it=it: it.compactions()) for it in losers]
        scene.holds(f"{what}: those write all anew that tell of a loss", found, [True] * len(losers))


def stopped(scene):
    """A Redis that answers nothing for a while."""
    with told(scene, "a Redis that is stopped") as (redis, servers, found):
        redis.stop()
        try:
            nothing_is_told(scene, "a Redis that is stopped", servers, found.known, LEAST_AWAY)
        finally:
            redis.goes_on()
        all_goes_on(scene, "a Redis that goes on", redis, servers, found)


def killed(scene):
    """A Redis that is killed, and started again over its folder."""
    with told(scene, "a Redis that is killed") as (redis, servers, found):
        redis.kill()
        nothing_is_told(scene, "a Redis that is killed", servers, found.known, 1)
        redis.start()
        all_goes_on(scene, "a Redis that is started again", redis, servers, found)


# settings by which a Redis takes nothing, and what makes it take all again
TAKES_NOTHING = {"without room": ("maxmemory", 1, 0), "without its replicas": ("min-replicas-to-write", 1, 0)}


def full(scene):
    """A Redis that takes nothing has what a server has made of a request told nobody, and ends no server."""
    for what, (setting, nothing, all_again) in TAKES_NOTHING.items():
        with told(scene, f"a Redis {what}") as (redis, servers, found):
            redis.sets(setting, nothing)
            before = redis.length()
            nothing_is_told(scene, f"a Redis {what}", servers, found.known, 1)
            scene.holds(f"a Redis {what}: what it took", redis.length() - before, 0)
            redis.sets(setting, all_again)
            all_goes_on(scene, f"a Redis that was {what}", redis, servers, found)


def crowded(scene):
    """A Redis all of whose connections are taken refuses who has to connect again, and ends no server."""
    what = "a Redis whose connections are taken"
    with told(scene, what) as (redis, servers, found), redis.asking() as asks:
        # those that are there stay, so this one alone is left
        asks([("CONFIG", "SET", "maxclients", 1), ("CLIENT", "KILL", "TYPE", "normal", "SKIPME", "yes")])
        nothing_is_told(scene, what, servers, found.known, LEAST_AWAY)
        scene.holds(f"{what}: servers that have ended", ended(servers), [])
        asks([("CONFIG", "SET", "maxclients", MOST_CLIENTS)])
        all_goes_on(scene, f"{what} for a while", redis, servers, found)


def loading(scene):
    """A Redis that loads its data answers, and nothing but that."""
    with told(scene, "a Redis that will load") as (redis, servers, found):
        redis.ask_all([("SET", "filling", it) for it in range(FILLING)])
        redis.kill()
        redis.start(*LOADING_SLOWLY, serves=False)
        state = redis.state() or b""
        scene.is_true("a Redis that loads says so", state.startswith(b"LOADING"), state)
        with scene.sharer(redis.address) as newcomer, contextlib.ExitStack() as stack:
            clients = [stack.enter_context(Client(it.port)) for it in servers]
            codes = []
            while (redis.state() or b"").startswith(b"LOADING"):
                codes += [client.code_of(update(found.known[0]), 0.1) for client in clients]
            # what is answered to the last ones may have come when all was loaded
            codes = codes[: -len(clients)]
            scene.is_true(f"{len(codes)} Updates meanwhile", codes and set(codes) == {"none"}, set(codes))
            scene.is_true("a newcomer waits, and serves", newcomer.serves(SOON), newcomer.errors()[-200:])
            scene.knows("a newcomer that has waited", newcomer, found.known, found.removed)
        all_goes_on(scene, "a Redis that has loaded", redis, servers, found)


def commanded(scene):
    """A command that comes while Redis is away, or has no room, is answered so, and no request for it is made."""
    ways = (
        ("stopped", lambda redis: redis.stop(), lambda redis: redis.goes_on()),
        ("without room", lambda redis: room(redis, 1), lambda redis: room(redis, 0)),
        ("killed", lambda redis: redis.kill(), lambda redis: redis.start()),
    )
    for what, ends, begins in ways:
        with scene.redis() as redis, scene.sharing(redis.address, "--http-commands") as server:
            with Observed(server.port, "lamp") as lamp:
                token = token_of(observe(server, lamp))
                lamp.answers(lamp.heard(), b"1", ((OBSERVE, b"\x01"),))
                notices(server, 1)
                ends(redis)
                try:
                    found = [observe(server, lamp, f"/3/{it}") for it in (1, 2, 1)] + [cancel(server, token)]
                    scene.holds(f"commands where Redis is {what}", found, [AWAY] * 4)
                    scene.holds("what the device hears of them", lamp.hears_nothing(1), None)
                finally:
                    begins(redis)
                is_soon(lambda: ask(server.visited, observations(lamp)).status == "200 OK")
                commanded_again(scene, server, lamp, token)


def room(redis, size):
    redis.sets("maxmemory", size)


def commanded_again(scene, server, lamp, token):
    """Once Redis goes on, a command that was refused is given again, and is carried out."""
    scene.holds("what the device hears once Redis goes on", lamp.hears_nothing(1), None)
    shown = json.loads(ask(server.visited, observations(lamp)).body)["observations"]
    scene.holds("observations that the device was not asked for", [it for it in shown if it["token"] != token], [])
    response = observe(server, lamp, "/3/1")
    request = lamp.heard()
    found = response.status, request and request.token.hex()
    scene.holds("a command that is given again", found, ("201 Created", token_of(response)))
    lamp.answers(request, b"1", ((OBSERVE, b"\x01"),))
    response, request = cancel(server, token), lamp.heard(1)
    found = response.status, request and request.token.hex()
    scene.holds("an end that is asked for again", found, ("204 No Content", token))
    shown = json.loads(ask(server.visited, observations(lamp)).body)["observations"]
    scene.holds("paths that are observed then", [it["path"] for it in shown], ["/3/1"])

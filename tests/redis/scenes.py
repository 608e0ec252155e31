"""What parts of this test have in common: a Redis, servers over it, and what they know."""

import contextlib
import json
import pathlib
import socket
import tempfile
import time

import tools
from asking import Client, codes_of
from coap import update
from keeper import KEY, Redis, lasting_port
from scene import NoServer, Scene
from serving import ends_with_the_test
from visiting import ask

VISITS = ("--http", "127.0.0.1:0")
# the word by which a server founds a fleet, and how many entries a stream has then: a start, and a delta
FOUND, FOUNDED = "--found", 2
# how long is waited for what is to come soon, in seconds: a server looks for a Redis each five seconds at least
SOON = 20.0
# how long it takes at most until a server knows what another one was told, on a busy machine
SPREAD = 2.0


def is_soon(truth, wait=SOON):
    """Whether it becomes true in that time."""
    end = time.monotonic() + wait
    while not truth():
        if time.monotonic() > end:
            return False
        time.sleep(0.02)
    return True


class RedisScene(Scene):
    """A scene that has Redis, where it is there."""

    def __init__(self, program, folder):
        super().__init__("redis", program, folder)
        self.tool = tools.tool(("redis-server",), "redis-server")

    @contextlib.contextmanager
    def redis(self, **further):
        """A Redis of its own, in which a fleet is founded. No server of it runs yet."""
        with self.empty_redis(**further) as redis:
            self.founds(redis)
            yield redis

    def empty_redis(self, **further):
        """A Redis of its own, which is not started yet, and has nothing."""
        return Redis(self.tool, pathlib.Path(tempfile.mkdtemp(prefix="redis-", dir=self.folder)), **further)

    def founds(self, redis, *words, key=KEY):
        """A fleet is founded by a server that is told to, and ends once the stream tells of it."""
        with self.sharing(redis.address, FOUND, "--stream", key, *words) as server:
            if not is_soon(lambda: redis.length(key) >= FOUNDED):
                raise NoServer(f"no fleet was founded: {server.errors()[-200:]}")

    @staticmethod
    def closed_port():
        """A port of TCP at which nobody is."""
        return lasting_port(socket.SOCK_STREAM)

    def sharer(self, address, *words):
        """A server over the Redis at an address."""
        words = ("--redis", address, "--port", "0", *VISITS, *words)
        return self.server(*words, before=ends_with_the_test)

    def sharing(self, address, *words, **further):
        """A server over the Redis at an address, which serves."""
        words = ("--redis", address, "--port", "0", *VISITS, *words)
        return self.serving(*words, before=ends_with_the_test, **further)

    @contextlib.contextmanager
    def several(self, address, count, *words):
        """So many servers over the Redis at an address, which serve, and know of one fleet."""
        with contextlib.ExitStack() as stack:
            servers = [stack.enter_context(self.sharing(address, *words)) for _ in range(count)]
            settle(servers)
            yield servers

    def knows(self, what, server, known, removed=()):
        """A server knows what devices were told, as its answers to Updates show."""
        found = codes_told(server.port, known), codes_told(server.port, removed)
        self.holds(f"{what}: what was told is known", found, (all_of(known, "2.04"), all_of(removed, "4.04")))

    def newcomer_knows(self, what, address, known, removed=()):
        """A server that begins now knows what devices were told, and whoever asks it over HTTP is told the same."""
        with self.sharing(address) as server:
            seen = set(shown(server).values())
            found = len(set(known) - seen), len(set(removed) & seen)
            self.holds(f"{what}: what a newcomer lacks, and what it shows that was removed", found, (0, 0))
            self.knows(f"{what}, at a newcomer", server, known, removed)

    def all_know(self, what, address, servers, known, removed=()):
        """A newcomer knows what devices were told, and so does each server. The newcomer comes first.

        An Update has its registration written anew, which a newcomer would then find in the stream in any case.
        """
        self.newcomer_knows(what, address, known, removed)
        for number, server in enumerate(servers, 1):
            self.knows(f"{what}, at server {number}", server, known, removed)
        self.agree(what, servers)

    def agree(self, what, servers):
        """All servers soon show the same registrations, which are given."""
        is_soon(lambda: len({tuple(sorted(shown(it).items())) for it in servers}) == 1, SPREAD)
        found = [shown(it) for it in servers]
        differing = [sorted(set(found[0].items()) ^ set(it.items()))[:3] for it in found if it != found[0]]
        self.holds(f"{what}: {len(servers)} servers show the same {len(found[0])} registrations", differing, [])
        return found[0]


def ended(servers):
    """How those have ended that have."""
    return [it.ends(0) for it in servers if it.run.poll() is not None]


def settle(servers):
    """The first of these servers enters the stream, and the others have read that."""
    with Client(servers[0].port) as client:
        client.ping()
    if not is_soon(lambda: all(counter(it) and counter(it) >= counter(servers[0]) for it in servers)):
        raise NoServer("a server does not read the stream")


def counter(server):
    """The greatest counter that a server knows, or none."""
    response = ask(server.visited, "/v1/node")
    return json.loads(response.body)["counter"] if response.status == "200 OK" else None


def all_of(found, code):
    return {code: len(found)} if found else {}


def codes_told(port, found):
    with Client(port) as client:
        return codes_of(client.ask_all([update(it) for it in found], at_once=25, wait=10))


def listed(server):
    """The registrations that the server tells of over HTTP, each as its members, by endpoint. None where it is away."""
    found, path = {}, "/v1/registrations?limit=256"
    while path:
        response = ask(server.visited, path)
        if response.status != "200 OK":
            return None
        told_of = json.loads(response.body)
        found.update((it["endpoint"], it) for it in told_of["registrations"])
        path = f"/v1/registrations?limit=256&after={told_of['next']}" if told_of["next"] else None
    return found


def shown(server):
    """The identifiers that the server tells of over HTTP, by endpoint."""
    found = listed(server)
    return {"server": "away"} if found is None else {name: it["id"] for name, it in found.items()}


def measure(server, name):
    """A measure that the server tells over HTTP, or none."""
    lines = (it.partition(" ") for it in ask(server.visited, "/metrics").body.decode().splitlines())
    return next((float(value) for sample, _, value in lines if sample == name), None)


def is_answered(server, request, code="2.04"):
    """Whether a request, sent again and again as a device does, is soon answered so."""
    with Client(server.port) as client:
        return is_soon(lambda: client.code_of(request, 1.0) == code)

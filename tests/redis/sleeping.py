"""A server that stood still, as one whose machine is moved: what came meanwhile is old, and what it knows too."""

import signal
import threading
import time

from asking import Client, codes_of, identifiers
from coap import deregister, register, spelled, update
from faults import LEAST_AWAY, told
from scenes import is_soon, measure
from visiting import WAIT, ask

# how long a server stands still for which what lies in its socket is old, in seconds
STOOD_STILL = 5
# how many ask it meanwhile
VISITORS = 4
LINE = "stood still for="


def sleeper(scene):
    """A server that stood still knows what it missed before it answers, and the others go on meanwhile."""
    with told(scene, "a server that stands still") as (redis, servers, found):
        servers[2].run.send_signal(signal.SIGSTOP)
        with Client(servers[0].port) as client:
            missed = identifiers(client.ask_all([register(f"missed-{it}") for it in range(40)]))
            ended = client.ask_all([deregister(it) for it in found.known[:10]])
        time.sleep(LEAST_AWAY)
        servers[2].run.send_signal(signal.SIGCONT)
        codes = codes_of(ended)
        scene.holds("Registers and removals meanwhile", (len(missed), codes), (40, {"2.02": 10}))
        known, removed = [*found.known[10:], *missed], [*found.removed, *found.known[:10]]
        # what is asked at once may be passed over with what came before
        is_soon(lambda: is_pinged(servers[2]))
        scene.knows("a server that goes on", servers[2], known, removed)
        scene.all_know("a server that has gone on", redis.address, servers, known, removed)


def is_pinged(server):
    with Client(server.port) as client:
        return client.ping(1.0)


def asked_in_vain(scene):
    """What lay in the socket of a server that stood still is passed over: the device has gone to another meanwhile."""
    what = "a server that stood still"
    with told(scene, what) as (redis, servers, found), Client(servers[0].port) as device:
        servers[0].run.send_signal(signal.SIGSTOP)
        device.say(spelled(register("lamp"), 1, b"lamp"))
        with Client(servers[1].port) as other:
            known = identifiers([other.ask(register("lamp"))])
            time.sleep(STOOD_STILL)
            before = measure(servers[1], "fleet_dropped_total")
            servers[0].run.send_signal(signal.SIGCONT)
            is_soon(lambda: LINE in servers[0].errors())
            scene.is_true(f"{what} says so", LINE in servers[0].errors(), servers[0].errors()[-200:])
            scene.holds(f"{what}: what it answers to what is old", device.hear(1.0), None)
            dropped = measure(servers[0], "fleet_dropped_total")
            scene.holds(f"{what}: datagrams that are counted as passed over, and at another", (dropped, before), (1, 0))
            scene.holds(f"{what}: an Update at the other", other.code_of(update(*known)), "2.04")
        scene.holds(f"{what}: an Update there", device.code_of(update(*known)), "2.04")
        scene.all_know(what, redis.address, servers, [*found.known, *known], found.removed)


def visited_in_vain(scene):
    """Visitors who asked a server while it stood still are told what is so when it goes on."""
    what = "visitors of a server that stood still"
    with told(scene, what) as (_, servers, found), Client(servers[1].port) as client:
        known = identifiers([client.ask(register("lamp"))])
        target, statuses = "/v1/registrations/lamp", []
        is_soon(lambda: ask(servers[0].visited, target).status == "200 OK")
        # so that nothing is under way where it stops
        time.sleep(0.5)
        servers[0].run.send_signal(signal.SIGSTOP)
        scene.holds(f"{what}: a removal meanwhile", client.code_of(deregister(*known)), "2.02")
        time.sleep(STOOD_STILL)
        visits = [lambda: statuses.append(ask(servers[0].visited, target).status)] * VISITORS
        visitors = [threading.Thread(target=it) for it in visits]
        for it in visitors:
            it.start()
        time.sleep(0.5)
        servers[0].run.send_signal(signal.SIGCONT)
        for it in visitors:
            it.join(WAIT)
        told_of = "what they are told of what was removed"
        scene.holds(f"{what}: {told_of}", statuses, ["404 Not Found"] * VISITORS)
        scene.knows(f"{what}: afterwards", servers[0], found.known, [*found.removed, *known])

"""A Redis that is away, or takes nothing, while devices are asked, tell, or are silent: what was told stays told."""

import json
import time

from coap import CONFIRMABLE, NOT_FOUND, OBSERVE, Message, bytes_of, update
from devices import Observed, answer_of, notices, observations, observe, token_of
from entries import is_away
from faults import AWAY, room
from repeats import GATEWAY_TIMEOUT, LATER, LEAST_SPAN, MAX_RETRANSMIT, MOST_TIME, MOST_WAIT
from scenes import SOON, is_answered, is_soon, measure
from visiting import ask

# how long the processor is looked at while Redis is away, and how much of it may be used, in seconds
LOOKED_AT, MOST_USED = 5, 0.5
# 2.05
VALUE = 0x45
# a path that is not observed otherwise
OTHER_PATH = "/3/0/13"
# how long a device waits for an answer before it sends again, and how long what is not to come is waited for
AGAIN, NOTHING = 1.0, 1.0


def observed(server, device):
    """The token of an observation that its device has answered."""
    token = token_of(observe(server, device))
    device.answers(device.heard(), b"1", ((OBSERVE, b"\x01"),))
    notices(server, 1)
    return token


def told_of(server, token, count):
    """The code of each notification of an observation, and whether it has ended, once there are so many."""
    is_soon(lambda: len(notices_of(server, token)) >= count)
    time.sleep(NOTHING)
    return notices_of(server, token)


def notices_of(server, token):
    found = (it["notice"] for it in notices(server, 0))
    return [(it["code"], it["ended"]) for it in found if it["token"] == token]


def due_while_away(scene):
    """A request to a device that is due while Redis is away waits, what comes is counted, and the server sleeps."""
    with scene.redis() as redis, scene.sharing(redis.address, "--http-commands") as server:
        with Observed(server.port, "silent") as silent, Observed(server.port, "other", own=2) as other:
            observe(server, silent)
            first = silent.hear(SOON)
            redis.kill()
            scene.is_true("a server whose Redis is killed says so", is_away(server), server.errors()[-200:])
            time.sleep(MOST_WAIT)
            before = server.processor_seconds()
            codes = [other.code_of(update(other.id), 1.0) for _ in range(LOOKED_AT)]
            used = server.processor_seconds() - before
            what = f"{LOOKED_AT} s of a Redis that is away, while a request is due, take {used:.2f} s of the processor"
            scene.is_true(what, used < MOST_USED, f"{MOST_USED} s or more")
            scene.holds("Updates meanwhile", codes, ["none"] * LOOKED_AT)
            is_soon(lambda: measure(server, "fleet_dropped_total") >= LOOKED_AT, NOTHING)
            dropped = measure(server, "fleet_dropped_total")
            scene.is_true(f"datagrams that are counted as passed over: {dropped:.0f}", dropped >= LOOKED_AT, LOOKED_AT)
            redis.start()
            scene.holds("the request once Redis is there", silent.hear(SOON), first)
        scene.holds("an Update then", is_answered(server, update(other.id)), True)


def ended_without_room(scene):
    """A device that ends its observation while Redis takes nothing is heard, and its end is told once."""
    with scene.redis() as redis, scene.sharing(redis.address, "--http-commands") as server:
        with Observed(server.port, "lamp") as lamp:
            token = observed(server, lamp)
            mid = next(lamp.mids)
            datagram = bytes_of(Message(CONFIRMABLE, NOT_FOUND, mid, bytes.fromhex(token)))
            room(redis, 1)
            lamp.say(datagram)
            scene.is_true("an end that Redis does not take", is_away(server), server.errors()[-200:])
            scene.holds("what the device hears of it meanwhile", lamp.hears_nothing(NOTHING), None)
            room(redis, 0)
            # it sends again until it is answered (RFC 7252, section 4.2)
            answered = is_soon(lambda: lamp.say(datagram) and answer_of(lamp.heard(AGAIN), mid) in ANSWERS)
            scene.holds("the device is answered at last", answered, True)
            found = told_of(server, token, 2)
            scene.holds("what is told of it: a value, and its end once", found, [(VALUE, False), (NOT_FOUND, True)])
            status = ask(server.visited, f"/v1/tokens/{token}").status
            scene.holds("GET of its token", status, "404 Not Found")


ANSWERS = "acknowledged", "reset"


def silent_without_room(scene):
    """A device whose time to answer is over while Redis takes nothing: the end of its observation is told once."""
    with scene.redis() as redis, scene.sharing(redis.address, "--http-commands") as server:
        with Observed(server.port, "silent") as silent:
            token, begun = token_of(observe(server, silent)), time.monotonic()
            time.sleep(LEAST_SPAN)
            again = is_soon(lambda: measure(server, "fleet_requests_sent_again_total") >= MAX_RETRANSMIT)
            scene.holds("a request is sent again as often as it may be", again, True)
            scene.holds("what is told of it until then", notices_of(server, token), [])
            room(redis, 1)
            is_over = is_away(server, MOST_TIME + LATER - (time.monotonic() - begun))
            scene.is_true("the end that Redis does not take of a silent device", is_over, server.errors()[-200:])
            room(redis, 0)
            found = told_of(server, token, 1)
            scene.holds("what is told of it: its end once", found, [(GATEWAY_TIMEOUT, True)])
            status = ask(server.visited, f"/v1/tokens/{token}").status
            scene.holds("GET of the token of a device that is silent", status, "404 Not Found")


def refused_without_room(scene):
    """A command to observe that fails, since Redis takes nothing, leaves nothing behind, and ends nothing else."""
    with scene.redis() as redis, scene.sharing(redis.address, "--http-commands") as server:
        with Observed(server.port, "lamp") as lamp:
            token = observed(server, lamp)
            before = shown(server, lamp)
            room(redis, 1)
            scene.holds("a command that Redis does not take", observe(server, lamp, path=OTHER_PATH), AWAY)
            scene.holds("what the device hears of it", lamp.hears_nothing(NOTHING), None)
            room(redis, 0)
            is_soon(lambda: ask(server.visited, observations(lamp)).status == "200 OK")
            scene.holds("what is observed once there is room", is_soon(lambda: shown(server, lamp) == before), True)
            scene.holds("a notification of what was observed", lamp.told(token, 2, b"2"), "acknowledged")
            scene.holds("what is told of it: two values", told_of(server, token, 2), [(VALUE, False)] * 2)


def shown(server, device):
    """The observations of a device's registration, as they are told."""
    return json.loads(ask(server.visited, observations(device)).body)["observations"]


REFUSING = due_while_away, ended_without_room, refused_without_room
# it waits more than it works
WAITING = (silent_without_room,)

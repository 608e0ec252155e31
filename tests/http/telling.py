"""What goes on whatever else comes: the moment, what is due at it, and the answers to devices."""

import contextlib
import itertools
import json
import os
import random
import selectors
import signal
import threading
import time

from asking import Client
from checks import milliseconds
from coap import ACKNOWLEDGEMENT, CONTENT, EMPTY, GET, NOT_CONFIRMABLE, OBSERVE, RESET, Message
from coap import bytes_of, register, spelled, update
from devices import COMMANDS, OBSERVES, Observed, is_soon, notifications, observe, token_of
from exposition import measures_of
from repeats import EARLIER, GATEWAY_TIMEOUT, LATER, LEAST_SPAN, MAX_RETRANSMIT, MOST_SPAN, MOST_TIME, are_in_time
from repeats import repeats_of
from scene import running
from serving import ends_with_the_test
from visiting import ask

# how long nothing comes but what is no request, and how far apart, in seconds
TELLING, APART = 10.0, 0.3
# what comes then: notifications alone, or answers between them
NOTIFICATIONS = ((NOT_CONFIRMABLE, CONTENT),)
WITH_ANSWERS = (*NOTIFICATIONS, (RESET, EMPTY), *NOTIFICATIONS, (ACKNOWLEDGEMENT, EMPTY))
# a registration that lives so many seconds, and how much later than it is the server may believe it to be
LIFETIME, BEHIND = 3, 1.5
# how many operators give commands to how many devices, and for how many seconds
OPERATORS, MANY, ORDERED = 8, 200, 10.0
# how long a device may wait for an answer to an Update, and how long is waited for one, in seconds
PROMPT, PATIENCE = 0.5, 2.0
# how many devices are gone
GONE = 100
# what is written of their ends: one entry in a round of all of them, and a few more where they do not come at once
ENTRIES, MOST_ENTRIES = "fleet_log_entries_written_total", 10


class Teller(threading.Thread):
    """Somebody who tells of observations that are none, and answers requests that are none, until he is stopped."""

    def __init__(self, port, kinds):
        super().__init__(daemon=True)
        self.port, self.kinds, self.stopped = port, kinds, threading.Event()

    def run(self):
        with Client(self.port) as client:
            for number, (kind, code) in enumerate(itertools.cycle(self.kinds)):
                if self.stopped.wait(APART):
                    return
                client.say(bytes_of(Message(kind, code, number, b"")))


class Looker(threading.Thread):
    """A visitor who asks what moment it is, and for a registration, until he is stopped."""

    def __init__(self, server, endpoint):
        super().__init__(daemon=True)
        self.server, self.target, self.stopped = server, f"/v1/registrations/{endpoint}", threading.Event()
        self.begun, self.behind, self.gone_after, self.others = time.monotonic(), [], None, []

    def run(self):
        while not self.stopped.wait(0.1):
            before = milliseconds()
            self.behind.append((before - json.loads(ask(self.server.visited, "/v1/health").body)["now"]) / 1_000)
            status = ask(self.server.visited, self.target).status[:3]
            if status == "404" and self.gone_after is None:
                self.gone_after = time.monotonic() - self.begun
            elif status != ("200" if self.gone_after is None else "404"):
                self.others.append(status)


def told_alone(scene):
    """Where nothing but notifications comes, it is as late as it is, and what is due is done."""
    goes_on(scene, "where devices only tell", NOTIFICATIONS)


def answered_alone(scene):
    """The same where Resets and acknowledgements come too."""
    goes_on(scene, "where devices tell and answer", WITH_ANSWERS)


def goes_on(scene, what, kinds):
    """The moment goes on, a registration ends, and a request is sent again."""
    with scene.serving(*OBSERVES, before=ends_with_the_test) as server, Observed(server.port, "silent") as silent:
        looker = Looker(server, "short")
        with Client(server.port) as client:
            code = client.code_of(register("short", LIFETIME))
        with running(Teller(server.port, kinds), looker):
            begun, response = time.monotonic(), observe(server, silent)
            first = silent.hear(5)
            moments, others = repeats_of(silent, first, begun, 2)
            time.sleep(max(0.0, TELLING - (time.monotonic() - begun)))
    scene.holds(f"{what}: a Register and a command", (code, response.status), ("2.01", "201 Created"))
    most, shown = max(looker.behind), ", ".join(f"{it:.2f}" for it in moments)
    scene.is_true(f"{what}: the moment is {most:.2f} s behind at most", most < BEHIND, f"{BEHIND} s or more")
    ended = looker.gone_after
    is_right = ended is not None and LIFETIME - EARLIER <= ended <= LIFETIME + BEHIND
    shows = "never" if ended is None else f"after {ended:.2f} s"
    scene.is_true(f"{what}: a registration of {LIFETIME} s ends {shows}", is_right, f"later than {LIFETIME + BEHIND} s")
    scene.holds(f"{what}: what else is told of it", looker.others, [])
    scene.holds(f"{what}: repeats of a request, and other bytes", (len(moments), others), (2, []))
    scene.is_true(f"{what}: they come when they have to ({shown} s)", are_in_time(moments), moments)


class Answering(threading.Thread):
    """Devices that answer each request that observes, until they are stopped."""

    def __init__(self, devices):
        super().__init__(daemon=True)
        self.devices, self.stopped, self.count = devices, threading.Event(), 0

    def run(self):
        with selectors.DefaultSelector() as selector:
            for it in self.devices:
                selector.register(it.socket, selectors.EVENT_READ, it)
            while not self.stopped.is_set():
                for key, _ in selector.select(0.1):
                    self.answers(key.data)

    def answers(self, device):
        request = device.heard(0)
        if request and request.code == GET:
            device.answers(request, b"1", ((OBSERVE, b"\x01"),))
            self.count += 1


class Operator(threading.Thread):
    """Somebody who has one path after another observed, of one device or another, until he is stopped."""

    def __init__(self, number, server, devices):
        super().__init__(daemon=True)
        self.server, self.devices, self.stopped = server, devices, threading.Event()
        self.chance, self.statuses = random.Random(number), []

    def run(self):
        while not self.stopped.is_set():
            device, path = self.chance.choice(self.devices), f"/3/0/{self.chance.randrange(10)}"
            self.statuses.append(observe(self.server, device, path).status)


def updated(device, seconds):
    """The code of each of a device's Updates, one after another, and how long it waited."""
    found, end = [], time.monotonic() + seconds
    while (begun := time.monotonic()) < end:
        code = device.code_of(update(device.id), PATIENCE)
        found.append((code, round(time.monotonic() - begun, 3)))
        time.sleep(max(0.0, APART - (time.monotonic() - begun)))
    return found


def are_prompt(scene, what, found, least):
    """All of so many Updates at least were answered, each soon."""
    late = [it for it in found if it[0] != "2.04" or it[1] >= PROMPT]
    longest = max(wait for _, wait in found)
    check = f"{what}: Updates that are not answered in {PROMPT} s ({longest:.2f} s is the longest wait)"
    scene.holds(check, (len(late), late[:3]), (0, []))
    scene.is_true(f"{what}: {len(found)} Updates", len(found) >= least, f"fewer than {least}")


def devices_first(scene):
    """A device is answered at once beside operators who give one command after another, and no answer goes unheard."""
    with contextlib.ExitStack() as stack:
        words = ("--data", scene.place("first"), "--port", "0", *COMMANDS)
        server = stack.enter_context(scene.serving(*words))
        devices = [stack.enter_context(Observed(server.port, f"lamp-{it}")) for it in range(MANY)]
        other, answering = stack.enter_context(Observed(server.port, "other")), Answering(devices)
        operators = [Operator(it, server, devices) for it in range(OPERATORS)]
        with running(answering, *operators):
            found = updated(other, ORDERED)
        measured = measures_of(server)
    statuses = [status for it in operators for status in it.statuses]
    are_prompt(scene, f"beside {len(statuses)} commands", found, 1)
    scene.holds("statuses of these", set(statuses), {"201 Created"})
    scene.is_true(f"the devices have answered {answering.count}", answering.count >= len(statuses) // 2, "half of them")
    again = measured["fleet_requests_sent_again_total"]
    scene.is_true(f"requests that were sent again: {again:.0f}", again <= len(statuses) / 100, "more than one of 100")


def gone_at_once(scene):
    """Where many requests are given up at once, each end is told, and another device is answered meanwhile."""
    with contextlib.ExitStack() as stack:
        words = ("--data", scene.place("gone"), "--port", "0", *COMMANDS)
        server = stack.enter_context(scene.serving(*words, before=ends_with_the_test))
        gone = [stack.enter_context(Observed(server.port, f"gone-{it}", asks=False)) for it in range(GONE)]
        for it in gone:
            it.say(spelled(register(it.endpoint), 1, b"\x01", NOT_CONFIRMABLE))
            it.hear(5)
        other = stack.enter_context(Observed(server.port, "other"))
        tokens, begun = [token_of(observe(server, it)) for it in gone], time.monotonic()
        before = measures_of(server)[ENTRIES]
        stands_still(scene, server, begun)
        found = updated(other, 3.0)
        is_soon(lambda: len(ends_of(server)) >= GONE)
        scene.is_true(f"where {GONE} observations end at once: Updates are answered", answers_in(found) > 0, found)
        entries = measures_of(server)[ENTRIES] - before - answers_in(found)
        scene.is_true(f"they take {entries} entries of the log", entries <= MOST_ENTRIES, f"{MOST_ENTRIES} at most")
        want = sorted((it, GATEWAY_TIMEOUT, True) for it in tokens)
        scene.is_true("each end is told once", ends_of(server) == want, ends_of(server))


def answers_in(found):
    """How many Updates were answered."""
    return sum(code == "2.04" for code, _ in found)


def stands_still(scene, server, begun):
    """The server stands still from the last repeat of each request until all of them have had their time."""
    name, count = "fleet_requests_sent_again_total", MAX_RETRANSMIT * GONE
    time.sleep(LEAST_SPAN)
    is_soon(lambda: measures_of(server)[name] >= count, MOST_SPAN + LATER - (time.monotonic() - begun))
    scene.holds(f"repeats of {GONE} requests", measures_of(server)[name], count)
    os.kill(server.run.pid, signal.SIGSTOP)
    time.sleep(max(0.0, begun + MOST_TIME + LATER - time.monotonic()))
    os.kill(server.run.pid, signal.SIGCONT)


def ends_of(server):
    """The token and the code of what is told of observations, and whether they have ended."""
    found = (it["notice"] for it in notifications(server, "?from=0&limit=256")["notifications"])
    return sorted((it["token"], it["code"], it["ended"]) for it in found)


# they wait more than they work
WAITING = told_alone, answered_alone, gone_at_once

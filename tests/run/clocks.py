"""The host's clock, which is set back while a server runs."""

import pathlib
import subprocess
import sys
import tempfile
import time

from asking import Client
from coap import register, spelled
from devices import OBSERVES, Observed, is_soon, notifications, observe, token_of
from faketime import library
from repeats import EARLIER, GATEWAY_TIMEOUT, LATER, LEAST_TIME, MOST_TIME, are_in_time, repeats_of
from serving import ends_with_the_test

# how far the clock is set back, and how much what is measured of clocks may be off, in seconds
BACK, OFF = 3_600, 5.0


class Clock:
    """A host's clock, as it is shown to processes that its wrapper begins. Time that only goes on stays as it is."""

    def __init__(self, path, folder):
        self.file = pathlib.Path(tempfile.mkdtemp(prefix="clock-", dir=folder)) / "offset"
        self.sets(0)
        words = [f"LD_PRELOAD={path}", f"FAKETIME_TIMESTAMP_FILE={self.file}", "FAKETIME_NO_CACHE=1"]
        self.wrapper = ["env", *words, "DONT_FAKE_MONOTONIC=1", "FAKETIME_DONT_FAKE_MONOTONIC=1"]

    def sets(self, seconds):
        """Sets it to so many seconds from what it is. The file is replaced, so that nobody reads a part of it."""
        other = self.file.with_suffix(".new")
        other.write_text(f"{seconds:+d}\n")
        other.rename(self.file)

    def shown(self):
        """How far what a process is shown is from the host's clock, and from the host's time that only goes on."""
        words = [*self.wrapper, sys.executable, "-c", "import time; print(time.time(), time.monotonic())"]
        ran = subprocess.run(words, stdout=subprocess.PIPE, text=True, timeout=20)
        found = [float(it) for it in ran.stdout.split()] or [0.0, 0.0]
        return found[0] - time.time(), found[1] - time.monotonic()

    def is_set_back(self):
        """Whether it shows processes an hour less, and the time that only goes on as it is."""
        self.sets(-BACK)
        clock, monotonic = self.shown()
        self.sets(0)
        return abs(clock + BACK) < OFF and abs(monotonic) < OFF


def set_back(scene):
    """What waits for its time has it though the clock is set back meanwhile, and what was answered is known."""
    path = library()
    if not path:
        scene.passes_over("a clock that is set back, since there is no libfaketime (FLEET_INSTALL=1 has it installed)")
        return
    clock = Clock(path, scene.folder)
    scene.is_true("the clock that processes are shown is set", clock.is_set_back(), clock.shown())
    with scene.server(*OBSERVES, wrapper=clock.wrapper, before=ends_with_the_test) as server:
        if not server.serves() and "AddressSanitizer" in server.errors():
            scene.passes_over("a clock that is set back: this build does not bear that libfaketime is loaded before it")
            return
        under_clock(scene, clock, server)


def under_clock(scene, clock, server):
    """A request that a device never acknowledges, and one of a device that comes again."""
    datagram = spelled(register("told"), 7, b"told")
    with Observed(server.port, "silent") as silent, Client(server.port) as client:
        client.say(datagram)
        reply = client.hear(5)
        token, begun = token_of(observe(server, silent)), time.monotonic()
        first = silent.hear(5)
        clock.sets(-BACK)
        moments, others = repeats_of(silent, first, begun, 2)
        client.say(datagram)
        scene.holds("a clock that went back: the reply to a Register that comes again", client.hear(5), reply)
        shown = ", ".join(f"{it:.2f}" for it in moments)
        scene.holds("a clock that went back: repeats, and other bytes", (len(moments), others), (2, []))
        scene.is_true(f"a clock that went back: they come when they have to ({shown} s)", are_in_time(moments), moments)
        given_up(scene, server, token, begun)
        client.say(datagram)
        scene.holds("a clock that went back: the reply a minute later", client.hear(5), reply)


def given_up(scene, server, token, begun):
    """Once the last wait is over, 62 to 93 seconds after the first, the observation has ended, which is told once."""
    time.sleep(max(0.0, LEAST_TIME - LATER - (time.monotonic() - begun)))
    is_soon(lambda: notifications(server)["notifications"], MOST_TIME + LATER - (time.monotonic() - begun))
    seconds = time.monotonic() - begun
    found = [it["notice"] for it in notifications(server)["notifications"]]
    told = [(it["token"], it["code"], it["ended"]) for it in found]
    scene.holds("a clock that went back: what is told of the observation", told, [(token, GATEWAY_TIMEOUT, True)])
    is_right, right = LEAST_TIME - EARLIER <= seconds <= MOST_TIME + LATER, f"{LEAST_TIME} to {MOST_TIME} s are right"
    scene.is_true(f"a clock that went back: it is told after {seconds:.1f} s", is_right, right)

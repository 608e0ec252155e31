"""One clock for a fleet: servers whose hosts' clocks differ go by that of Redis, and say so."""

import contextlib
import json
import re
import time

from asking import Client, codes_of, identifiers
from coap import register, update
from faketime import YEAR, seconds_ahead
from logins import login_of
from scenes import measure, shown
from serving import LIMIT
from visiting import ask

DAY = 86_400
# how far the clock of a host is ahead where servers may differ by ten seconds: by less, by more, and by far, in seconds
WITHIN, BEYOND, FAR_AHEAD = 8, 120, (2 * DAY, 90 * YEAR)
# a short lifetime, and when a device with it is heard of again, in seconds
SHORT, LATER = 20, 14
# how many devices register for a day
FOR_A_DAY = 100
# how far what is measured of clocks may be off, in seconds
OFF = 1.0
PASSWORD = "time-2468013579-word"
# all that a server asks of a Redis, but for the time
NO_TIME = ("+xadd", "+xrange", "+xtrim", "+ping", "+auth", "+info", "-time")


@contextlib.contextmanager
def differing(scene, seconds):
    """Two servers of a fleet, and a client of each. The clock of the second one's host is so many seconds ahead."""
    wrapper = seconds_ahead(scene, seconds)
    if not wrapper:
        yield None
        return
    with scene.redis() as redis, scene.sharing(redis.address) as right:
        with scene.sharing(redis.address, wrapper=wrapper) as ahead:
            with Client(right.port) as client, Client(ahead.port) as other:
                other.ask(register("first-at-the-other"))
                yield right, ahead, client, other


def lines_of(server):
    """By how many seconds the host's clock is ahead, as each line of it has it."""
    return [int(it) / 1000 for it in re.findall(r"clock ahead by=(\d+)ms", server.errors())]


def is_told(scene, what, server, seconds, is_beyond):
    """How far the host's clock is ahead is measured, and where it is too far there is a line."""
    found = measure(server, "fleet_clock_offset_seconds")
    scene.is_true(f"{what}: the measure", found and abs(found - seconds) < OFF, found)
    lines = lines_of(server)
    is_right = len(lines) == 1 and abs(lines[0] - seconds) < OFF if is_beyond else not lines
    scene.is_true(f"{what}: lines of it", is_right, lines)


def clock_within(scene):
    """A device with a short lifetime is answered alike at a server whose host's clock is some seconds ahead."""
    with differing(scene, WITHIN) as found:
        if not found:
            return
        _, ahead, client, other = found
        known = [client.ask(register(it, SHORT)).located for it in ("goes", "stays")]
        time.sleep(LATER)
        codes = other.code_of(update(known[0])), client.code_of(update(known[1]))
        scene.holds(f"Updates {LATER} s after Registers for {SHORT} s, at both servers", codes, ("2.04", "2.04"))
        is_told(scene, f"a clock {WITHIN} s ahead", ahead, WITHIN, False)


def clock_beyond(scene):
    """So it is where the clock is further ahead than the whole lifetime, and nobody's registration ends."""
    with differing(scene, BEYOND) as found:
        if not found:
            return
        right, ahead, client, other = found
        known = [client.ask(register(it, BEYOND // 2)).located for it in ("goes", "stays")]
        scene.holds("an Update at the server that is ahead", other.code_of(update(known[0])), "2.04")
        time.sleep(1)
        codes = [it.code_of(update(id)) for it in (client, other) for id in known]
        scene.holds("Updates a second later, at both servers", codes, ["2.04"] * 4)
        seen = [sorted(set(shown(it)) & {"goes", "stays"}) for it in (right, ahead)]
        scene.holds("who is shown", seen, [["goes", "stays"]] * 2)
        is_told(scene, f"a clock {BEYOND} s ahead", ahead, BEYOND, True)


def clock_ahead(scene):
    """A server whose host's clock is days or decades ahead ends nobody's registration, and serves by Redis's clock."""
    for seconds in FAR_AHEAD:
        with differing(scene, seconds) as found:
            if not found:
                return
            right, ahead, client, other = found
            known = identifiers(client.ask_all([register(f"for-a-day-{it}") for it in range(FOR_A_DAY)]))
            scene.holds("devices that register for a day", len(known), FOR_A_DAY)
            known += identifiers([other.ask(register("at-the-other"))])
            time.sleep(3)
            codes = [codes_of(it.ask_all([update(id) for id in known])) for it in (client, other)]
            scene.holds("their Updates 3 s later, at both servers", codes, [{"2.04": FOR_A_DAY + 1}] * 2)
            health = json.loads(ask(ahead.visited, "/v1/health").body)
            what = f"a server whose clock is {seconds // DAY} days ahead"
            scene.is_true(f"{what} tells Redis's", abs(health["now"] / 1000 - time.time()) < OFF, health)
            scene.holds(f"{what} tells of its counter", health["counter"], "ok")
            is_told(scene, what, ahead, seconds, True)
            scene.holds("lines of a clock at the other one", lines_of(right), [])


def no_time(scene):
    """A Redis that may not be asked for the time is used nevertheless, which is said once. The host's clock counts then."""
    with scene.redis() as redis:
        redis.ask("ACL", "SETUSER", "timeless", "on", f">{PASSWORD}", "~fleet", *NO_TIME)
        login = login_of(scene, "timeless", PASSWORD)
        with scene.sharing(redis.address, *login) as server:
            with Client(server.port) as client:
                scene.holds("a Register where Redis tells no time", client.code_of(register("timeless")), "2.01")
            scene.holds("lines of it", server.errors().count("redis tells no time\n"), 1)
            scene.holds("refusals that are told", server.errors().count("redis refused"), 0)
            scene.holds("how far the clock is off", measure(server, "fleet_clock_offset_seconds"), 0)
        ends_past_2100(scene, redis, login)


def ends_past_2100(scene, redis, login):
    """A server whose clock is past 2100 ends before it writes anything."""
    wrapper = seconds_ahead(scene, 90 * YEAR)
    if wrapper:
        entries = redis.entries()
        with scene.server("--redis", redis.address, *login, "--port", "0", wrapper=wrapper) as server:
            scene.holds("a server whose clock is 90 years ahead", server.ends(LIMIT), (1, "clock refused"))
        scene.holds("the stream is as it was", redis.entries() == entries, True)


CLOCKS = (clock_beyond, clock_ahead, no_time)
# what waits more than it works
WAITING_CLOCKS = (clock_within,)

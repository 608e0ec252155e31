"""A Redis that has lost what it was told: all of the stream, its end, or its beginning."""

import contextlib
import signal
import time

from asking import Client, identifiers
from between import KEEPS, PASSES, Between
from coap import register, update
from entries import WHOLE, appends, kind_of, strange
from faults import PATIENCE, is_mended, told
from keeper import KEY
from roaming import Registrant
from scene import running
from scenes import FOUND, SOON, SPREAD, ended, is_answered, is_soon, shown

# within which time each server notices that something is lost, where nobody asks it, in seconds
NOTICED = 5.0
# how often the stream is deleted under devices, how many these are, and how long they go on after each, in seconds
DELETIONS, REGISTRANTS, BETWEEN_DELETIONS = 8, 6, 1.0
# how far a clock is behind, in milliseconds
BEHIND = 30_000
# with how many servers a fleet is that mends a loss
MENDING = 5


def have_noticed(scene, what, servers, wait=NOTICED):
    """Each server notices the loss by itself, and writes all anew."""
    for line in ("log lost", "compacted"):
        is_soon(lambda line=line: all(f"{line}\n" in it.errors() for it in servers), wait)
        found = [f"{line}\n" in it.errors() for it in servers]
        scene.holds(f"{what}: servers that log `{line}`, though nobody asks them", found, [True] * len(servers))


def gone(scene):
    """Where the stream is gone, each server notices by itself, and what they know is written anew."""
    for words in (("FLUSHALL",), ("DEL", KEY), ("XTRIM", KEY, "MAXLEN", 0)):
        what = " ".join(str(it) for it in words)
        with told(scene, what) as (redis, servers, found):
            redis.ask(*words)
            have_noticed(scene, what, servers)
            scene.all_know(what, redis.address, servers, found.known, found.removed)


def known_to_one(scene):
    """Where the stream is gone, also what one server alone knew is written anew, whoever was the first to write."""
    what = "DEL by turns"
    with scene.redis() as redis, scene.several(redis.address, 2) as (first, second):
        with Client(first.port) as client, Client(second.port) as other:
            second.run.send_signal(signal.SIGSTOP)
            known = identifiers([client.ask(register("known to one"))])
            redis.ask("DEL", KEY)
            first.run.send_signal(signal.SIGSTOP)
            second.run.send_signal(signal.SIGCONT)
            is_told = is_soon(lambda: other.code_of(register("known to the other"), 1.0) == "2.01")
            first.run.send_signal(signal.SIGCONT)
            scene.holds(f"{what}: Registers at both", (len(known), is_told), (1, True))
        have_noticed(scene, what, [first, second])
        is_soon(lambda: shown(first) == shown(second), SPREAD)
        scene.holds(f"{what}: how many each shows", [len(shown(it)) for it in (first, second)], [2, 2])
        scene.all_know(what, redis.address, [first, second], known)


def deleted_often(scene):
    """Where the stream is deleted now and then while devices register, nothing that was told is lost."""
    what = f"DEL {DELETIONS} times under Registers"
    with scene.redis() as redis, scene.several(redis.address, 3) as servers:
        devices = [Registrant(number, servers) for number in range(REGISTRANTS)]
        with running(*devices):
            for _ in range(DELETIONS):
                time.sleep(BETWEEN_DELETIONS)
                redis.ask("DEL", KEY)
            time.sleep(BETWEEN_DELETIONS)
        known = {name: found for it in devices for name, found in it.known.items()}
        begun = time.monotonic()
        is_soon(lambda: not any(lacking(known, it) for it in servers))
        seconds = time.monotonic() - begun
        found = [lacking(known, it) for it in servers]
        scene.holds(f"{what}: of {len(known)} those that a server lacks ({seconds:.1f} s later)", found, [[]] * 3)
        scene.is_true(f"{what}: some were told", len(known) > DELETIONS * REGISTRANTS, len(known))
        scene.holds(f"{what}: servers that have ended", ended(servers), [])
        scene.newcomer_knows(what, redis.address, list(known.values()))


def lacking(known, server):
    """Some of those that the server does not show as they were told."""
    found = shown(server)
    return [name for name in known if found.get(name) != known[name]][:3]


def mending(scene):
    """Of several servers that mend a loss each writes all anew at most once, and nothing is lost."""
    what = f"{MENDING} servers mend"
    with scene.redis() as redis, scene.several(redis.address, MENDING) as servers:
        with Client(servers[0].port) as client:
            known = identifiers(client.ask_all([register(f"mended-{it}") for it in range(500)], at_once=25))
        scene.agree(what, servers)
        redis.ask("DEL", KEY)
        have_noticed(scene, what, servers)
        count = [kind_of(it) for it in redis.entries()].count(WHOLE)
        scene.is_true(f"{what}: snapshots: {count}", 1 <= count <= MENDING, count)
        scene.holds(f"{what}: Registers", len(known), 500)
        scene.all_know(what, redis.address, servers, known)


def shortened(scene):
    """Where the end of the stream is gone, each server notices by itself, and writes all anew."""
    what = "a stream without its end"
    with told(scene, what) as (redis, servers, found):
        ids = [identifier for identifier, _ in redis.ask("XRANGE", KEY, "-", "+")]
        redis.ask("XDEL", KEY, *ids[len(ids) // 4 :])
        have_noticed(scene, what, servers)
        answered = [is_answered(it, update(found.known[0])) for it in servers]
        scene.holds(f"{what}: each server soon answers again", answered, [True] * 3)
        scene.all_know(what, redis.address, servers, found.known, found.removed)


def trimmed(scene):
    """Where a stream lost its beginning and stays, its servers go on, and nobody begins who would know less."""
    what = "XTRIM"
    with told(scene, what) as (redis, servers, found):
        redis.ask("XTRIM", KEY, "MAXLEN", 1)
        for server in servers:
            scene.knows(f"{what}, at a server", server, found.known, found.removed)
        with scene.sharer(redis.address) as newcomer:
            scene.holds(f"{what}: a newcomer", newcomer.ends(SOON), (1, "data cut"))


def trimmed_empty(scene):
    """Where a stream was trimmed to nothing while its servers stand still, no newcomer begins another fleet."""
    what = "a stream that is trimmed to nothing"
    with told(scene, what) as (redis, servers, found):
        for it in servers:
            it.run.send_signal(signal.SIGSTOP)
        redis.ask("XTRIM", KEY, "MAXLEN", 0)
        begun = time.monotonic()
        with scene.sharer(redis.address) as newcomer:
            scene.holds(f"{what}: a newcomer", newcomer.ends(PATIENCE + SOON), (1, "no fleet"))
        seconds = time.monotonic() - begun
        scene.is_true(f"{what}: it has waited ({seconds:.1f} s)", seconds >= PATIENCE, f"{PATIENCE} s are right")
        scene.holds(f"{what}: its entries then", redis.length(), 0)
        for it in servers:
            it.run.send_signal(signal.SIGCONT)
        have_noticed(scene, what, servers)
        scene.all_know(what, redis.address, servers, found.known, found.removed)


def begun_anew(scene):
    """Another fleet that is founded where the stream is gone ends nobody: those before go on once it is deleted."""
    what = "another fleet is founded"
    with told(scene, what) as (redis, servers, found):
        for it in servers:
            it.run.send_signal(signal.SIGSTOP)
        redis.ask("DEL", KEY)
        with scene.sharing(redis.address, FOUND) as stranger, Client(stranger.port) as client:
            for it in servers:
                it.run.send_signal(signal.SIGCONT)
            scene.holds(f"{what}: a Register there", client.code_of(register("first")), "2.01")
            is_soon(lambda: all(ANOTHER in it.errors() for it in servers))
            lines = [ANOTHER in it.errors() for it in servers]
            scene.holds(f"{what}: the servers before tell of it", lines, [True] * 3)
            with Client(servers[0].port) as other:
                code = other.code_of(update(found.known[0]), 1.0)
            scene.holds(f"{what}: an Update at one of them, and ends", (code, ended(servers)), ("none", []))
            with scene.sharing(redis.address) as later:
                scene.holds(f"{what}: who begins then is of it", list(shown(later)), ["first"])
        redis.ask("DEL", KEY)
        answered = [is_answered(it, update(found.known[0])) for it in servers]
        scene.holds(f"{what}, and deleted: each server soon answers again", answered, [True] * 3)
        scene.all_know(f"{what}, and deleted", redis.address, servers, found.known, found.removed)


ANOTHER = "stream of another fleet"


def founded_meanwhile(scene):
    """Another fleet that is founded just before a server writes all anew comes first, and nobody ends."""
    what = "a fleet that is founded while another is written anew"
    with scene.redis() as redis, Between(redis.port) as between, scene.sharing(between.address) as server:
        with Client(server.port) as client:
            scene.holds(f"{what}: a Register before", client.code_of(register("before")), "2.01")
        between.does = KEEPS
        redis.ask("DEL", KEY)
        scene.is_true(f"{what}: one is about to write", is_soon(lambda: between.held), server.errors()[-200:])
        with scene.sharing(redis.address, FOUND) as stranger, Client(stranger.port) as client:
            scene.holds(f"{what}: a Register at the other", client.code_of(register("first")), "2.01")
            between.does = PASSES
            is_told = is_soon(lambda: strange(stranger))
            scene.is_true(f"{what}: the other tells of what is written", is_told, stranger.errors()[-200:])
            with scene.sharing(redis.address) as later:
                scene.holds(f"{what}: who begins then is of the other", list(shown(later)), ["first"])
            scene.holds(f"{what}: servers that have ended", ended([server, stranger]), [])


def warned(scene):
    """A server warns of a Redis that is a replica, and of one that may throw the stream away."""
    with scene.redis() as redis, scene.empty_redis() as replica:
        redis.sets("maxmemory-policy", "allkeys-lru")
        redis.sets("repl-diskless-sync-delay", 0)
        replica.ask("REPLICAOF", "127.0.0.1", redis.port)
        is_soon(lambda: replica.length() == redis.length())
        for it, line in ((redis, "redis may evict the stream"), (replica, "redis is a replica")):
            with scene.sharing(it.address) as server:
                scene.holds(f"lines of `{line}`", server.errors().count(f"{line}\n"), 1)


def forgetful(scene):
    """A Redis that keeps nothing on its disk is told all again by its servers."""
    what = "a Redis that has forgotten"
    with told(scene, "a Redis that keeps nothing", keeps="no") as (redis, servers, found):
        warned = ["redis keeps nothing on its disk\n" in it.errors() for it in servers]
        scene.holds("servers that warn of it", warned, [True] * 3)
        redis.kill()
        redis.start()
        answered = [is_answered(it, update(found.known[0])) for it in servers]
        scene.holds(f"{what}: each server soon answers again", answered, [True] * 3)
        scene.is_true("what it had is written anew", is_soon(lambda: any(it.compactions() for it in servers)), "not")
        is_mended(scene, what, servers)
        scene.all_know(what, redis.address, servers, found.known, found.removed)


def taken_over(scene):
    """A replica takes over that lacks the last entries, and whose clock is behind: nothing is lost, and all go on."""
    what = "a replica that takes over"
    with contextlib.ExitStack() as stack:
        primary, replica = stack.enter_context(scene.redis()), stack.enter_context(scene.empty_redis())
        primary.sets("repl-diskless-sync-delay", 0)
        replica.ask("REPLICAOF", "127.0.0.1", primary.port)
        between = stack.enter_context(Between(primary.port))
        servers = stack.enter_context(scene.several(between.address, 2))
        known = registered_at(servers, "before")
        is_soon(lambda: replica.length() == primary.length())
        replica.ask("REPLICAOF", "NO", "ONE")
        # what comes now has identifiers of later, as where the clock of the primary is ahead
        moment = int(time.time() * 1_000) + BEHIND
        primary.ask("XADD", KEY, f"{moment}-0", "other", "field")
        known += registered_at(servers, "behind")
        scene.is_true(f"{what} lacks some", replica.length() < primary.length(), replica.length())
        between.goes_to(replica.port)
        primary.kill()
        have_noticed(scene, what, servers, SOON)
        scene.holds(f"{what}: Registers before", len(known), 2 * AT_EACH * len(servers))
        hear_of_each_other(scene, what, servers, known)
        scene.all_know(what, replica.address, servers, known)
        scene.holds(f"{what}: servers that have ended", ended(servers), [])


# how many devices register at each server
AT_EACH = 10


def registered_at(servers, name):
    """The identifiers of some devices at each of the servers."""
    found = []
    for place, server in enumerate(servers):
        with Client(server.port) as client:
            requests = [register(f"{name}-{place}-{number}") for number in range(AT_EACH)]
            found += identifiers(client.ask_all(requests, at_once=1))
    return found


def hear_of_each_other(scene, what, servers, known):
    """What one server takes the others know at once."""
    for place, server in enumerate(servers):
        with Client(server.port) as client:
            found = identifiers([client.ask(register(f"later-{place}"))])
        known += found
        for other in servers:
            scene.knows(f"{what}: a Register at server {place + 1}", other, found)
        scene.holds(f"{what}: a Register that is told", len(found), 1)


def begun_with_others(scene):
    """Where the stream is gone and somebody else has written first, each server notices, and a newcomer knows all."""
    what = "DEL, and an entry of somebody else"
    with told(scene, what) as (redis, servers, found), redis.asking() as asks:
        asks([("MULTI",), ("DEL", KEY), ("XADD", KEY, "*", "other", "field"), ("EXEC",)])
        have_noticed(scene, what, servers)
        scene.all_know(what, redis.address, servers, found.known, found.removed)
    with scene.empty_redis() as redis:
        appends(redis, "other", "field")
        with scene.sharer(redis.address) as server:
            scene.holds("a start over a stream that somebody else began", server.ends(SOON), (1, "data cut"))


LOSSES = (
    gone,
    known_to_one,
    deleted_often,
    mending,
    shortened,
    trimmed,
    begun_anew,
    founded_meanwhile,
    begun_with_others,
    forgetful,
    taken_over,
    warned,
)
# it waits more than it works
WAITING_LOSSES = (trimmed_empty,)

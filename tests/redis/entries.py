"""What stands in a stream: entries of others, many entries, and who appends first."""

import os
import re
import signal
import struct
import time

from asking import Client, codes_of, identifiers
from between import CUTS, HOLDS, PASSES, PIECES, Between
from coap import read, register, spelled, update
from faults import told
from keeper import KEY
from scenes import SOON, SPREAD, ended, is_answered, is_soon, measure, shown

# where the parts of an entry stand: the number of its start, the tag, the sequence, and the kind
NUMBER, TAG, KIND = slice(20, 22), slice(22, 30), 38
START, DELTA, WHOLE = 0, 1, 2
# a list of some 6 KB: 300 registrations with such a list are compacted after some 2,500 Updates
VERY_LONG_LIST = b",".join(b"</%d/0>;title=some-more-bytes" % number for number in range(1000, 1220))
HEAVY, MOST_ROUNDS, MOST_LEFT = 300, 20, 100
# how many turns there are to compact, how long a server waits at most until it has its own, and how long entries stay
# then, in seconds
TURNS, LONGEST_TURN, TRIMMED_AFTER = 16, 40.0, 30.0


def kind_of(fields):
    """The kind of an entry, or none where it is none of a fleet."""
    return fields[1][KIND] if fields[0] == b"e" and fields[1][:4] == b"LWE1" and len(fields[1]) > KIND else None


def first_of(redis, kind, key=KEY):
    """The bytes of the first entry of a kind."""
    return next(fields[1] for fields in redis.entries(key) if kind_of(fields) == kind)


def appends(redis, *fields, key=KEY):
    return redis.ask("XADD", key, "*", *fields)


def garbage(scene):
    """Entries that are none of a fleet are passed over."""
    with told(scene, "entries that are none") as (redis, servers, found):
        sound = first_of(redis, DELTA)
        cut = [("e", sound[:length]) for length in (3, 4, 20, KIND, KIND + 1, len(sound) - 1)]
        foreign = (("e", "garbage"), ("other", "field"), ("", ""), ("e", sound, "e", sound), ("E", sound))
        strange = (("e", ""), ("e", os.urandom(2_000)), ("e", b"a" * 1_000_000), ("e", sound + b"\0"))
        added = {appends(redis, *fields).decode() for fields in (*cut, *foreign, *strange)}
        is_soon(lambda: all(passed_over(it) == added for it in servers), SPREAD)
        unlike = [passed_over(it) ^ added for it in servers]
        scene.holds("entries that servers pass over, and tell nothing of, or the other way", unlike, [set()] * 3)
        scene.all_know("entries that are none", redis.address, servers, found.known, found.removed)
        appends(redis, "e", "garbage", key="foreign")
        with scene.sharer(redis.address, "--stream", "foreign") as server:
            scene.holds("a stream that begins with such an entry", server.ends(SOON), (1, "data cut"))


def passed_over(server):
    """The identifiers of the entries of which a server logs that it passes them over."""
    return set(re.findall(r"entry passed over position=(\S+)", server.errors()))


def fleets(scene):
    """What stands in a stream of another fleet is passed over and told of, and ends nobody."""
    what = "entries of another fleet"
    with told(scene, what) as (redis, servers, found):
        scene.founds(redis, key="other")
        with scene.sharing(redis.address, "--stream", "other") as other, Client(other.port) as client:
            scene.holds("a Register at another fleet", client.code_of(register("stranger")), "2.01")
        appends(redis, "e", first_of(redis, START, "other"))
        deltas = [fields[1] for fields in redis.entries("other") if kind_of(fields) == DELTA]
        added = {appends(redis, "e", it).decode() for it in deltas}
        is_soon(lambda: all(strange(it) == added for it in servers), SPREAD)
        unlike = [strange(it) ^ added for it in servers]
        scene.holds(f"{what}: those that servers pass over, and do not tell of, or the other way", unlike, [set()] * 3)
        scene.all_know(what, redis.address, servers, found.known, found.removed)
        scene.holds(f"{what}: who shows what they tell of", ["stranger" in shown(it) for it in servers], [False] * 3)
        scene.holds(f"{what}: servers that have ended", ended(servers), [])


def strange(server):
    """The identifiers of the entries of which a server logs that they are of another fleet."""
    return set(re.findall(r"entry of another fleet passed over id=(\S+)", server.errors()))


def numbers(scene):
    """Where another start has the number that a server chose, it draws another before it answers; others go on."""
    with scene.redis() as redis, scene.sharing(redis.address) as first, Client(first.port) as client:
        known = identifiers([client.ask(register("first"))])
        with scene.sharing(redis.address) as second, Client(second.port) as other:
            entry = bytearray(first_of(redis, START))
            entry[NUMBER], entry[TAG] = struct.pack("!H", second.number), os.urandom(8)
            appends(redis, "e", bytes(entry))
            other.say(spelled(register("second"), 1, b"a"))
            is_soon(lambda: len(numbers_of(second)) > 1, SPREAD)
            drawn = numbers_of(second)
            scene.holds("numbers that a server drew whose first was taken", (len(drawn), len(set(drawn))), (2, 2))
            scene.holds("what it has answered before", other.hear(0.1), None)
            known += identifiers([other.ask(register("third"))])
            scene.holds("what it answers then", len(known), 2)
            scene.all_know("a number that was taken", redis.address, [first, second], known)


def numbers_of(server):
    """The numbers under which a server has told that it serves."""
    return re.findall(r"serving address=\S+ number=(\d+) ", server.errors())


def newer(scene):
    """An entry of a later format ends who begins. Who has served is away until it is gone."""
    with scene.redis() as redis, scene.sharing(redis.address) as server, Client(server.port) as client:
        known = identifiers([client.ask(register("a"))])
        added = appends(redis, "e", b"LWE2" + first_of(redis, START)[4:])
        scene.is_true("a server after an entry of a later format", is_away(server), server.errors()[-200:])
        code = client.code_of(update(*known), 1.0)
        scene.holds("an Update there, and its end", (code, ended([server])), ("none", []))
        with scene.sharer(redis.address) as newcomer:
            scene.holds("a newcomer then", newcomer.ends(SOON), (1, "data newer"))
        redis.ask("XDEL", KEY, added)
        scene.holds("an Update once it is gone", is_answered(server, update(*known)), True)
        scene.all_know("an entry of a later format that is gone", redis.address, [server], known)


def is_away(server, wait=SOON):
    return is_soon(lambda: "log away\n" in server.errors(), wait)


def compactions(scene):
    """Where many entries stand in a stream one server writes all as one, and has the others go half a minute later."""
    what = "a stream that is written anew"
    with scene.redis() as redis, scene.several(redis.address, 4) as servers:
        *awake, asleep = servers
        with Client(servers[0].port) as client:
            requests = [register(f"heavy-{it}", objects=VERY_LONG_LIST) for it in range(HEAVY)]
            known = identifiers(client.ask_all(requests, at_once=8, wait=20))
        scene.holds("Registers of long lists", len(known), HEAVY)
        scene.agree("long lists", servers)
        asleep.run.send_signal(signal.SIGSTOP)
        codes = codes_until_compacted(awake, known)
        # a server that waits for a long entry may let some go, as one whose Redis is away
        scene.holds("answers to Updates until all was written anew", set(codes) - {"none"}, {"2.04"})
        is_done = is_soon(lambda: any(it.compactions() for it in awake), LONGEST_TURN)
        length = redis.length()
        scene.is_true("that was done", is_done, f"{MOST_ROUNDS} rounds")
        scene.is_true(f"{what} has its {length} entries at first", length > MOST_LEFT, length)
        # who missed it all still finds what it has read last
        redis.ask("CLIENT", "KILL", "TYPE", "normal")
        asleep.run.send_signal(signal.SIGCONT)
        is_answered(asleep, update(known[0]))
        scene.knows(f"{what}: who stood still meanwhile", asleep, known)
        is_short = is_soon(lambda: redis.length() <= MOST_LEFT, TRIMMED_AFTER + SOON)
        scene.is_true(f"{what}: {redis.length()} entries are left", is_short, redis.length())
        kinds = [kind_of(it) for it in redis.entries()]
        scene.is_true("a snapshot is among them", WHOLE in kinds, kinds)
        count, most = sum(it.compactions() for it in servers), have_first_turn(awake)
        scene.is_true(f"{what}: by {count} of those whose turn is first", 1 <= count <= most, f"{most} are right")
        losers = [number for number, it in enumerate(servers) if "log lost\n" in it.errors()]
        scene.holds(f"{what}: servers that tell of a loss", losers, [])
        scene.all_know(what, redis.address, servers, known)


def have_first_turn(servers):
    """How many of the servers compact before others, as their numbers have it."""
    turns = [int(numbers_of(it)[-1]) % TURNS for it in servers]
    return turns.count(min(turns))


def codes_until_compacted(servers, known):
    """The codes of Updates at one server after another, until one of them has written all anew."""
    codes = {}
    for number in range(MOST_ROUNDS):
        with Client(servers[number % len(servers)].port) as client:
            codes |= codes_of(client.ask_all([update(it) for it in known], at_once=8, wait=5))
        if any(it.compactions() for it in servers):
            break
    return codes


def held_back(scene):
    """No reply leaves before Redis has answered the append."""
    with scene.redis() as redis, Between(redis.port) as between:
        with scene.sharing(between.address) as server, Client(server.port) as client:
            known = identifiers([client.ask(register("held"))])
            scene.holds("a Register by way of what stands between", (len(known), client.ping()), (1, True))
            before, between.does = redis.length(), HOLDS
            reply = client.ask(update(known[0]), 1.0) if known else None
            grown = redis.length() - before
            scene.holds("an Update whose append is not answered, and the stream", (reply, grown), (None, 1))
            between.does = PASSES
            heard = client.hear(5)
            code = read(heard).code if isinstance(heard, bytes) else heard
            scene.holds("its reply once Redis's answer has passed", code, "2.04")
            lost(scene, redis, between, server, known)
        in_pieces(scene, redis, known)


def lost(scene, redis, between, server, known):
    """Where the connection is lost before Redis's answer comes, nobody is answered, and nothing is undone."""
    before, between.does = redis.length(), CUTS
    with Client(server.port) as client:
        scene.holds("an Update whose connection is lost", client.code_of(update(known[0]), 1.0), "none")
    scene.is_true("the stream has it", redis.length() > before and between.cuts == 1, (redis.length(), between.cuts))
    scene.is_true("it is answered when it comes again", is_answered(server, update(known[0])), server.errors()[-200:])
    with Client(server.port) as client:
        between.does = CUTS
        scene.holds("a Register whose connection is lost", client.code_of(register("twice"), 1.0), "none")
        is_soon(lambda: client.ping(1.0))
        known += identifiers([client.ask(register("twice"))])
    scene.holds("when it comes again it is one registration", (len(known), len(shown(server))), (2, 2))
    scene.newcomer_knows("connections that were lost", redis.address, known)


def in_pieces(scene, redis, known):
    """What comes in pieces is read as a whole."""
    with Between(redis.port, PIECES) as between:
        with scene.sharing(between.address) as server:
            scene.knows("a server to which all comes in pieces", server, known)


def expired(scene):
    """What has expired is ended when the fleet's clocks may differ no more, and not before."""
    lifetime, skew = 2, 1
    with scene.redis() as redis, scene.several(redis.address, 2, "--skew", skew) as servers:
        scene.founds(redis, key="other")
        with scene.sharing(redis.address, "--stream", "other") as patient:
            with Client(servers[0].port) as client, Client(servers[1].port) as second, Client(patient.port) as third:
                second.ask(register("lasting"))
                third.ask(register("patient", 1))
                begun = time.monotonic()
                known = client.ask(register("short", lifetime)).located
                is_shown = is_soon(lambda: all("short" in shown(it) for it in servers), lifetime / 2)
                is_ended = is_soon(lambda: sum(swept(it) for it in servers))
                passed = time.monotonic() - begun
                scene.is_true("a registration of 2 seconds is shown at first", is_shown, [shown(it) for it in servers])
                scene.is_true(f"it ends after {passed:.1f} s", is_ended and passed >= lifetime + skew, passed)
                scene.holds("an Update of it", second.code_of(update(known)), "4.04")
                scene.holds("with ten seconds of skew one of a second is not ended", swept(patient), 0)
            scene.holds("who is shown", [list(shown(it)) for it in servers], [["lasting"]] * 2)


def swept(server):
    return measure(server, "fleet_swept_total") or 0

"""Paths of devices are observed by commands over HTTP, and what the devices tell is told, numbered."""

import itertools
import signal

from checks import shows, start_of
from coap import ACKNOWLEDGEMENT, CONFIRMABLE, CONTENT, CONTENT_FORMAT, EMPTY, GET, NOT_CONFIRMABLE, NOT_FOUND, OBSERVE
from coap import RESET, Message, parsed, update
from devices import COMMANDS, NOTHING, OBSERVES, SOON, Observed, asked_of, asks_for, cancel, is_soon, noted, notes
from devices import notices, notifications, observations, observe, tells_from, token_of
from exposition import measures_of
from targets import GONE
from targets import NOT_FOUND as NOBODY
from visiting import ask, told

# a response of a command that has no body has no length and no type either (RFC 9110, section 8.6)
ENDED = told("204 No Content", "")
ENDED = ENDED._replace(fields=tuple(it for it in ENDED.fields if not it.startswith("content-")))
# how many notifications are kept, and which is the first one that is kept once there is one more
MOST_NOTICES, FIRST_LEFT = 10_000, 5_000


def spelled_request(datagram, token, *options):
    """The request as it has to be, with the message ID that it has."""
    return b"\x48\x01" + datagram[2:4] + bytes.fromhex(token) + b"".join(options)


def observed(scene):
    """A path is observed, its device tells of it, and the observation ends, by the bytes that RFC 7641 has."""
    with scene.serving(*OBSERVES) as server, Observed(server.port, "lamp") as lamp:
        start = start_of(server)
        scene.holds("notifications at a start", asked_of(server, ""), notes([], 0, start))
        response = observe(server, lamp)
        token = token_of(response)
        scene.holds("POST of an observation", response, told("201 Created", lamp.watch(token)))
        datagram = lamp.hear(SOON) or b""
        want = spelled_request(datagram, token, b"\x60\x51\x33\x01\x30")
        scene.holds("the request that the device hears", datagram.hex(), want.hex())
        lamp.answers(parsed(want), b"1", ((OBSERVE, b"\x01"),))
        told_of = [noted(0, lamp.notice(token, 1, b"1"))]
        notices(server, 1)
        scene.holds("its acknowledgement is number 0", asked_of(server), notes(told_of, 1, start))
        shows(scene, server, f"/v1/tokens/{token}", lamp.watch(token))
        shows(scene, server, observations(lamp), '{"next":null,"observations":[%s]}' % lamp.watch(token))
        scene.holds("a confirmable notification", lamp.told(token, 2, b"2"), "acknowledged")
        lamp.tells(token, 3, b"", kind=NOT_CONFIRMABLE, further=((CONTENT_FORMAT, b"\x6e"),))
        told_of.append(noted(1, lamp.notice(token, 2, b"2")))
        told_of.append(noted(2, lamp.notice(token, 3, b"", kind="110")))
        notices(server, 3)
        in_pages(scene, server, told_of, start)
        ends_by_command(scene, server, lamp, token)
        scene.holds("notifications once it has ended", asked_of(server), notes(told_of, 3, start))


def in_pages(scene, server, told_of, start):
    """Notifications are told from a number on, so many at a time."""
    rows = (("?from=0", 0, 3), ("", 0, 3), ("?limit=1", 0, 1), ("?from=0&limit=2", 0, 2))
    own = ((f"?from=1&limit=1&start={start}", 1, 2), (f"?from=2&start={start}", 2, 3), (f"?from=3&start={start}", 3, 3))
    for query, begin, end in (*rows, *own):
        scene.holds(f"notifications{query[:13]}", asked_of(server, query), notes(told_of[begin:end], end, start))
    shows(scene, server, "/v1/notifications", notes(told_of, 3, start).body.decode())
    for number in (0, 3):
        other = f"?from={number}&start={int(start, 16) ^ 1:016x}"
        scene.holds(f"notifications of another start from {number}", asked_of(server, other), GONE)


def ends_by_command(scene, server, lamp, token):
    """A command ends the observation, and the device hears a GET with Observe 1 (RFC 7641, section 3.6)."""
    scene.holds("DELETE of the token", cancel(server, token), ENDED)
    datagram = lamp.hear(SOON) or b""
    want = spelled_request(datagram, token, b"\x61\x01\x51\x33\x01\x30")
    scene.holds("the request that ends it", datagram.hex(), want.hex())
    lamp.answers(parsed(want), b"3")
    scene.holds("DELETE once more", cancel(server, token), NOBODY)
    shows(scene, server, f"/v1/tokens/{token}", '{"error":"not found"}', "404 Not Found")
    shows(scene, server, observations(lamp), '{"next":null,"observations":[]}')
    scene.holds("a notification that comes later", lamp.told(token, 4, b"4"), "reset")
    lamp.tells(token, 5, b"5", kind=NOT_CONFIRMABLE)
    # a Reset may answer it, or nothing (RFC 7641, section 3.6)
    heard = lamp.heard(NOTHING)
    scene.holds("what else the device hears", heard and (heard.kind, heard.code), heard and (RESET, EMPTY))


# an endpoint that has to be encoded, and what is behind `path=`, the path, and the format that is accepted
STRANGE = "/v1/registrations/%%C3%%A9%%22%%2F+%%25/observations?path=%s"
QUERIES = (
    ("/3", "/3", None),
    ("/3/0&accept=110", "/3/0", 110),
    ("/3/0/9&accept=0", "/3/0/9", 0),
    ("/65534/10/0/65534&accept=65535", "/65534/10/0/65534", 65535),
    ("%2F5%2f1&accept=11543", "/5/1", 11543),
)


def paths(scene):
    """What is observed, and what is asked of the device for it."""
    with scene.serving(*OBSERVES) as server, Observed(server.port, 'é"/+%') as device:
        # so it stands in JSON
        device.endpoint = device.endpoint.replace('"', r"\"")
        requests = []
        for query, path, accept in QUERIES:
            response = ask(server.visited, STRANGE % query, "POST")
            token = token_of(response)
            want = told("201 Created", device.watch(token, path, "null" if accept is None else accept))
            scene.holds(f"POST of path={query}", response, want)
            got = device.heard()
            options = asks_for(path, (OBSERVE, b""), accept=accept)
            want = Message(CONFIRMABLE, GET, got.mid if got else 0, bytes.fromhex(token), options)
            scene.holds(f"what the device is asked for path={query}", got, want)
            device.answers(want, b"x", ((OBSERVE, b"\x05"),))
            requests.append(want)
        tokens, mids = [it.token.hex() for it in requests], [it.mid for it in requests]
        scene.holds("tokens, and message IDs, that are given once", (len(set(tokens)), len(set(mids))), (5, 5))
        found = [(it["notice"]["path"], it["notice"]["token"]) for it in notices(server, 5)]
        scene.holds("what the device tells of each", found, [(path, it) for (_, path, _), it in zip(QUERIES, tokens)])
        one_again(scene, server, device, tokens[1])


def one_again(scene, server, device, former):
    """A path that is observed once more has one observation, which is the new one."""
    response = ask(server.visited, STRANGE % "/3/0", "POST")
    token = token_of(response)
    scene.holds("POST of a path once more", response, told("201 Created", device.watch(token)))
    scene.is_true("its token is another", token not in ("none", former), token)
    got = device.heard()
    scene.holds("the token of its request", got and got.token.hex(), token)
    device.answers(got, b"x", ((OBSERVE, b"\x06"),))
    scene.holds("the observation before", ask(server.visited, f"/v1/tokens/{former}"), NOBODY)
    scene.holds("a notification of that", device.told(former, 9, b"9"), "reset")


def refused_by_device(scene):
    """What the device refuses, or answers without a number, is told, and has ended (RFC 7641, section 4.2)."""
    with scene.serving(*OBSERVES) as server, Observed(server.port, "lamp") as lamp:
        tokens = []
        rows = (NOT_FOUND, (), b""), (CONTENT, (), b"once"), (CONTENT, ((OBSERVE, b""),), b"0")
        for code, options, payload in rows:
            tokens.append(token_of(observe(server, lamp)))
            lamp.answers(lamp.heard(), payload, options, code)
            notices(server, len(tokens))
        want = [
            noted(0, lamp.notice(tokens[0], "null", b"", code=NOT_FOUND, ended="true")),
            noted(1, lamp.notice(tokens[1], "null", b"once", ended="true")),
            noted(2, lamp.notice(tokens[2], 0, b"0")),
        ]
        tells_from(scene, "what the device has answered", server, 0, want)
        found = [ask(server.visited, f"/v1/tokens/{it}").status[:3] for it in tokens]
        scene.holds("observations that go on", found, ["404", "404", "200"])
        scene.holds("an end that comes later", lamp.told(tokens[2], None, b"", code=NOT_FOUND), "acknowledged")
        want = [noted(3, lamp.notice(tokens[2], "null", b"", code=NOT_FOUND, ended="true"))]
        tells_from(scene, "what it tells of the last", server, 3, want)
        scene.holds("DELETE of what has ended", cancel(server, tokens[2]), NOBODY)
        scene.holds("what else the device hears", lamp.hears_nothing(), None)


def ends_with_registration(scene):
    """An observation ends with its registration, and no request is made for whoever is not there."""
    with scene.serving(*OBSERVES) as server, Observed(server.port, "lamp") as lamp:
        former = token_of(observe(server, lamp))
        lamp.answers(lamp.heard(), b"1", ((OBSERVE, b"\x01"),))
        notices(server, 1)
        with Observed(server.port, "lamp", own=2) as again:
            scene.holds("the observation of a registration that was replaced", cancel(server, former), NOBODY)
            token = token_of(observe(server, again))
            got = again.heard()
            scene.holds("the token that the new device hears", got and got.token.hex(), token)
            scene.holds("what the former device hears", lamp.hears_nothing(), None)
        gone = Observed(server.port, "gone", own=3)
        gone.endpoint = "never"
        scene.holds("POST for nobody", observe(server, gone), NOBODY)
        scene.holds("what a device of another name hears", gone.hears_nothing(), None)


def moved(scene):
    """Requests go to where the device was last."""
    with scene.serving(*OBSERVES) as server, Observed(server.port, "lamp") as lamp:
        with Observed(server.port, "elsewhere", own=2) as other:
            other.ask(update(lamp.id))
            token = token_of(observe(server, lamp))
            got = other.heard()
            scene.holds("the token that is heard where the Update came from", got and got.token.hex(), token)
            other.answers(got, b"1", ((OBSERVE, b"\x01"),))
            scene.holds("what is heard where the Register came from", lamp.hears_nothing(), None)
            tells_from(scene, "what is told of that", server, 0, [noted(0, lamp.notice(token, 1, b"1"))])


def restarted_observations(scene):
    """Over a restart observations go on, and notifications are numbered anew."""
    data = scene.place("observed")
    with scene.serving("--data", data, "--port", "0", *COMMANDS) as server:
        lamp, port, start = Observed(server.port, "lamp"), server.port, start_of(server)
        tokens = [token_of(observe(server, lamp, path)) for path in ("/3/0", "/3/1")]
        for number in range(2):
            lamp.answers(lamp.heard(), b"%d" % number, ((OBSERVE, b"\x01"),))
        found = [it["number"] for it in notices(server, 2)]
        scene.holds("numbers before a restart", found, [0, 1])
        scene.holds("DELETE before a restart", cancel(server, tokens[1]), ENDED)
        lamp.answers(lamp.heard())
        scene.holds("the end by kill -9", server.kill(), -signal.SIGKILL)
    with lamp, scene.serving("--data", data, "--port", port, *COMMANDS) as server:
        anew = start_of(server)
        scene.holds("notifications after a restart", asked_of(server), notes([], 0, anew))
        scene.holds("a notification after it", lamp.told(tokens[0], 2, b"again"), "acknowledged")
        want = [noted(0, lamp.notice(tokens[0], 2, b"again"))]
        tells_from(scene, "it is told, as number 0", server, 0, want)
        for query in (f"?from=0&start={start}", f"?from=1&start={start}"):
            scene.holds("the start before", asked_of(server, query), GONE)
        scene.holds("a notification of what was ended before", lamp.told(tokens[1], 2, b"x"), "reset")
        shows(scene, server, observations(lamp), '{"next":null,"observations":[%s]}' % lamp.watch(tokens[0]))
        token = token_of(observe(server, lamp, "/3/1"))
        scene.is_true("a new token", token not in ("none", *tokens), token)
        got = lamp.heard()
        scene.holds("its request", got and got.token.hex(), token)
        scene.holds("DELETE after a restart", cancel(server, tokens[0]), ENDED)
        got = lamp.heard()
        scene.holds("the request that ends it", got and (got.token.hex(), got.option(OBSERVE)), (tokens[0], b"\x01"))


def many_notifications(scene):
    """At most 10,000 notifications are kept: before one more the older half goes."""
    with scene.serving(*OBSERVES) as server, Observed(server.port, "lamp") as lamp:
        start, token = start_of(server), token_of(observe(server, lamp))
        lamp.answers(lamp.heard(), b"0", ((OBSERVE, b""),))
        answered = tells_many(lamp, token, range(1, MOST_NOTICES))
        scene.holds(f"notifications that are acknowledged of {MOST_NOTICES - 1}", answered, MOST_NOTICES - 1)

        def told_of(begin, count):
            return [noted(it, lamp.notice(token, it, b"%d" % it)) for it in range(begin, begin + count)]

        scene.holds("the first of 10,000", asked_of(server), notes(told_of(0, 64), 64, start))
        got = asked_of(server, f"?from=9999&start={start}")
        scene.holds("the last of 10,000", got, notes(told_of(9999, 1), 10_000, start))
        scene.holds("one more", tells_many(lamp, token, [MOST_NOTICES]), 1)
        got = asked_of(server, f"?from=9999&start={start}")
        scene.holds("the last of 10,001", got, notes(told_of(9999, 2), 10_001, start))
        gone = told("410 Gone", '{"error":"gone","first":%d}' % FIRST_LEFT)
        for query in ("", "?from=0", f"?from=0&start={start}", f"?from={FIRST_LEFT - 1}&start={start}"):
            scene.holds(f"notifications{query[:10]}, which are gone", asked_of(server, query), gone)
        head = ask(server.visited, "/v1/notifications?from=0", "HEAD")
        scene.holds("HEAD of what is gone", head, gone.without_body())
        got = asked_of(server, f"?from={FIRST_LEFT}&limit=256&start={start}")
        scene.holds("the first that is kept", got, notes(told_of(FIRST_LEFT, 256), FIRST_LEFT + 256, start))
        walked(scene, server, start, FIRST_LEFT, MOST_NOTICES + 1)


def tells_many(device, token, numbers, at_once=50):
    """How many notifications are acknowledged, of which so many are under way at once."""
    numbers, waiting, answered = iter(numbers), set(), 0
    while True:
        for number in itertools.islice(numbers, at_once - len(waiting)):
            waiting.add(device.tells(token, number, b"%d" % number))
        message = device.heard() if waiting else None
        if not message:
            return answered
        if (message.kind, message.code) == (ACKNOWLEDGEMENT, EMPTY) and message.mid in waiting:
            waiting.remove(message.mid)
            answered += 1


def walked(scene, server, start, begin, end):
    """Whoever goes on with `next` is told each notification once, in the order of their numbers."""
    found, at = [], begin
    while len(found) <= end - begin:
        page = notifications(server, f"?from={at}&limit=256&start={start}")
        if not page["notifications"]:
            break
        found += [it["number"] for it in page["notifications"]]
        at = page["next"]
    scene.is_true(f"numbers from {begin} to {end - 1}", found == list(range(begin, end)), (len(found), found[:3]))


def counted_commands(scene):
    """Commands and what devices tell are among the measures."""
    with scene.serving(*OBSERVES) as server, Observed(server.port, "lamp") as lamp:
        token = token_of(observe(server, lamp))
        lamp.answers(lamp.heard(), b"1", ((OBSERVE, b"\x01"),))
        notices(server, 1)
        lamp.told(token, 2, b"2")
        cancel(server, token)
        lamp.answers(lamp.heard(), b"3")
        observe(server, lamp, fields=("Origin: null",))
        want = {
            'fleet_http_responses_total{status="201"}': 1,
            'fleet_http_responses_total{status="204"}': 1,
            'fleet_http_responses_total{status="403"}': 1,
            "fleet_notifications_total": 2,
            "fleet_notifications_stale_total": 0,
            "fleet_requests_sent_total": 2,
            "fleet_requests_sent_again_total": 0,
            "fleet_requests_waiting": 0,
        }
        lamp.ping()
        is_soon(lambda: measures_of(server).get("fleet_requests_waiting") == 0)
        found = measures_of(server)
        scene.holds("measures of commands", {it: found.get(it) for it in want}, want)


OBSERVING = (
    observed,
    paths,
    refused_by_device,
    ends_with_registration,
    moved,
    restarted_observations,
    many_notifications,
    counted_commands,
)

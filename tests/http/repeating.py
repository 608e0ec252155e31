"""Requests to devices that are sent again, refused or never answered, notifications out of order, and message IDs."""

import struct
import time

from coap import ACKNOWLEDGEMENT, CONFIRMABLE, CONTENT, GET, NOT_CONFIRMABLE, OBSERVE, RESET, Message
from coap import bytes_of, parsed, read, register, spelled, unsigned
from devices import NOTHING, OBSERVES, Observed, answer_of, asked_of, cancel, is_soon, noted, notices, observe
from devices import tells_from, token_of
from exposition import measures_of
from observing import ENDED
from relay import Relay
from repeats import EARLIER, GATEWAY_TIMEOUT, LATER, LEAST_TIME, MAX_RETRANSMIT, MOST_TIME, MOST_WAIT, are_in_time
from repeats import repeats_of
from targets import NOT_FOUND
from visiting import ask, refused

SEED = 20240607
# how many requests may wait for an acknowledgement
MOST_WAITING = 1_024
# how long two notifications may be apart so that their numbers tell which is newer (RFC 7641, section 3.4)
FRESH = 128
# message IDs of requests that are not confirmable
NON_REGISTERS = 200


def unacknowledged(scene):
    """A request that is not acknowledged comes again with the same bytes, until it is, or until its time is over."""
    count = MAX_RETRANSMIT if scene.is_long else 2
    with scene.serving(*OBSERVES) as server, Observed(server.port, "silent") as silent:
        others = [Observed(server.port, f"lamp-{it}", own=2 + it) for it in range(4)]
        token, begun = token_of(observe(server, silent)), time.monotonic()
        first = silent.hear(5)
        tokens = [token_of(observe(server, it)) for it in others]
        heard = [it.heard() for it in others]
        answered, emptied, separate, ended = others
        answered.answers(heard[0], b"1", ((OBSERVE, b"\x01"),))
        # an acknowledgement that is empty, and a response of its own later (RFC 7252, section 5.2.2)
        emptied.replies(ACKNOWLEDGEMENT, heard[1].mid)
        # a response that comes before its acknowledgement, which was lost
        scene.holds("a response of its own", separate.told(tokens[2], 1, b"1"), "acknowledged")
        scene.holds("DELETE before an acknowledgement", cancel(server, tokens[3]), ENDED)
        cancelling = ended.heard()
        scene.holds("what is heard of that", cancelling and cancelling.option(OBSERVE), b"\x01")
        moments, differing = repeats_of(silent, first, begun, count)
        shown = ", ".join(f"{it:.2f}" for it in moments)
        scene.holds(f"{count} repeats: how many came, and other bytes", (len(moments), differing), (count, []))
        scene.is_true(f"they come when they have to ({shown} s)", are_in_time(moments), moments)
        for what, device in (("answered", answered), ("acknowledged", emptied), ("answered apart", separate)):
            scene.holds(f"what comes again of a request that was {what}", device.hears_nothing(), None)
        again = set()
        while isinstance(text := ended.hear(NOTHING), bytes):
            again.add(text)
        want = {spelled(cancelling, cancelling.mid, cancelling.token)}
        scene.holds("what comes again where it was cancelled", again, want)
        ended.answers(cancelling)
        found = [ask(server.visited, f"/v1/tokens/{it}").status[:3] for it in (token, *tokens)]
        scene.holds("observations meanwhile", found, ["200"] * 4 + ["404"])
        if scene.is_long:
            never_answered(scene, server, silent, token, begun)
        for it in others:
            it.close()


def never_answered(scene, server, silent, token, begun):
    """Once the last wait is over, 62 to 93 seconds after the first, the observation has ended."""
    ended = silent.notice(token, "null", b"", code=GATEWAY_TIMEOUT, ended="true")
    is_soon(lambda: ended in asked_of(server).body.decode(), MOST_TIME - (time.monotonic() - begun) + LATER)
    seconds = time.monotonic() - begun
    scene.is_true(f"it ends after {seconds:.1f} s", LEAST_TIME - EARLIER <= seconds <= MOST_TIME + LATER, seconds)
    scene.is_true("its end is told", ended in asked_of(server).body.decode(), asked_of(server).body)
    scene.holds("GET of its token", ask(server.visited, f"/v1/tokens/{token}"), NOT_FOUND)
    scene.holds("what else the device hears", silent.hears_nothing(), None)
    found = measures_of(server)
    names = "fleet_requests_unanswered_total", "fleet_requests_sent_again_total"
    scene.holds("measures of what is not answered", found.get(names[0]), 1)
    scene.is_true("repeats are counted", found.get(names[1], 0) >= MAX_RETRANSMIT, found.get(names[1]))
    scene.holds("a notification that comes later", silent.told(token, 2, b"2"), "reset")


def too_many(scene):
    """Where as many requests wait as may, a command is refused until one of them is answered."""
    many = refused("503 Service Unavailable", "too many requests wait")
    with scene.serving(*OBSERVES) as server, Observed(server.port, "busy") as busy:
        token = token_of(observe(server, busy))
        first = busy.heard()
        found = [observe(server, busy, f"/4/{it}").status for it in range(1, MOST_WAITING)]
        scene.holds(f"{MOST_WAITING - 1} commands more", set(found), {"201 Created"})
        scene.holds("POST of one more", observe(server, busy, "/5/0"), many)
        scene.holds("DELETE of one more", cancel(server, token), many)
        scene.holds("its observation", ask(server.visited, f"/v1/tokens/{token}").status, "200 OK")
        busy.answers(first, b"1", ((OBSERVE, b"\x01"),))
        notices(server, 1)
        scene.holds("POST once one was answered", observe(server, busy, "/5/0").status, "201 Created")
        with Observed(server.port, "other", own=2) as other:
            scene.holds("a Register meanwhile", other.id is not None, True)


def acknowledged_late(scene):
    """A request is sent again until its acknowledgement comes, and not after that."""
    with scene.serving(*OBSERVES) as server, Observed(server.port, "late") as late:
        begun, token = time.monotonic(), token_of(observe(server, late))
        first = late.hear(5)
        moments, others = repeats_of(late, first, begun, 1)
        scene.holds("a repeat of a request", (len(moments), others), (1, []))
        late.answers(parsed(first), b"1", ((OBSERVE, b"\x01"),))
        want = [noted(0, late.notice(token, 1, b"1"))]
        tells_from(scene, "what is told after a late answer", server, 0, want)
        # the repeat may be answered too
        late.answers(parsed(first), b"1", ((OBSERVE, b"\x01"),))
        scene.holds("what the device hears then", late.hears_nothing(2 * MOST_WAIT + LATER), None)
        tells_from(scene, "what is told after a second answer", server, 0, want)


def resets(scene):
    """A Reset ends the observation whose request or notification it answers (RFC 7641, section 3.6)."""
    with scene.serving(*OBSERVES) as server, Observed(server.port, "lamp") as lamp:
        token = token_of(observe(server, lamp))
        request = lamp.heard()
        with Observed(server.port, "other", own=2) as other:
            other.replies(RESET, request.mid)
            lamp.replies(RESET, request.mid ^ 0x0101)
            lamp.ping()
            found = ask(server.visited, f"/v1/tokens/{token}").status
            scene.holds("Resets of another device, and of another message", found, "200 OK")
        lamp.replies(RESET, request.mid)
        told_of = [noted(0, lamp.notice(token, "null", b"", code=0, ended="true"))]
        tells_from(scene, "what is told of a Reset", server, 0, told_of)
        scene.holds("GET of its token", ask(server.visited, f"/v1/tokens/{token}"), NOT_FOUND)
        scene.holds("DELETE of it", cancel(server, token), NOT_FOUND)
        lamp.replies(RESET, request.mid)
        scene.holds("a notification of it", lamp.told(token, 2, b"2"), "reset")
        scene.holds("what else the device hears", lamp.hears_nothing(MOST_WAIT + LATER), None)
        tells_from(scene, "what is told afterwards", server, 0, told_of)
        found = measures_of(server).get("fleet_requests_reset_total")
        scene.holds("Resets that are counted", found, 1)
        resets_of_an_end(scene, server, lamp)


def resets_of_an_end(scene, server, lamp):
    """A Reset of the request that ends an observation ends nothing else, and is not told."""
    before = len(notices(server, 1))
    token = token_of(observe(server, lamp))
    lamp.answers(lamp.heard(), b"1", ((OBSERVE, b"\x01"),))
    notices(server, before + 1)
    cancel(server, token)
    lamp.replies(RESET, lamp.heard().mid)
    scene.holds("what comes of a Reset of an end", lamp.hears_nothing(MOST_WAIT + LATER), None)
    scene.holds("notifications then", len(notices(server, before + 1)), before + 1)


# numbers of notifications in the order in which they come, and whether each is newer than all that were told
# (RFC 7641, section 3.4)
NUMBERS = (
    (5, True),
    (3, False),
    (5, False),
    (4, False),
    (6, True),
    (0x7FFFFF, True),
    (0x7FFFFE, False),
    (0xFFFFFE, True),
    (1, True),
    (0xFFFFFF, False),
    (0x900000, False),
    (0x800000, True),
    (0x800000, False),
    (0x800001, True),
)


def stale(scene):
    """A notification that is older than one before is acknowledged, counted and not told."""
    with scene.serving(*OBSERVES) as server, Observed(server.port, "lamp") as lamp:
        tokens = [token_of(observe(server, lamp, path)) for path in ("/3/0", "/3/1")]
        for _ in tokens:
            lamp.answers(lamp.heard(), b"0", ((OBSERVE, b"\x01"),))
        notices(server, 2)
        want = []
        for place, (number, is_newer) in enumerate(NUMBERS):
            found = lamp.told(tokens[0], number, b"%d" % place)
            scene.holds(f"the answer to notification {place} with number {number:#x}", found, "acknowledged")
            want += [noted(2 + len(want), lamp.notice(tokens[0], number, b"%d" % place))] if is_newer else []
        tells_from(scene, "notifications that are newer", server, 2, want)
        older, last = len(NUMBERS) - len(want), 2 + len(want)
        scene.holds("those that are older", stale_of(server), older)
        scene.holds("a small number of another observation", lamp.told(tokens[1], 2, b"2"), "acknowledged")
        want = [noted(last, lamp.notice(tokens[1], 2, b"2", path="/3/1"))]
        tells_from(scene, "that is no older one", server, last, want)
        lamp.tells(tokens[1], 1, b"1", kind=NOT_CONFIRMABLE)
        lamp.ping()
        is_soon(lambda: stale_of(server) == older + 1)
        scene.holds("an older one that is not confirmable", stale_of(server), older + 1)
        if scene.is_long:
            time.sleep(FRESH + LATER)
            scene.holds(f"an older number {FRESH} seconds later", lamp.told(tokens[1], 1, b"late"), "acknowledged")
            want = [noted(last + 1, lamp.notice(tokens[1], 1, b"late", path="/3/1"))]
            tells_from(scene, "it is told", server, last + 1, want)


def stale_of(server):
    return measures_of(server).get("fleet_notifications_stale_total")


def message_ids(scene):
    """Replies to what is not confirmable have message IDs of the server's own, none twice to one address."""
    with scene.serving(*OBSERVES) as server, Observed(server.port, "lamp") as lamp:
        mids, own, codes, others = [], [], [], []
        for number in range(NON_REGISTERS):
            # message IDs that are far apart, so that few of the server's own may be like them
            mid, token = number * 257 & 0xFFFF, struct.pack("!H", number)
            lamp.say(spelled(register(f"non-{number}"), mid, token, NOT_CONFIRMABLE))
            text = lamp.hear(5)
            message = parsed(text) if isinstance(text, bytes) else None
            if not message:
                break
            codes.append((message.kind, read(text).code, message.token == token))
            own.append(message.mid)
            mids.append(mid)
            others += again(lamp, number, mid, token, text) if number % 20 == 0 else []
        scene.holds("replies to Registers", set(codes), {(NOT_CONFIRMABLE, "2.01", True)})
        scene.holds("how many there are", len(own), NON_REGISTERS)
        scene.holds("message IDs that come twice", len(own) - len(set(own)), 0)
        like = sum(mid == it for mid, it in zip(mids, own))
        scene.is_true("message IDs of the server's own", like < 5, f"{like} are those of the requests")
        scene.holds("what answers a request that comes again in another way", others, [])
        found = measures_of(server).get("fleet_duplicates_total")
        scene.holds("requests that came again", found, NON_REGISTERS // 20)
        registrations = measures_of(server).get("fleet_registrations")
        scene.holds("registrations of them", registrations, NON_REGISTERS + 1)
        among_requests(scene, server, lamp, own)


def again(client, number, mid, token, text):
    """What comes of a request that comes again, where it is not the reply that was given, with the same message ID."""
    client.say(spelled(register(f"non-{number}"), mid, token, NOT_CONFIRMABLE))
    heard = client.hear(5)
    return [] if heard == text else [(text, heard)]


def among_requests(scene, server, lamp, own):
    """Requests to a device have message IDs that none of the replies to it has."""
    found = []
    for it in range(20):
        token_of(observe(server, lamp, f"/3/0/{it}"))
        request = lamp.heard()
        found.append(request.mid)
        lamp.answers(request, b"1", ((OBSERVE, b"\x01"),))
    scene.holds("message IDs of requests that are given twice", len(found) - len(set(found)), 0)
    scene.holds("those that a reply had", set(found) & set(own), set())


class Lossy(Observed):
    """A device behind a relay that loses, doubles and reorders: it sends again what is not answered."""

    def registers(self):
        """Registers, and gives whether that was answered."""
        datagram = spelled(register(self.endpoint), next(self.mids) & 0xFFFF, b"\x01")
        return self.sends(datagram, lambda message: message.token == b"\x01" and self.is_located(message))

    def is_located(self, message):
        self.id = read(spelled(message, message.mid, message.token)).located or self.id
        return self.id is not None

    def sends(self, datagram, is_answer, attempts=20):
        """Sends a datagram until it is answered, and answers requests meanwhile."""
        for _ in range(attempts):
            self.say(datagram)
            end = time.monotonic() + AGAIN
            while (left := end - time.monotonic()) > 0:
                message = self.heard(left)
                if message and is_answer(message):
                    return True
                self.serves(message)
        return False

    def serves(self, message):
        """Answers a request that observes, each time that it comes."""
        if message and message.code == GET:
            self.answers(message, b"1", ((OBSERVE, b"\x01"),))

    def notifies(self, token, observe):
        """Sends a notification until it is acknowledged."""
        mid = next(self.mids) & 0xFFFF
        options = ((OBSERVE, unsigned(observe)),)
        datagram = bytes_of(Message(CONFIRMABLE, CONTENT, mid, bytes.fromhex(token), options, b"%d" % observe))
        return self.sends(datagram, lambda message: answer_of(message, mid) == "acknowledged")


# how long such a device waits for an answer, and how many there are
AGAIN, LOSSY = 0.3, 12


def lossy(scene):
    """Behind a relay that loses, doubles and reorders, each notification is told once, and in its order."""
    with scene.serving(*OBSERVES) as server:
        between = Relay(server.port, SEED)
        between.start()
        found = []
        for number in range(LOSSY):
            with Lossy(between.port, f"lossy-{number}", asks=False) as device:
                registered = device.registers()
                token = token_of(observe(server, device))
                first = is_soon(lambda: device.serves(device.heard(AGAIN)) or of_token(server, token) == [1], 60)
                rest = [device.notifies(token, it) for it in (2, 3, 4)]
                found.append((registered, first, rest, of_token(server, token)))
        between.stops()
        scene.is_true(f"the relay has troubled {between.troubles}", all(between.troubles.values()), "one in no way")
        others = [it for it in found if it != (True, True, [True] * 3, [1, 2, 3, 4])]
        scene.holds(f"of {LOSSY} devices behind it, what is told of those that are told wrongly", others, [])


def of_token(server, token):
    """The numbers of the notifications of an observation, in the order in which they are told."""
    return [it["notice"]["observe"] for it in notices(server, 0) if it["notice"]["token"] == token]


REPEATING = unacknowledged, too_many, acknowledged_late, resets, stale, message_ids, lossy

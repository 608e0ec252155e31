"""Notifications that come in blocks, whose rest is fetched (RFC 7959, sections 2.4 and 2.6)."""

import time

from coap import ACKNOWLEDGEMENT, BLOCK2, CONFIRMABLE, CONTENT, CONTENT_FORMAT, ETAG, GET, NOT_CONFIRMABLE
from coap import NOT_FOUND, OBSERVE, RESET, Message, bytes_of, parsed, unsigned
from devices import NOTHING, OBSERVES, PATH, SOON, Observed, answer_of, asks_for, is_soon, noted, notices, observe
from devices import tells_from, token_of
from exposition import measures_of
from repeating import stale_of
from repeats import EARLIER, LATER, LEAST_WAIT, MOST_WAIT

SIZE2 = 28
# the exponent of blocks of 64 bytes, and how long a token of a fetch is
OF_64, FETCH_TOKEN = 2, 4
# the most bytes of a message
MOST_BYTES = 8_192


def value_of(number, more, exponent):
    """The value of a Block2: the block's number, whether more follow, and the exponent of its size."""
    return unsigned(number << 4 | more << 3 | exponent)


def text_of(length, sign=b"a"):
    """Bytes of which each four are others than those before."""
    return b"".join(b"%s%03d" % (sign, it % 1000) for it in range(-(-length // 4)))[:length]


class Value:
    """A value of a resource: its bytes, its ETag, and the exponent of the size of its blocks."""

    def __init__(self, payload, etag=None, exponent=OF_64):
        self.payload, self.etag, self.exponent = payload, etag, exponent

    def block(self, number, exponent=None):
        """A block of the value: the options that tell of it, and its bytes."""
        exponent = self.exponent if exponent is None else exponent
        size = 16 << exponent
        part, more = self.payload[number * size : (number + 1) * size], len(self.payload) > (number + 1) * size
        etags = () if self.etag is None else ((ETAG, self.etag),)
        return (*etags, (BLOCK2, value_of(number, more, exponent))), part


class Large(Observed):
    """A device whose values come in blocks."""

    def begins(self, token, observe, value, kind=CONFIRMABLE, further=()):
        """Sends the first block as a notification, and gives its message ID."""
        options, part = value.block(0)
        return self.tells(token, observe, part, kind, (*options, *further))

    def asked(self, wait=SOON):
        """The next request for a block: its message, its number and its exponent; or what came in place of it."""
        message = self.heard(wait)
        value = message.option(BLOCK2) if message else None
        if value is None:
            return message, None, None
        value = int.from_bytes(value, "big")
        return message, value >> 4, value & 7

    def gives(self, value, options=None):
        """Answers requests for blocks of a value until the last, and gives what each asked for."""
        asked = []
        while len(asked) < 1024:
            message, number, exponent = self.asked()
            if number is None:
                return [*asked, message]
            asked.append((number, exponent))
            options, part = value.block(number, exponent)
            self.answers(message, part, options)
            if len(value.payload) <= (number + 1) * (16 << exponent):
                return asked
        return asked


def requested(message, path, number, exponent=OF_64, accept=None):
    """The request for a block, as it has to be, with the message ID and the token that it has."""
    options = (*asks_for(path, accept=accept), (BLOCK2, value_of(number, 0, exponent)))
    token = message.token if message and len(message.token) == FETCH_TOKEN else b"none"
    return Message(CONFIRMABLE, GET, message.mid if message else 0, token, options)


def watched(server, device, path=PATH, further=""):
    """The token of an observation that the device has answered, with value 0 and number 1."""
    token = token_of(observe(server, device, path, further))
    count = len(notices(server, 0))
    request = device.heard()
    if request:
        device.answers(request, b"0", ((OBSERVE, b"\x01"),))
    notices(server, count + 1)
    return token


def in_order(scene):
    """The first block is acknowledged, and the others are asked for one after another, by their bytes."""
    value = Value(text_of(300))
    with scene.serving(*OBSERVES) as server, Large(server.port, "lamp") as lamp:
        token = watched(server, lamp, further="&accept=110")
        mid = lamp.begins(token, 2, value, further=((CONTENT_FORMAT, b"\x6e"), (SIZE2, unsigned(300))))
        scene.holds("the answer to a first block", answer_of(lamp.heard(), mid), "acknowledged")
        tokens = set()
        for number in (1, 2, 3, 4):
            scene.holds(f"notifications before block {number}", len(notices(server, 1)), 1)
            message, *_ = lamp.asked()
            want = requested(message, PATH, number, accept=110)
            scene.holds(f"the request for block {number}", message, want)
            tokens.add(want.token)
            options, part = value.block(number)
            lamp.answers(want, part, (*options[:-1], (CONTENT_FORMAT, b"\x6e"), options[-1]))
        scene.holds("tokens of these requests", len(tokens), 1)
        want = [noted(1, lamp.notice(token, 2, value.payload, kind="110"))]
        tells_from(scene, "the whole is told once", server, 1, want)
        scene.holds("what else the device hears", lamp.hears_nothing(), None)
        found = measures_of(server)
        scene.holds("fetches that go on", found.get("fleet_notification_fetches"), 0)
        scene.is_true("blocks that are counted", found.get("fleet_notification_blocks_total", 0) > 0, found)


# what a value is, and the kind of its notification
VALUES = (
    ("two blocks", Value(text_of(65)), CONFIRMABLE),
    ("two whole blocks", Value(text_of(128)), CONFIRMABLE),
    ("blocks of 16 bytes", Value(text_of(300), exponent=0), CONFIRMABLE),
    ("blocks of 1,024 bytes", Value(text_of(5_000), exponent=6), CONFIRMABLE),
    ("an ETag", Value(text_of(200), b"\x01\x02\x03\x04"), CONFIRMABLE),
    ("an ETag of a byte", Value(text_of(200), b"\x00"), NOT_CONFIRMABLE),
    ("not confirmable", Value(text_of(200)), NOT_CONFIRMABLE),
    ("most bytes but few", Value(text_of(8_160), exponent=6), CONFIRMABLE),
    ("one block", Value(text_of(64)), CONFIRMABLE),
    ("one block, not confirmable", Value(text_of(10)), NOT_CONFIRMABLE),
)


def sizes(scene):
    """Whatever the size of blocks, a notification is whole."""
    with scene.serving(*OBSERVES) as server, Large(server.port, "lamp") as lamp:
        token = watched(server, lamp)
        for number, (what, value, kind) in enumerate(VALUES, 1):
            mid = lamp.begins(token, number + 1, value, kind)
            if kind == CONFIRMABLE:
                scene.holds(f"{what}: the answer to the first block", answer_of(lamp.heard(), mid), "acknowledged")
            count = -(-len(value.payload) // (16 << value.exponent))
            asked = lamp.gives(value) if count > 1 else []
            scene.holds(f"{what}: what is asked", asked, [(it, value.exponent) for it in range(1, count)])
            want = [noted(number, lamp.notice(token, number + 1, value.payload))]
            tells_from(scene, f"{what}: what is told", server, number, want)
        scene.holds("what else the device hears", lamp.hears_nothing(), None)


def first_answer(scene):
    """The response to the request that observes may come in blocks, acknowledging it or apart."""
    value = Value(text_of(150))
    with scene.serving(*OBSERVES) as server, Large(server.port, "lamp") as lamp:
        for number, path in enumerate(("/3/0", "/3/1")):
            token = token_of(observe(server, lamp, path))
            options, part = value.block(0)
            request = lamp.heard()
            if number == 0:
                lamp.answers(request, part, ((OBSERVE, b"\x07"), *options))
            else:
                lamp.replies(ACKNOWLEDGEMENT, request.mid)
                mid = lamp.tells(token, 7, part, further=options)
                scene.holds("the answer to a response apart", answer_of(lamp.heard(), mid), "acknowledged")
            message, *_ = lamp.asked()
            scene.holds(f"the request for block 1 of {path}", message, requested(message, path, 1))
            lamp.answers(message, *reversed(value.block(1)))
            scene.holds(f"the rest of {path}", lamp.gives(value), [(2, OF_64)])
            want = [noted(number, lamp.notice(token, 7, value.payload, path=path))]
            tells_from(scene, f"what is told of {path}", server, number, want)


def rest(server, lamp, token, number, first, answer):
    """What is told where a notification begins with a value, and the request for block 1 is answered in some way."""
    mid = lamp.begins(token, number + 1, first)
    if answer_of(lamp.heard(), mid) != "acknowledged":
        return "not acknowledged"
    message, *_ = lamp.asked()
    if not message or message.token in (b"", bytes.fromhex(token)):
        return message
    answer(message)
    found = notices(server, number + 1)[number:]
    return [(it["notice"]["observe"], bytes.fromhex(it["notice"]["payload"]), it["complete"]) for it in found]


def other_states(scene):
    """Where the value changes in between, its blocks are fetched anew, and never mixed."""
    former, later = Value(text_of(200), b"\x01"), Value(text_of(260, b"b"), b"\x02")
    without, last = Value(text_of(200, b"c")), Value(text_of(180, b"d"), b"\x03")
    with scene.serving(*OBSERVES) as server, Large(server.port, "lamp") as lamp:
        token, asked = watched(server, lamp), []

        def changes_to(*values):
            def answer(message):
                for value in values:
                    number = int.from_bytes(message.option(BLOCK2), "big") >> 4
                    options, part = value.block(number)
                    lamp.answers(message, part, options)
                    message, number, exponent = lamp.asked()
                    asked.append((number, exponent))
                    if number is None:
                        return
                options, part = values[-1].block(number, exponent)
                lamp.answers(message, part, options)
                asked.extend(lamp.gives(values[-1]))

            return answer

        rows = (
            ("another ETag", former, (later,), [0, 1, 2, 3, 4]),
            ("an ETag that goes", former, (without,), [0, 1, 2, 3]),
            ("an ETag that comes", without, (later,), [0, 1, 2, 3, 4]),
            ("two other ETags", former, (later, last), [0, 0, 1, 2]),
            ("the state before again", former, (later, former), [0, 0, 1, 2, 3]),
        )
        for number, (what, first, values, want) in enumerate(rows, 1):
            asked.clear()
            got = rest(server, lamp, token, number, first, changes_to(*values))
            scene.holds(f"{what}: blocks that are asked for then", [it for it, _ in asked], want)
            scene.holds(f"{what}: what is told", got, [(number + 1, values[-1].payload, True)])
        scene.holds("what else the device hears", lamp.hears_nothing(), None)


def part(number, length=64, more=1, code=CONTENT):
    """A response with a block: its code, its options and its bytes."""
    return code, ((BLOCK2, value_of(number, more, OF_64)),), text_of(length)


RESETS, REFUSES = object(), (NOT_FOUND, (), b"gone")
# how requests for blocks of a value of 200 bytes are answered, one after another: by the block of a number, by a
# response, or by a Reset; and how many bytes have come then
CUTS = (
    ("4.04 at once", (REFUSES,), 64),
    ("4.04 in the middle", (1, REFUSES), 128),
    ("4.08 behind it", (1, 2, (0x88, (), b"")), 192),
    ("5.00", ((0xA0, (), b""),), 64),
    ("a Reset", (RESETS,), 64),
    ("a Reset in the middle", (1, RESETS), 128),
    ("another block than was asked for", (part(2),), 64),
    ("a block that came before", (1, part(1)), 128),
    ("a block that is short, and not the last", (part(1, length=63),), 64),
    ("a block that is too long", (part(1, length=65, more=0),), 64),
    ("2.04 in place of 2.05", (part(1, code=0x44),), 64),
    ("4.04 with an ETag", ((NOT_FOUND, ((ETAG, b"\x01"),), b""),), 64),
)


def answers_by(device, value, rows):
    """A function that answers a request for a block by the first row, and those that follow by the others."""

    def answer(message):
        for place, row in enumerate(rows):
            message = message if place == 0 else device.asked()[0]
            if row is RESETS:
                device.replies(RESET, message.mid)
                continue
            code, options, payload = (CONTENT, *value.block(row)) if isinstance(row, int) else row
            device.answers(message, payload, options, code)

    return answer


def cut_short(scene):
    """Where the rest does not come, what came is told, and that it is not all."""
    value = Value(text_of(200))
    with scene.serving(*OBSERVES) as server, Large(server.port, "lamp") as lamp:
        token = watched(server, lamp)
        for number, (what, rows, length) in enumerate(CUTS, 1):
            got = rest(server, lamp, token, number, value, answers_by(lamp, value, rows))
            scene.holds(f"{what}: what is told", got, [(number + 1, value.payload[:length], False)])
            scene.holds(f"{what}: what else the device hears", lamp.hears_nothing(), None)
        number = len(CUTS) + 1
        whole = answers_by(lamp, value, [(CONTENT, (), b"in one message")])
        got = rest(server, lamp, token, number, value, whole)
        scene.holds("a whole value in place of a block", got, [(number + 1, b"in one message", True)])
        scene.holds("the observation goes on", lamp.told(token, 100, b"x"), "acknowledged")
        notices(server, number + 2)
        too_long(scene, server, lamp, token, number + 2)


def too_long(scene, server, lamp, token, number):
    """A notification of more than 8,192 bytes is told as far as its blocks came."""
    value = Value(text_of(9_000), exponent=6)
    mid = lamp.begins(token, 101, value)
    scene.holds("a value of 9,000 bytes: the answer to its first block", answer_of(lamp.heard(), mid), "acknowledged")
    found = []
    while len(found) < len(value.payload) // 1024 + 1:
        message, block, exponent = lamp.asked(SOON if not found else 1.0)
        if block is None:
            break
        found.append(block)
        lamp.answers(message, *reversed(value.block(block, exponent)))
    got = notices(server, number + 1)[number:]
    told_of = [(bytes.fromhex(it["notice"]["payload"]), it["complete"]) for it in got]
    scene.holds("what is asked for", found, list(range(1, MOST_BYTES // 1024)))
    scene.holds("what is told of it", told_of, [(value.payload[: MOST_BYTES - 1024], False)])


def smaller_blocks(scene):
    """A device may give smaller blocks than it was asked for (RFC 7959, section 2.4)."""
    value = Value(text_of(300))
    with scene.serving(*OBSERVES) as server, Large(server.port, "lamp") as lamp:
        token = watched(server, lamp)
        asked = []

        def answer(message):
            lamp.answers(message, *reversed(value.block(2, 1)))
            asked.extend(lamp.gives(value))

        got = rest(server, lamp, token, 1, value, answer)
        scene.holds("what is asked for behind a block of 32 bytes", asked, [(it, 1) for it in range(3, 10)])
        scene.holds("what is told of smaller blocks", got, [(2, value.payload, True)])


def apart(scene):
    """Responses to requests for blocks may be confirmable, and are then acknowledged; a block may come twice."""
    value = Value(text_of(200))
    with scene.serving(*OBSERVES) as server, Large(server.port, "lamp") as lamp:
        token, mids = watched(server, lamp), []

        def answer(message):
            for number in (1, 2, 3):
                message = message if number == 1 else lamp.asked()[0]
                if number != 2:
                    lamp.replies(ACKNOWLEDGEMENT, message.mid)
                options, part = value.block(number)
                kind = CONFIRMABLE if number < 3 else NOT_CONFIRMABLE
                mids.append(next(lamp.mids))
                lamp.say(bytes_of(Message(kind, CONTENT, mids[-1], message.token, options, part)))
                if kind == CONFIRMABLE:
                    found = answer_of(lamp.heard(), mids[-1])
                    scene.holds(f"the answer to block {number}, which comes apart", found, "acknowledged")

        got = rest(server, lamp, token, 1, value, answer)
        scene.holds("what is told of blocks that come apart", got, [(2, value.payload, True)])
        scene.holds("what else the device hears", lamp.hears_nothing(MOST_WAIT + LATER), None)


def lost_blocks(scene):
    """A request for a block that is not answered comes again."""
    value = Value(text_of(200))
    with scene.serving(*OBSERVES) as server, Large(server.port, "lamp") as lamp:
        token = watched(server, lamp)
        lamp.begins(token, 2, value)
        lamp.heard()
        first, begun = lamp.hear(SOON) or b"", time.monotonic()
        want = b"\x44\x01" + first[2:8] + bytes.fromhex("b1330130c112")
        scene.holds("the bytes of a request for a block", first.hex(), want.hex())
        again = lamp.hear(MOST_WAIT + LATER)
        seconds = time.monotonic() - begun
        scene.holds("the request for a block comes again", again, first)
        is_right = LEAST_WAIT - EARLIER <= seconds <= MOST_WAIT + LATER
        scene.is_true(f"it comes after {seconds:.2f} s", is_right, seconds)
        lamp.answers(parsed(first), *reversed(value.block(1)))
        scene.holds("the rest of the blocks", lamp.gives(value), [(2, OF_64), (3, OF_64)])
        want = [noted(1, lamp.notice(token, 2, value.payload))]
        tells_from(scene, "the whole then", server, 1, want)
        if scene.is_long:
            silent_fetch(scene, server, lamp, token)


def silent_fetch(scene, server, lamp, token):
    """Where no block comes at all, what came is told once the last wait is over."""
    value, begun = Value(text_of(200)), time.monotonic()
    lamp.begins(token, 3, value)
    is_soon(lambda: len(notices(server, 0)) > 2, 31 * MOST_WAIT + LATER)
    seconds = time.monotonic() - begun
    is_right = 31 * LEAST_WAIT - EARLIER <= seconds <= 31 * MOST_WAIT + LATER
    scene.is_true(f"a fetch of a device that is silent ends after {seconds:.1f} s", is_right, seconds)
    found = [(it["notice"]["payload"], it["complete"]) for it in notices(server, 3)[2:]]
    scene.holds("what is told of it", found, [(value.payload[:64].hex(), False)])


def newer_while_fetched(scene):
    """A newer notification that comes while blocks are fetched is told whole, and no older one behind it."""
    former, later = Value(text_of(300), b"\x01"), Value(text_of(200, b"b"), b"\x02")
    with scene.serving(*OBSERVES) as server, Large(server.port, "lamp") as lamp:
        token = watched(server, lamp)
        lamp.begins(token, 2, former)
        lamp.heard()
        first, *_ = lamp.asked()
        mid = lamp.begins(token, 3, later)
        heard = [lamp.heard(), lamp.heard()]
        found = [answer_of(it, mid) for it in heard]
        scene.is_true("a newer first block is acknowledged", "acknowledged" in found, heard)
        request = next((it for it in heard if it and it.option(BLOCK2)), None)
        scene.is_true("the request for its next block", request and request.token != first.token, heard)
        # the former request is answered too, with what is there now
        lamp.answers(first, *reversed(later.block(1)))
        if request:
            lamp.answers(request, *reversed(later.block(1)))
        while lamp.asked(NOTHING)[1] is not None:
            pass
        lamp.ping()
        lamp.told(token, 4, b"last")
        is_soon(lambda: any(it["notice"]["observe"] == 4 for it in notices(server, 0)))
        payloads = [bytes.fromhex(it["notice"]["payload"]) for it in notices(server, 0) if it["complete"]][1:]
        mixed = [it for it in payloads if it not in (former.payload, later.payload, b"last")]
        scene.holds("complete payloads that are none of the values", mixed, [])
        numbers = [it["notice"]["observe"] for it in notices(server, 0)]
        scene.holds("numbers in their order", numbers, sorted(numbers))
        plain_while_fetched(scene, server, lamp, token)


def plain_while_fetched(scene, server, lamp, token):
    """A newer notification in one message comes while blocks of an older one are fetched."""
    former, before = Value(text_of(300, b"c"), b"\x01"), len(notices(server, 0))
    lamp.begins(token, 5, former)
    lamp.heard()
    request, *_ = lamp.asked()
    scene.holds("a newer notification in one message", lamp.told(token, 6, b"now"), "acknowledged")
    notices(server, before + 1)
    for _ in range(4):
        if not request or request.option(BLOCK2) is None:
            break
        lamp.answers(request, *reversed(former.block(int.from_bytes(request.option(BLOCK2), "big") >> 4)))
        request, *_ = lamp.asked(NOTHING)
    lamp.ping()
    time.sleep(NOTHING)
    found = [it["notice"]["observe"] for it in notices(server, 0)][before:]
    scene.holds("what is told then, by numbers", found[:1], [6])
    scene.holds("numbers that fall", found, sorted(found))


def several_fetches(scene):
    """Blocks of several devices and paths are fetched at once, each by a token of its own."""
    with scene.serving(*OBSERVES) as server:
        devices = [Large(server.port, f"lamp-{it}", own=1 + it) for it in range(6)]
        values = [Value(text_of(200 + it, b"%c" % (97 + it))) for it in range(6)]
        tokens = [watched(server, it) for it in devices]
        seconds = [watched(server, it, "/5") for it in devices]
        for device, value, one, other in zip(devices, values, tokens, seconds):
            device.begins(one, 2, value)
            device.begins(other, 2, value)
        asked = [(device, device.heard()) for device in devices for _ in range(4)]
        requests = [(device, it) for device, it in asked if it and it.option(BLOCK2)]
        own = {it.token for _, it in requests}
        scene.holds("requests at once, and their tokens", (len(requests), len(own)), (12, 12))
        for number in (1, 2, 3):
            for device, request in requests:
                if request:
                    device.answers(request, *reversed(values[devices.index(device)].block(number)))
            requests = [(device, device.heard()) for device, _ in requests] if number < 3 else []
        whole = [it["notice"] for it in notices(server, 24)[12:] if it["complete"]]
        found = sorted((it["token"], it["payload"]) for it in whole)
        want = [(token, value.payload.hex()) for token, value in (*zip(tokens, values), *zip(seconds, values))]
        scene.holds("what is told of each", found, sorted(want))
        for it in devices:
            it.close()


def no_fetches(scene):
    """No block is asked for of what is nobody's, of another block than the first, or of what is older."""
    value = Value(text_of(200))
    with scene.serving(*OBSERVES) as server, Large(server.port, "lamp") as lamp:
        token = watched(server, lamp)
        mid = lamp.begins(f"{int(token, 16) ^ 1 << 40:016x}", 2, value)
        scene.holds("a first block of nobody", answer_of(lamp.heard(), mid), "reset")
        scene.holds("a newer notification", lamp.told(token, 9, b"9"), "acknowledged")
        scene.holds("older ones before", stale_of(server), 0)
        mid = lamp.begins(token, 8, value)
        scene.holds("an older first block", answer_of(lamp.heard(), mid), "acknowledged")
        while (asked := lamp.asked(NOTHING))[1] is not None:
            lamp.answers(asked[0], *reversed(value.block(asked[1])))
        lamp.ping()
        scene.holds("what is told", [it["notice"]["observe"] for it in notices(server, 3, 1)], [1, 9])
        is_soon(lambda: stale_of(server) == 1)
        scene.holds("older ones", stale_of(server), 1)


LARGER = (
    in_order,
    sizes,
    first_answer,
    other_states,
    cut_short,
    smaller_blocks,
    apart,
    lost_blocks,
    newer_while_fetched,
    several_fetches,
    no_fetches,
)

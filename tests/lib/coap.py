"""The messages of an LwM2M client, spelled as CoAP has them (RFC 7252, section 3), and the replies that it reads."""

import struct
from typing import NamedTuple

CONFIRMABLE, NOT_CONFIRMABLE, ACKNOWLEDGEMENT, RESET = 0, 1, 2, 3
EMPTY, GET, POST, DELETE, CONTENT, NOT_FOUND = 0x00, 0x01, 0x02, 0x04, 0x45, 0x84
ETAG, OBSERVE, LOCATION_PATH, URI_PATH, CONTENT_FORMAT, URI_QUERY, ACCEPT = 4, 6, 8, 11, 12, 15, 17
BLOCK2, BLOCK1 = 23, 27
LINK_FORMAT = b"\x28"
PING, PONG = bytes.fromhex("40000001"), bytes.fromhex("70000001")


class Request(NamedTuple):
    """What is asked: pairs of an option's number and its value, the numbers rising."""

    code: int
    options: tuple
    payload: bytes = b""


class Message(NamedTuple):
    """A message whole, its options as those of a request."""

    kind: int
    code: int
    mid: int
    token: bytes
    options: tuple = ()
    payload: bytes = b""

    def option(self, number):
        """The value of an option, of several the first, or none."""
        return next((value for it, value in self.options if it == number), None)


class Reply(NamedTuple):
    """What was answered: the code as 2.01, and the last segment of the Location-Path."""

    code: str
    mid: int
    token: bytes
    located: str


def register(endpoint, lifetime=86400, objects=b"</1/0>,</3/0>", further=("b=U",)):
    queries = (f"ep={endpoint}", f"lt={lifetime}", "lwm2m=1.1", *further)
    options = ((URI_PATH, b"rd"), (CONTENT_FORMAT, LINK_FORMAT), *((URI_QUERY, it.encode()) for it in queries))
    return Request(POST, options, objects)


def update(identifier, lifetime=None):
    queries = [] if lifetime is None else [(URI_QUERY, b"lt=%d" % lifetime)]
    return Request(POST, ((URI_PATH, b"rd"), (URI_PATH, identifier.encode()), *queries))


def deregister(identifier):
    return Request(DELETE, ((URI_PATH, b"rd"), (URI_PATH, identifier.encode())))


def nibble(number):
    """The four bits of a number in the head of an option, and the bytes that follow the head."""
    if number < 13:
        return number, b""
    if number < 269:
        return 13, bytes([number - 13])
    return 14, struct.pack("!H", number - 269)


def unsigned(number):
    """A number as the value of an option: without bytes 0 before it (RFC 7252, section 3.2)."""
    return number.to_bytes((number.bit_length() + 7) // 8, "big")


def spelled(request, mid, token, kind=CONFIRMABLE):
    """A request, or what a message tells, as the bytes of a message."""
    parts = [struct.pack("!BBH", 0x40 | kind << 4 | len(token), request.code, mid), token]
    last = 0
    for number, value in request.options:
        (delta, more), (length, further) = nibble(number - last), nibble(len(value))
        parts += [bytes([delta << 4 | length]), more, further, value]
        last = number
    if request.payload:
        parts += [b"\xff", request.payload]
    return b"".join(parts)


def bytes_of(message):
    """A message as its bytes."""
    return spelled(message, message.mid, message.token, message.kind)


def taken(bits, message, at):
    """The number that four bits begin, and where what follows it begins."""
    if bits < 13:
        return bits, at
    if bits == 13:
        return 13 + message[at], at + 1
    return 269 + struct.unpack_from("!H", message, at)[0], at + 2


def parsed(text):
    """The message that its bytes spell, or none."""
    if len(text) < 4 or text[0] >> 6 != 1:
        return None
    code, mid = struct.unpack_from("!BH", text, 1)
    at = 4 + (text[0] & 15)
    token, number, options = text[4:at], 0, []
    while at < len(text) and text[at] != 0xFF:
        head = text[at]
        delta, at = taken(head >> 4, text, at + 1)
        length, at = taken(head & 15, text, at)
        number += delta
        options.append((number, text[at : at + length]))
        at += length
    return Message(text[0] >> 4 & 3, code, mid, token, tuple(options), text[at + 1 :])


def read(text):
    """A reply that its bytes spell, or none."""
    message = parsed(text)
    if not message:
        return None
    located = [value.decode() for number, value in message.options if number == LOCATION_PATH]
    code = f"{message.code >> 5}.{message.code & 31:02}"
    return Reply(code, message.mid, message.token, located[-1] if located else "")

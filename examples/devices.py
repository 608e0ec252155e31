#!/usr/bin/env python3
"""Simulated LwM2M devices, to try a registration server with: examples/devices.py [N] [OPTIONS]

Each of the N devices has a UDP socket of its own. It registers, updates its registration before that expires, and
registers again where the server does not know it any more. The server may observe the device's battery level (/3/0/9)
and its temperature (/3303/0/5700): the device then sends new values as notifications. On Ctrl-C all deregister.

Needs Python 3.8 or later, and nothing else. Status 0 where all could register and deregister, else 1.
"""

import argparse
import asyncio
import itertools
import random
import signal
import struct
import sys
from typing import NamedTuple

# Types and codes of CoAP messages (RFC 7252, section 12.1), a code being its class times 32 and its detail.
CONFIRMABLE, ACKNOWLEDGEMENT, RESET = 0, 2, 3
EMPTY, GET, POST, DELETE = 0x00, 0x01, 0x02, 0x04
CREATED, DELETED, CHANGED, CONTENT = 0x41, 0x42, 0x44, 0x45
NOT_FOUND, METHOD_NOT_ALLOWED, NOT_ACCEPTABLE = 0x84, 0x85, 0x86
# Numbers of CoAP options (RFC 7252, section 12.2, and RFC 7641).
OBSERVE, LOCATION_PATH, URI_PATH, CONTENT_FORMAT, URI_QUERY, ACCEPT = 6, 8, 11, 12, 15, 17
TEXT_PLAIN, LINK_FORMAT = 0, 40

# A request is sent again after 2 seconds, then after 4 and 8 more, and given up 16 seconds later.
WAITS = (2, 4, 8, 16)
OBJECTS = "</1/0>,</3/0>,</3303/0>"


class Message(NamedTuple):
    """A CoAP message; its options are pairs of a number and a value."""

    kind: int
    code: int
    message_id: int
    token: bytes = b""
    options: tuple = ()
    payload: bytes = b""

    def values(self, number):
        """The values of the options with this number."""
        return [value for it, value in self.options if it == number]

    def number(self, option):
        """The value of a numeric option, or None where the message has no such option."""
        values = self.values(option)
        return int.from_bytes(values[0], "big") if values else None


def number_value(number):
    """A number as the value of an option: big-endian, without leading zero bytes."""
    return number.to_bytes((number.bit_length() + 7) // 8, "big")


def split_number(number):
    """The 4-bit field that stands for a delta or a length, and the bytes that extend it."""
    if number < 13:
        return number, b""
    if number < 269:
        return 13, bytes([number - 13])
    return 14, struct.pack("!H", number - 269)


def join_number(field, datagram, at):
    """The delta or length that a 4-bit field begins, and where its extension ends."""
    if field < 13:
        return field, at
    if field == 13:
        return datagram[at] + 13, at + 1
    return struct.unpack_from("!H", datagram, at)[0] + 269, at + 2


def encode(message):
    """The datagram of a message (RFC 7252, section 3)."""
    head = 0x40 | message.kind << 4 | len(message.token)
    parts = [struct.pack("!BBH", head, message.code, message.message_id), message.token]
    previous = 0
    for number, value in sorted(message.options, key=lambda option: option[0]):
        delta, more_delta = split_number(number - previous)
        length, more_length = split_number(len(value))
        parts += [bytes([delta << 4 | length]), more_delta, more_length, value]
        previous = number
    if message.payload:
        parts += [b"\xff", message.payload]
    return b"".join(parts)


def decode(datagram):
    """The message of a datagram. Raises an IndexError or a struct.error where it is cut short."""
    head, code, message_id = struct.unpack_from("!BBH", datagram)
    at = 4 + (head & 15)
    token, number, options = datagram[4:at], 0, []
    while at < len(datagram) and datagram[at] != 0xFF:
        fields, at = datagram[at], at + 1
        delta, at = join_number(fields >> 4, datagram, at)
        length, at = join_number(fields & 15, datagram, at)
        number += delta
        options.append((number, datagram[at : at + length]))
        at += length
    return Message(head >> 4 & 3, code, message_id, token, tuple(options), datagram[at + 1 :])


class Refused(Exception):
    """The server answered a request with the code of an error, or not at all: then the code is None."""

    def __init__(self, code):
        super().__init__("no answer" if code is None else f"refused: {code >> 5}.{code & 31:02}")
        self.code = code


class Device(asyncio.DatagramProtocol):
    """A device with a battery and a thermometer."""

    def __init__(self, endpoint, options):
        self.endpoint, self.options = endpoint, options
        self.transport = None
        self.registration = None  # the path of the registration at the server
        self.message_ids = itertools.count(random.randrange(1 << 16))
        self.tokens = itertools.count(1)
        self.replies = {}  # the replies that are waited for, by message ID
        self.observers = {}  # the token of the observation of each path that is observed
        self.observe_numbers = itertools.count(1)
        self.battery, self.temperature = 100.0, 20 + random.random()

    def connection_made(self, transport):
        self.transport = transport

    def error_received(self, fault):
        """The server's port is closed: the request is sent again later, as any that is not answered."""

    def datagram_received(self, datagram, source):
        try:
            message = decode(datagram)
        except (IndexError, struct.error):
            return
        if message.kind in (ACKNOWLEDGEMENT, RESET):
            reply = self.replies.get(message.message_id)
            if reply and not reply.done():
                reply.set_result(message)
        elif 0 < message.code < 32:
            self.send(self.response_to(message))

    def send(self, message):
        self.transport.sendto(encode(message))

    def next_message_id(self):
        return next(self.message_ids) & 0xFFFF

    async def exchange(self, message):
        """Sends a confirmable message until it is answered, and gives what answers it, or None."""
        reply = self.replies[message.message_id] = asyncio.get_running_loop().create_future()
        try:
            for wait in WAITS:
                self.send(message)
                done, _ = await asyncio.wait([reply], timeout=wait)
                if done:
                    return reply.result()
            return None
        finally:
            del self.replies[message.message_id]

    async def ask(self, code, path, queries=(), payload="", want=CHANGED):
        """The response to a request. Raises `Refused` where it has another code than is wanted."""
        options = [(URI_PATH, segment.encode()) for segment in path]
        options += [(URI_QUERY, query.encode()) for query in queries]
        options += [(CONTENT_FORMAT, number_value(LINK_FORMAT))] if payload else []
        token = struct.pack("!I", next(self.tokens))
        request = Message(CONFIRMABLE, code, self.next_message_id(), token, tuple(options), payload.encode())
        response = await self.exchange(request)
        if response is None or response.code != want:
            raise Refused(response and response.code)
        return response

    async def register(self):
        queries = (f"ep={self.endpoint}", f"lt={self.options.lifetime}", "lwm2m=1.1", "b=U")
        response = await self.ask(POST, ["rd"], queries, OBJECTS, want=CREATED)
        self.registration = [segment.decode() for segment in response.values(LOCATION_PATH)]
        self.observers.clear()

    async def update(self):
        """Updates the registration, or registers again where the server does not know it any more."""
        try:
            await self.ask(POST, self.registration)
        except Refused as fault:
            if fault.code != NOT_FOUND:
                raise
            await self.register()

    async def deregister(self):
        await self.ask(DELETE, self.registration, want=DELETED)

    def values(self):
        """The resources that can be read and observed, and their values as text."""
        return {"/3/0/9": f"{self.battery:.0f}", "/3303/0/5700": f"{self.temperature:.1f}"}

    def response_to(self, request):
        """The response to a request of the server, which begins or ends an observation where it asks for that."""
        path = "".join(f"/{segment.decode(errors='replace')}" for segment in request.values(URI_PATH))
        value, code, options = self.values().get(path), CONTENT, ()
        if value is None:
            code = NOT_FOUND
        elif request.code != GET:
            code = METHOD_NOT_ALLOWED
        elif request.number(ACCEPT) not in (None, TEXT_PLAIN):
            code = NOT_ACCEPTABLE
        elif request.number(OBSERVE) == 0:
            self.observers[path] = request.token
            options = self.observe_option()
        elif request.number(OBSERVE) == 1:
            self.observers.pop(path, None)
        payload = value.encode() if code == CONTENT else b""
        options += ((CONTENT_FORMAT, number_value(TEXT_PLAIN)),) if payload else ()
        return Message(ACKNOWLEDGEMENT, code, request.message_id, request.token, options, payload)

    def observe_option(self):
        return ((OBSERVE, number_value(next(self.observe_numbers) & 0xFFFFFF)),)

    async def notify(self, path):
        """Sends the value of an observed path. Where a Reset answers it, the server does not observe the path."""
        token = self.observers[path]
        options = (*self.observe_option(), (CONTENT_FORMAT, number_value(TEXT_PLAIN)))
        payload = self.values()[path].encode()
        answer = await self.exchange(Message(CONFIRMABLE, CONTENT, self.next_message_id(), token, options, payload))
        if answer and answer.kind == RESET and self.observers.get(path) == token:
            del self.observers[path]

    async def keep_updating(self):
        while True:
            await asyncio.sleep(self.options.update * random.uniform(0.9, 1.1))
            try:
                await self.update()
            except Refused as fault:
                print(f"{self.endpoint}: {fault}", file=sys.stderr)

    async def keep_measuring(self):
        while True:
            await asyncio.sleep(self.options.notify)
            self.battery = max(self.battery - random.random(), 0)
            self.temperature += random.uniform(-0.5, 0.5)
            for path in list(self.observers):
                await self.notify(path)


async def open_device(endpoint, options):
    """A device whose socket is open."""
    loop, server = asyncio.get_running_loop(), (options.host, options.port)
    _, device = await loop.create_datagram_endpoint(lambda: Device(endpoint, options), remote_addr=server)
    return device


async def all_do(devices, action):
    """Has all devices do something, a few milliseconds apart, and tells how many could."""

    async def does(place, device):
        await asyncio.sleep(0.002 * place)
        try:
            await action(device)
        except Refused as fault:
            print(f"{device.endpoint}: {fault}", file=sys.stderr)
            return False
        return True

    return sum(await asyncio.gather(*(does(place, device) for place, device in enumerate(devices))))


async def run(options):
    """Runs the devices until a signal comes, and gives the status."""
    stopped = asyncio.Event()
    for number in (signal.SIGINT, signal.SIGTERM):
        asyncio.get_running_loop().add_signal_handler(number, stopped.set)
    devices = [await open_device(f"{options.name}-{it}", options) for it in range(1, options.devices + 1)]
    registered = await all_do(devices, Device.register)
    print(f"{registered} of {len(devices)} devices registered at {options.host}:{options.port}", flush=True)
    known = [device for device in devices if device.registration]
    tasks = [asyncio.ensure_future(it) for one in known for it in (one.keep_updating(), one.keep_measuring())]
    if registered:
        await stopped.wait()
    for task in tasks:
        task.cancel()
    await asyncio.gather(*tasks, return_exceptions=True)
    deregistered = await all_do(known, Device.deregister)
    print(f"{deregistered} of {len(known)} devices deregistered", flush=True)
    return 0 if len(devices) == registered == deregistered else 1


def main():
    parser = argparse.ArgumentParser(description="Simulated LwM2M devices. Ctrl-C ends them.")
    parser.add_argument("devices", nargs="?", type=int, default=1, help="how many devices (default: %(default)s)")
    parser.add_argument("--host", default="127.0.0.1", help="address of the server (default: %(default)s)")
    parser.add_argument("--port", type=int, default=5683, help="UDP port of the server (default: %(default)s)")
    parser.add_argument("--name", default="device", help="endpoints are NAME-1, NAME-2, .. (default: %(default)s)")
    parser.add_argument("--lifetime", type=int, default=60, help="lifetime in seconds (default: %(default)s)")
    parser.add_argument("--update", type=float, default=20, help="seconds between Updates (default: %(default)s)")
    parser.add_argument("--notify", type=float, default=2, help="seconds between notifications (default: %(default)s)")
    return asyncio.run(run(parser.parse_args()))


if __name__ == "__main__":
    sys.exit(main())

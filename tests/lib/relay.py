"""A relay between devices and a server that loses, doubles and reorders datagrams, and devices that send again."""

import random
import select
import socket
import threading
import time

import coap
from asking import Client

# one of so many datagrams is lost, comes twice, or comes behind the next one
TROUBLED = 3
# how long a datagram is held back where no other comes, in seconds
HELD = 0.05
# RFC 7252, section 4.8, with the seconds of ACK_TIMEOUT shortened to a tenth
ACK_TIMEOUT, ACK_RANDOM_FACTOR, MAX_RETRANSMIT = 0.2, 1.5, 8


class Relay(threading.Thread):
    """Passes datagrams between devices and a server, until it is stopped. Each device is a source of its own."""

    def __init__(self, port, seed):
        super().__init__(daemon=True)
        self.server, self.chance, self.stopped = ("127.0.0.1", port), random.Random(seed), threading.Event()
        self.front = socket.socket(socket.AF_INET, socket.SOCK_DGRAM)
        self.front.bind(("127.0.0.1", 0))
        self.port = self.front.getsockname()[1]
        # the socket that stands for each device, and the device of each socket
        self.backs, self.devices = {}, {}
        self.seen, self.held = 0, []
        self.troubles = {"lost": 0, "doubled": 0, "held": 0}

    def back_of(self, device):
        if device not in self.backs:
            self.backs[device] = socket.socket(socket.AF_INET, socket.SOCK_DGRAM)
            self.devices[self.backs[device]] = device
        return self.backs[device]

    def run(self):
        while not self.stopped.is_set():
            ready, _, _ = select.select([self.front, *self.devices], [], [], HELD)
            for it in ready:
                datagram, source = it.recvfrom(9000)
                if it is self.front:
                    self.passes(self.back_of(source), self.server, datagram)
                else:
                    self.passes(self.front, self.devices[it], datagram)
            if not ready:
                self.releases()

    def passes(self, through, to, datagram):
        """Passes one on, or does something else with each third."""
        self.seen += 1
        trouble = self.chance.choice(list(self.troubles)) if self.seen % TROUBLED == 0 else "none"
        if trouble != "none":
            self.troubles[trouble] += 1
        if trouble == "held":
            self.held.append((through, to, datagram))
            return
        for _ in range({"lost": 0, "doubled": 2}.get(trouble, 1)):
            through.sendto(datagram, to)
        self.releases()

    def releases(self):
        """Passes on what was held back."""
        for through, to, datagram in self.held:
            through.sendto(datagram, to)
        self.held = []

    def stops(self):
        self.stopped.set()
        self.join()
        for it in (self.front, *self.devices):
            it.close()


class Retransmitter(threading.Thread):
    """A device that makes requests one after another, each sent again until it is answered (RFC 7252, section 4.2)."""

    def __init__(self, number, port, requests):
        super().__init__(daemon=True)
        self.number, self.port, self.requests = number, port, requests
        self.chance, self.replies = random.Random(number), []

    def run(self):
        with Client(self.port) as client:
            for number, request in enumerate(self.requests):
                mid = self.number * 7 + number & 0xFFFF
                token = number.to_bytes(2, "big")
                self.replies.append(self.answered(client, coap.spelled(request, mid, token), mid, token))

    def answered(self, client, datagram, mid, token):
        """The reply with this message ID and token, or none where each attempt was in vain."""
        wait = self.chance.uniform(ACK_TIMEOUT, ACK_TIMEOUT * ACK_RANDOM_FACTOR)
        for _attempt in range(1 + MAX_RETRANSMIT):
            client.say(datagram)
            end = time.monotonic() + wait
            while (left := end - time.monotonic()) > 0:
                heard = client.hear(left)
                reply = coap.read(heard) if isinstance(heard, bytes) else None
                if reply and (reply.mid, reply.token) == (mid, token):
                    return reply
            wait *= 2
        return None

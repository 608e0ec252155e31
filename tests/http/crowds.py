"""Visitors who are slow, idle or many, beside devices and floods: nobody else waits for them."""

import multiprocessing
import os
import re
import resource
import selectors
import signal
import socket
import threading
import time

import coap
from asking import Client, codes_of, registered
from checks import SERVES
from visiting import Visitor, answer_to, ask, connected, hear, is_closed, read, say, spelled

HEALTH = spelled("/v1/health")
# how many seconds a visit has, and how much later its end may be seen
VISIT, LATER = 5.0, 2.0
SEATS, IDLE = 16, 40
# how many seconds old a visit is that has not asked before it makes room, and how long a turn without datagrams waits
FRESH, TURN = 1.0, 1.0
# visitors who come at once: one more than there are seats, and more than the system keeps waiting
AT_ONCE = 17, 64, 200
DATAGRAMS, VISITORS, LEAST_ANSWERS = 5_000, 16, 1_000
FLOOD = 3.0
# more than the buffer of a socket holds, where it is 8 MB and a datagram takes 832 bytes of it
FLOODED = 12_000
# 64 lists of some 7 KB are a page of nearly half a megabyte
VERY_LONG_LIST = b",".join(b"</%d/0>;title=some-more-bytes" % number for number in range(1000, 1220))
SEGMENT = 536


def visited_for(address, pieces, pause=0.0):
    """What comes until the connection is closed, and how many seconds it was open."""
    with connected(address, VISIT + 2 * LATER) as visitor:
        begun = time.monotonic()
        say(visitor, pieces, pause)
        return hear(visitor), time.monotonic() - begun


class Slow(threading.Thread):
    """A visitor who takes a long page a byte a second, and all the rest once his visit must be over."""

    def __init__(self, address):
        super().__init__(daemon=True)
        self.address, self.text = address, b""

    def run(self):
        with socket.socket() as visitor:
            # so little is under way that the system holds a small part of the page
            visitor.setsockopt(socket.SOL_SOCKET, socket.SO_RCVBUF, 4096)
            visitor.setsockopt(socket.IPPROTO_TCP, socket.TCP_MAXSEG, SEGMENT)
            visitor.connect(self.address)
            visitor.settimeout(VISIT)
            say(visitor, [spelled("/v1/registrations")])
            end = time.monotonic() + VISIT + LATER
            while time.monotonic() < end:
                self.text += visitor.recv(1)
                time.sleep(1)
            self.text += hear(visitor)


def slow_visitors(scene):
    """A visit has five seconds, whatever comes in them, and others are answered meanwhile."""
    with scene.serving(*SERVES) as server:
        found = registered(server.port, 64, at_once=8, objects=VERY_LONG_LIST)
        whole = len(answer_to(server.visited, spelled("/v1/registrations")))
        scene.is_true(f"a page of {len(found)} long lists has {whole} bytes", whole > 400_000, whole)
        reader, other = Slow(server.visited), Visitor(server.visited, 0.05)
        rows = (("nothing", [], 0), ("half a head", [HEALTH[:30]], 0), ("a byte each half second", [b"G"] * 9, 0.5))
        lived = {}
        threads = [threading.Thread(target=lives, args=(lived, server.visited, row)) for row in rows]
        with Client(server.port) as client:
            for thread in (reader, other, *threads):
                thread.start()
            answered = [client.ping(1) for _ in range(100) if not time.sleep(0.07)]
            for thread in (reader, *threads):
                thread.join()
            other.stopped.set()
            other.join()
    for check, (text, seconds) in lived.items():
        is_right = text == b"" and VISIT - 0.5 < seconds < VISIT + LATER
        scene.is_true(f"a visitor who sends {check} is closed after {seconds:.1f} s", is_right, (text, seconds))
    part = len(reader.text)
    scene.is_true(f"a reader of a byte a second gets {part} bytes", 0 < part < whole // 2, f"{whole} is all")
    scene.holds("pings unanswered beside them", answered.count(False), 0)
    asked_meanwhile(scene, "beside slow visitors", other, 50)


def lives(lived, address, row):
    check, pieces, pause = row
    lived[check] = visited_for(address, pieces, pause)


def asked_meanwhile(scene, check, visitor, least):
    """A visitor was answered all the while, and waited less than a second."""
    scene.holds(f"{check}, visits that fail", visitor.faults[:1], [])
    scene.is_true(f"{check}, {visitor.answers} answers", visitor.answers >= least, f"fewer than {least}")
    scene.is_true(f"{check}, the longest wait is {visitor.longest:.2f} s", visitor.longest < 1, "a second or more")


class Arrivals:
    """Visitors who come at once and ask so many seconds after they have connected."""

    def __init__(self, address, count, pause=0.0):
        self.begun, self.pause, self.address = time.monotonic(), pause, address
        # of each answer its status, and how long its visitor waited for it
        self.answers, self.longest = [], 0.0
        self.waiting = selectors.DefaultSelector()
        for _ in range(count):
            visitor = socket.socket()
            visitor.setblocking(False)
            visitor.connect_ex(address)
            self.waiting.register(visitor, selectors.EVENT_WRITE)

    def all_answers(self):
        """The status of each answer, once all have come, or ten seconds are over."""
        while (left := self.begun + 10 - time.monotonic()) > 0 and self.waiting.get_map():
            for key, _ in self.waiting.select(left):
                self.goes_on(key.fileobj, key.events)
        for key in list(self.waiting.get_map().values()):
            self.ends(key.fileobj, "no answer")
        return self.answers

    def goes_on(self, visitor, events):
        if events == selectors.EVENT_WRITE:
            time.sleep(self.pause)
            self.pause = 0.0
            say(visitor, [HEALTH])
            self.waiting.modify(visitor, selectors.EVENT_READ)
            return
        visitor.setblocking(True)
        visitor.settimeout(VISIT)
        self.ends(visitor, read(hear(visitor)).status)
        self.longest = max(self.longest, time.monotonic() - self.begun)

    def ends(self, visitor, status):
        self.answers.append(status)
        self.waiting.unregister(visitor)
        visitor.close()


def arrivals(scene):
    """However many come at once, each is let in as soon as there is a seat, and none is closed without an answer."""
    with scene.serving(*SERVES) as server:
        for count in AT_ONCE:
            for pause in (0.0, 0.02):
                check = f"{count} visitors at once, who ask {pause:.2f} s after they connect"
                found = Arrivals(server.visited, count, pause)
                scene.holds(check, found.all_answers(), ["200 OK"] * count)
                # a server that waits for the end of a turn with each 16 would take several
                most = TURN * (1 + count // 100)
                waited = f"{check}: the last waits {found.longest:.2f} s"
                scene.is_true(waited, found.longest < most, f"{most} s or more")


def silent_visitors(scene):
    """Sixteen who say nothing have all seats: whoever comes next waits until the first was there for a second."""
    with scene.serving(*SERVES) as server:
        visitors = [connected(server.visited) for _ in range(SEATS)]
        begun = time.monotonic()
        used = server.processor_seconds()
        response, waited = ask(server.visited, "/v1/health"), time.monotonic() - begun
        used = server.processor_seconds() - used
        scene.holds(f"a visitor beside {SEATS} silent ones", response.status, "200 OK")
        is_right = FRESH / 2 < waited < FRESH + TURN / 2
        scene.is_true(f"he waits {waited:.2f} s for a seat", is_right, f"about {FRESH} s is right")
        scene.is_true(f"the processor is used for {used:.2f} s meanwhile", used < FRESH / 2, "half of it or more")
        scene.holds("the one who came first made room", [is_closed(it) for it in visitors].count(True), 1)
        for visitor in visitors:
            visitor.close()


def idle_visitors(scene):
    """Where all seats are taken, whoever came first and has not asked yet makes room once he was there for a second."""
    with scene.serving(*SERVES) as server:
        visitors = [connected(server.visited) for _ in range(IDLE)]
        begun = time.monotonic()
        response, waited = ask(server.visited, "/v1/health"), time.monotonic() - begun
        scene.holds(f"a visitor beside {IDLE} idle ones", response.status, "200 OK")
        # two times sixteen of those who came before him had to make room
        scene.is_true(f"he waits {waited:.2f} s", FRESH < waited < 2 * FRESH + TURN, f"about {2 * FRESH} s is right")
        # he had one of the seats
        gone = IDLE - SEATS + 1
        want, closed, end = [True] * gone + [False] * (IDLE - gone), [], time.monotonic() + 1
        while closed != want and time.monotonic() < end:
            closed = [is_closed(it) for it in visitors]
        scene.holds("idle visitors whose seats were taken", closed, want)
        last = visitors[-1]
        last.settimeout(VISIT)
        say(last, [HEALTH])
        scene.holds("an idle visitor who asks at last", read(hear(last)).status, "200 OK")
        for visitor in visitors:
            visitor.close()
        scene.holds("a visitor after them", ask(server.visited, "/v1/health").status, "200 OK")


def beside_datagrams(scene):
    """Visitors in a loop cost no datagram, and datagrams cost no visitor."""
    with scene.serving(*SERVES) as server, Client(server.port) as client:
        found = client.ask(coap.register("lamp")).located
        visitors = [Visitor(server.visited) for _ in range(VISITORS)]
        for visitor in visitors:
            visitor.start()
        replies = client.ask_all([coap.update(found)] * DATAGRAMS, at_once=1)
        for visitor in visitors:
            visitor.stopped.set()
        for visitor in visitors:
            visitor.join()
    count = sum(it.answers for it in visitors)
    scene.holds(f"{DATAGRAMS} Updates beside {VISITORS} visitors", codes_of(replies), {"2.04": DATAGRAMS})
    scene.holds("visits that fail beside them", [it.faults[:1] for it in visitors], [[]] * VISITORS)
    scene.is_true(f"answers to visitors: {count}", count >= LEAST_ANSWERS, f"fewer than {LEAST_ANSWERS}")


def floods(port, seconds):
    """Sends pings as fast as it can, and hears no reply."""
    end = time.monotonic() + seconds
    with socket.socket(socket.AF_INET, socket.SOCK_DGRAM) as it:
        it.connect(("127.0.0.1", port))
        while time.monotonic() < end:
            try:
                it.send(coap.PING)
            except OSError:
                pass


def flooded(scene):
    """A flood of datagrams keeps no visitor waiting."""
    with scene.serving(*SERVES) as server:
        senders = [multiprocessing.Process(target=floods, args=(server.port, FLOOD)) for _ in range(2)]
        for sender in senders:
            sender.start()
        visitor = Visitor(server.visited, 0.02)
        visitor.start()
        for sender in senders:
            sender.join()
        visitor.stopped.set()
        visitor.join()
        asked_meanwhile(scene, "in a flood", visitor, 10)
        with Client(server.port) as client:
            # what is left of the flood fills the socket's buffer for a moment
            client.ping() or client.ping()
            scene.holds("a Register after the flood", client.code_of(coap.register("lamp")), "2.01")


def drops_of(server):
    """The drops of the socket of datagrams that the server tells."""
    found = re.search(r"^fleet_socket_drops_total (\d+)$", ask(server.visited, "/metrics").body.decode(), re.M)
    return int(found.group(1)) if found else None


def drops(scene):
    """What the system drops since the socket's buffer is full is told, as the system's own table has it."""
    with scene.serving(*SERVES) as server:
        scene.holds("drops before any", drops_of(server), 0)
        server.run.send_signal(signal.SIGSTOP)
        with socket.socket(socket.AF_INET, socket.SOCK_DGRAM) as sender:
            sender.connect(("127.0.0.1", server.port))
            for _ in range(FLOODED):
                sender.send(coap.PING)
        want = drops_in_table(server.port)
        server.run.send_signal(signal.SIGCONT)
        scene.is_true(f"of {FLOODED} datagrams to a server that is stopped {want} are dropped", want > 0, want)
        end, found = time.monotonic() + 3 * TURN, None
        while found != want and time.monotonic() < end:
            time.sleep(0.1)
            found = drops_of(server)
        scene.holds("the drops that it tells", found, want)
        with Client(server.port) as client:
            scene.holds("a Register then", client.code_of(coap.register("lamp")), "2.01")


def drops_in_table(port):
    """The drops of the socket of 127.0.0.1 with this port, in the system's table."""
    place = f"0100007F:{port:04X}"
    rows = [line.split() for line in open("/proc/net/udp", encoding="ascii")]
    return sum(int(row[-1]) for row in rows if row[1] == place)


def few_files(scene):
    """Where the process can open no more files, devices are served, and visitors once others have left."""
    with scene.serving(*SERVES) as server, Client(server.port) as client:
        opened = len(os.listdir(f"/proc/{server.run.pid}/fd"))
        resource.prlimit(server.run.pid, resource.RLIMIT_NOFILE, (opened + 3, opened + 3))
        visitors = [connected(server.visited) for _ in range(30)]
        before = server.processor_seconds()
        answered = [client.ping(1) for _ in range(100) if not time.sleep(0.01)]
        used = server.processor_seconds() - before
        scene.holds("pings unanswered beside 30 visitors and too few files", answered.count(False), 0)
        scene.is_true(f"the processor is used for {used:.2f} s of a second", used < 0.5, "half of it or more")
        scene.holds("a Register then", client.code_of(coap.register("lamp")), "2.01")
        for visitor in visitors:
            visitor.close()
        scene.holds("a visitor once they have left", ask(server.visited, "/v1/health").status, "200 OK")


CROWDS = slow_visitors, arrivals, silent_visitors, idle_visitors, beside_datagrams, flooded, few_files, drops

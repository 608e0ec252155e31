"""What stands between a server and its Redis, and holds back, delays or loses what one says to the other."""

import collections
import select
import socket
import threading
import time

# how long nothing may be there before it is looked again, in seconds
TURN = 0.02
# how many bytes are passed on at once where they go in pieces
PIECE = 7
# what is done with what comes
PASSES, HOLDS, CUTS, PIECES = "passes", "holds", "cuts", "pieces"
STANDS, DELAYS, REFUSES, LOSES, KEEPS = "stands still", "delays", "refuses", "loses", "keeps"
# how long each part is on its way where it is delayed, in seconds
DELAY = 0.05
# of an append that is lost so many bytes pass
BEGINNING = 20


class Between(threading.Thread):
    """Passes on what comes, until it is left.

    - While it holds, what Redis answers to an append stays here; while it stands still, whatever comes.
    - While it keeps, appends stay here. They come to Redis later, also where nobody waits for the answer any more.
    - Where it is to cut, the next answer to an append is lost with its connection; where it is to lose, the next append
      is, but for its beginning. It passes from then on.
    - In pieces a few bytes are passed on at once. Where it delays, each part is on its way for a while.
    - While it refuses, each connection is closed.
    """

    def __init__(self, port, does=PASSES):
        super().__init__(daemon=True)
        self.redis, self.does, self.stopped = ("127.0.0.1", port), does, threading.Event()
        self.front = socket.create_server(("127.0.0.1", 0))
        self.port = self.front.getsockname()[1]
        # the other end of each connection, those to Redis, and those over which an append was asked last
        self.others, self.backs, self.appending = {}, set(), set()
        # what stays here: where it goes, and the bytes; before them, where it is on the way, when it is due
        self.held, self.on_the_way = [], collections.deque()
        # connections to Redis which nobody is behind any more, and over which an append is still to go
        self.late = set()
        self.cuts = 0

    def __enter__(self):
        self.start()
        return self

    def __exit__(self, *_):
        self.stopped.set()
        self.join()
        for it in (self.front, *self.others, *self.late):
            it.close()

    @property
    def address(self):
        return f"127.0.0.1:{self.port}"

    @property
    def is_idle(self):
        """Whether no connection is there, and nothing is left that is to go to Redis."""
        return not self.others and not self.late

    def goes_to(self, port):
        """Passes on to another Redis from now on. Connections to the one before are closed."""
        before, self.redis = self.does, ("127.0.0.1", port)
        self.does = REFUSES
        time.sleep(5 * TURN)
        self.does = before

    def run(self):
        while not self.stopped.is_set():
            stands = self.does == STANDS
            ready = [] if stands else select.select([self.front, *self.others], [], [], self.wait())[0]
            if stands:
                time.sleep(TURN)
            for it in ready:
                if it is self.front:
                    self.accepts()
                elif it in self.others:
                    self.hears(it)
            if self.does == REFUSES:
                for it in list(self.others):
                    self.closes(it)
            if self.does not in (HOLDS, KEEPS) and not stands:
                self.releases()

    def wait(self):
        """How long nothing is to be done."""
        if not self.on_the_way:
            return TURN
        return min(TURN, max(0.0, self.on_the_way[0][0] - time.monotonic()))

    def accepts(self):
        near, _ = self.front.accept()
        try:
            far = socket.create_connection(self.redis)
        except OSError:
            near.close()
            return
        for it in (near, far):
            it.setsockopt(socket.IPPROTO_TCP, socket.TCP_NODELAY, 1)
        self.others.update({near: far, far: near})
        self.backs.add(far)

    def hears(self, end):
        try:
            found = end.recv(1 << 16)
        except OSError:
            found = b""
        if not found:
            self.closes(end)
        elif end not in self.backs:
            self.hears_command(end, found)
        elif end in self.appending and self.does == HOLDS:
            self.held.append((self.others[end], found))
        elif end in self.appending and self.does == CUTS:
            self.does, self.cuts = PASSES, self.cuts + 1
            self.closes(end)
        else:
            self.passes(self.others[end], found)

    def hears_command(self, end, found):
        far = self.others[end]
        # the rest of a long append comes without that word
        if found.startswith(b"*"):
            (self.appending.add if b"XADD" in found else self.appending.discard)(far)
        if far in self.appending and self.does == LOSES:
            self.does, self.cuts = PASSES, self.cuts + 1
            self.says(far, found[:BEGINNING])
            self.closes(end)
        elif far in self.appending and self.does == KEEPS:
            self.held.append((far, found))
        else:
            self.passes(far, found)

    def passes(self, end, found):
        if self.does == DELAYS or self.on_the_way:
            self.on_the_way.append((time.monotonic() + (DELAY if self.does == DELAYS else 0), end, found))
        else:
            self.says(end, found)

    def says(self, end, found):
        try:
            for at in range(0, len(found), PIECE if self.does == PIECES else len(found)):
                end.sendall(found[at : at + PIECE] if self.does == PIECES else found)
        except OSError:
            self.closes(end)

    def releases(self):
        held, self.held = self.held, []
        while self.on_the_way and self.on_the_way[0][0] <= time.monotonic():
            held.append(self.on_the_way.popleft()[1:])
        for end, found in held:
            if end in self.others or end in self.late:
                self.says(end, found)
        for it in self.late:
            it.close()
        self.late = set()

    def closes(self, end):
        other, kept = self.others.pop(end, None), {it for it, _ in self.held} if self.does == KEEPS else set()
        self.others.pop(other, None)
        for it in filter(None, (end, other)):
            is_late = it in self.backs and it in kept
            self.backs.discard(it)
            self.appending.discard(it)
            if is_late:
                self.late.add(it)
            else:
                it.close()

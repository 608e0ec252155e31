"""A Redis of this test alone: how it is started, stopped, killed and started again, and what it is asked."""

import contextlib
import pathlib
import random
import signal
import socket
import subprocess
import time

from serving import LIMIT, ends_with_the_test

KEY = "fleet"
LEAST_PORT = 10_000
PORT_RANGE = pathlib.Path("/proc/sys/net/ipv4/ip_local_port_range")

def lasting_port(kind):
    """A port that the system gives to nobody who asks for any, so that it stays free while nobody is there.

    Who asks for a closed port of TCP at the loopback again and again may else be connected to itself.
    """
    most = max(int(PORT_RANGE.read_text().split()[0]), LEAST_PORT + 1_000)
    for _attempt in range(1_000):
        port = random.randrange(LEAST_PORT, most)
        with socket.socket(socket.AF_INET, kind) as it, contextlib.suppress(OSError):
            it.bind(("127.0.0.1", port))
            return port
    raise OSError("no port is free")


class Refusal(Exception):
    """An error that a Redis answers."""


def words_of(words):
    """A command, as a client of Redis spells it."""
    parts = [it if isinstance(it, bytes) else str(it).encode() for it in words]
    return b"".join((b"*%d\r\n" % len(parts), *(b"$%d\r\n%s\r\n" % (len(it), it) for it in parts)))


def reply_from(reader):
    """The next reply, as a Redis spells it: bytes, a number, a list, or none."""
    line = reader.readline()
    if not line.endswith(b"\r\n"):
        raise ConnectionError("Redis has closed the connection")
    kind, text = line[:1], line[1:-2]
    if kind == b"-":
        raise Refusal(text.decode())
    if kind == b"+":
        return text
    count = int(text)
    if kind == b":":
        return count
    if count < 0:
        return None
    if kind == b"$":
        return reader.read(count + 2)[:-2]
    return [reply_from(reader) for _ in range(count)]


class Redis:
    """A Redis on a port of its own, in a folder of its own, which is killed where it is left."""

    def __init__(self, tool, folder, password=None, keeps="yes"):
        self.tool, self.folder, self.password, self.keeps = tool, folder, password, keeps
        self.port, self.run = lasting_port(socket.SOCK_STREAM), None

    def __enter__(self):
        try:
            self.start()
        except BaseException:
            self.kill()
            raise
        return self

    def __exit__(self, *_):
        self.kill()

    @property
    def address(self):
        return f"127.0.0.1:{self.port}"

    def start(self, *further, serves=True):
        """Starts it over its folder, and waits until it answers."""
        words = [self.tool, "--port", self.port, "--bind", "127.0.0.1", "--dir", self.folder, "--daemonize", "no"]
        words += ["--save", "", "--appendonly", self.keeps, "--appendfsync", "everysec"]
        words += ["--requirepass", self.password] if self.password else []
        with open(self.folder / "log", "ab") as log:
            streams = {"stdin": subprocess.DEVNULL, "stdout": log, "stderr": log}
            words = [str(it) for it in (*words, *further)]
            self.run = subprocess.Popen(words, preexec_fn=ends_with_the_test, **streams)
        self.awaits(lambda: self.state() == b"PONG" if serves else self.state() is not None)

    def awaits(self, truth):
        end = time.monotonic() + LIMIT
        while not truth():
            if time.monotonic() > end or self.run.poll() is not None:
                raise TimeoutError(f"Redis: {(self.folder / 'log').read_text(errors='replace')[-300:]}")
            time.sleep(0.01)

    def state(self):
        """What it answers to a ping: `PONG`, an error, or none."""
        try:
            return self.ask("PING")
        except Refusal as refusal:
            return str(refusal).encode()
        except OSError:
            return None

    def ask(self, *words):
        """The reply to a command."""
        return self.ask_all([words])[0]

    def ask_all(self, commands):
        """The replies to commands, over a connection of their own."""
        with self.asking() as asks:
            return asks(commands)

    @contextlib.contextmanager
    def asking(self):
        """What gives the replies to commands, over one connection."""
        with socket.create_connection(("127.0.0.1", self.port), LIMIT) as connection:
            with connection.makefile("rb") as reader:

                def asks(commands):
                    connection.sendall(b"".join(words_of(it) for it in commands))
                    return [reply_from(reader) for _ in commands]

                if self.password:
                    asks([("AUTH", "default", self.password)])
                yield asks

    def sets(self, setting, value):
        self.ask("CONFIG", "SET", setting, value)

    def entries(self, key=KEY):
        """The fields of each entry of a stream."""
        return [fields for _, fields in self.ask("XRANGE", key, "-", "+")]

    def length(self, key=KEY):
        return self.ask("XLEN", key)

    def settles(self):
        """Waits until it has done whatever processes that were killed had asked it."""
        for _ in range(2):
            self.ask("PING")

    def stop(self):
        """Stops it where it is: it keeps its connections, and answers nothing."""
        self.run.send_signal(signal.SIGSTOP)
        stat = pathlib.Path(f"/proc/{self.run.pid}/stat")
        self.awaits(lambda: stat.read_text().rpartition(")")[2].split()[0] == "T")

    def goes_on(self):
        self.run.send_signal(signal.SIGCONT)

    def kill(self):
        if self.run and self.run.poll() is None:
            self.run.kill()
            self.run.wait(LIMIT)

"""Runs of `fleet run`, and what the system tells of them."""

import contextlib
import ctypes
import os
import pathlib
import re
import signal
import socket
import struct
import subprocess
import tempfile
import threading
import time

LIMIT = 60
SERVING = re.compile(r"serving address=(\S+):(\d+) number=(\d+) keeps=(\w+)\n")
VISITED = re.compile(r"http address=\[?([^\]\s]+)\]?:(\d+)\n")
TABLES = ("udp", "udp6", "tcp", "tcp6")
# the number of PR_SET_PDEATHSIG in <linux/prctl.h>
PARENT_DEATH_SIGNAL = 1
libc = ctypes.CDLL(None)


def ends_with_the_test():
    """A process that this was called in is killed where the thread that began it ends, however that ends."""
    libc.prctl(PARENT_DEATH_SIGNAL, signal.SIGKILL)


def local_address(text):
    """An address as the system's table of sockets writes it, as `127.0.0.1:5683` or `[::1]:5683`."""
    address, _, port = text.partition(":")
    words = struct.pack(f"={len(address) // 8}I", *(int(address[at : at + 8], 16) for at in range(0, len(address), 8)))
    if len(words) == 4:
        return f"{socket.inet_ntop(socket.AF_INET, words)}:{int(port, 16)}"
    return f"[{socket.inet_ntop(socket.AF_INET6, words)}]:{int(port, 16)}"


def table_of_sockets():
    """The table and the local address of each socket of UDP and TCP, by its number in the system."""
    found = {}
    for table in TABLES:
        path = pathlib.Path("/proc/net") / table
        for line in path.read_text().splitlines()[1:] if path.exists() else ():
            cells = line.split()
            found[cells[9]] = table, local_address(cells[1])
    return found


def size_of(folder):
    """How many bytes the files of a folder have together."""
    total = 0
    for name in os.listdir(folder):
        with contextlib.suppress(FileNotFoundError):
            total += os.stat(folder / name).st_size
    return total


class Sizes(threading.Thread):
    """Looks at the size of a folder until it is stopped, and knows the greatest."""

    def __init__(self, folder):
        super().__init__(daemon=True)
        self.folder, self.stopped, self.greatest = folder, threading.Event(), 0

    def run(self):
        while not self.stopped.wait(0.005):
            self.greatest = max(self.greatest, size_of(self.folder))


class Server:
    """A run of `fleet run`, which is ended where it is left."""

    def __init__(self, program, folder, *words, wrapper=(), before=None, stdin=subprocess.DEVNULL, inside=None):
        self.place = pathlib.Path(tempfile.mkdtemp(prefix="told-", dir=folder))
        self.address = self.port = self.number = self.keeps = None
        # where it is asked over HTTP, if it is
        self.visited, self.is_visited = None, "--http" in words
        with open(self.place / "output", "wb") as output, open(self.place / "errors", "wb") as errors:
            streams = {"stdin": stdin, "stdout": output, "stderr": errors}
            words = [*wrapper, program, "run", *map(str, words)]
            self.run = subprocess.Popen(words, preexec_fn=before, cwd=inside, **streams)

    def __enter__(self):
        return self

    def __exit__(self, *_):
        self.kill()

    def errors(self):
        """What it has written on standard error."""
        return (self.place / "errors").read_text(errors="replace")

    def serves(self, wait=LIMIT):
        """Whether it tells in that time that it serves. Its addresses, port and number are then known."""
        end = time.monotonic() + wait
        while time.monotonic() < end:
            errors = self.errors()
            found, visited = SERVING.search(errors), VISITED.search(errors)
            if found and (visited or not self.is_visited):
                self.address, port, number, self.keeps = found.groups()
                self.port, self.number = int(port), int(number)
                self.visited = visited and (visited.group(1), int(visited.group(2)))
                return True
            if self.run.poll() is not None:
                return False
            time.sleep(0.005)
        return False

    def compactions(self):
        """How many compactions it has logged."""
        return self.errors().count("compacted\n")

    def kill(self, kind=signal.SIGKILL, wait=LIMIT):
        """Ends it by a signal, and gives its status, or `no end`."""
        if self.run.poll() is None:
            self.run.send_signal(kind)
        return self.ends(wait)[0]

    def ends(self, wait=LIMIT):
        """Its status, and the last line on standard error, once it has ended. One that goes on is killed: `no end`."""
        try:
            status = self.run.wait(wait)
        except subprocess.TimeoutExpired:
            self.run.kill()
            self.run.wait()
            status = "no end"
        return status, (self.errors().splitlines() or [""])[-1]

    def resident(self):
        """How many KiB of memory it has."""
        page = pathlib.Path(f"/proc/{self.run.pid}/status").read_text()
        return int(re.search(r"^VmRSS:\s+(\d+)", page, re.M).group(1))

    def processor_seconds(self):
        cells = pathlib.Path(f"/proc/{self.run.pid}/stat").read_text().rpartition(")")[2].split()
        return (int(cells[11]) + int(cells[12])) / os.sysconf("SC_CLK_TCK")

    def sockets(self):
        """The table and the local address of each socket that it has."""
        folder, table, found = f"/proc/{self.run.pid}/fd", table_of_sockets(), []
        for name in os.listdir(folder):
            opened = re.fullmatch(r"socket:\[(\d+)\]", os.readlink(f"{folder}/{name}"))
            if opened:
                found.append(table.get(opened.group(1), ("other", name)))
        return sorted(found)

"""What a run of a test has: the program, a folder, servers, and the checks so far."""

import contextlib
import os
import pathlib
import signal
import sys
import tempfile
import threading

from serving import LIMIT, Server


class NoServer(Exception):
    """A server does not serve."""


class Scene:
    """The program, the folder that all runs write below, and the checks so far. Its lines begin with its name."""

    def __init__(self, name, program, folder):
        self.name, self.program, self.folder = name, program, folder
        self.passed = self.failed = 0
        self.one_at_a_time = threading.Lock()

    def says(self, text):
        print(f"{self.name}: {text}", flush=True)

    def holds(self, check, got, want):
        """A check of what is got, where one value alone is right."""
        with self.one_at_a_time:
            if got == want:
                self.passed += 1
                self.says(f"passed: {check}")
            else:
                self.failed += 1
                self.says(f"failed: {check}: {str(got)[:300]} in place of {str(want)[:300]}")

    def is_true(self, check, truth, seen):
        """A check that is true, or else tells what was seen."""
        self.holds(check, True if truth else seen, True)

    def passes_over(self, text):
        self.says(f"passed over: {text}")

    def place(self, name):
        """A path for a folder of a server, which is not made yet."""
        return pathlib.Path(tempfile.mkdtemp(prefix=f"{name}-", dir=self.folder)) / "fleet-data"

    def server(self, *words, **further):
        return Server(further.pop("program", self.program), self.folder, *words, **further)

    @contextlib.contextmanager
    def serving(self, *words, **further):
        """A server that serves. One that does not is a check that failed, and ends the part that wants it."""
        with self.server(*words, **further) as server:
            if not server.serves():
                raise NoServer(f"`{' '.join(map(str, words))}`: {server.errors()[-200:]!r}")
            yield server

    def play(self, part):
        """Makes the checks of a part. One that cannot go on is a check that failed, whatever keeps it from that."""
        try:
            part(self)
        except Exception as fault:
            self.holds(f"{part.__name__}: its end", repr(fault), "as it should be")

    def plays(self, parts, beside=()):
        """Makes the checks of each part, and then looks at what all runs have printed.

        The parts of `beside` wait more than they work. Each is made in a thread of its own, while the others are made.
        """
        threads = [threading.Thread(target=self.play, args=(part,), daemon=True) for part in beside]
        for thread in threads:
            thread.start()
        for part in parts:
            self.play(part)
        for thread in threads:
            thread.join()
        printed = [path.read_text(errors="replace") for path in self.folder.glob("told-*/output")]
        self.holds(f"what {len(printed)} runs have printed on standard output", "".join(printed), "")

    def ends(self):
        """Tells how many checks passed, and gives the status of the test."""
        self.says(f"{self.passed} passed, {self.failed} failed")
        return 1 if self.failed else 0


@contextlib.contextmanager
def running(*threads):
    """Threads that run meanwhile, and are then stopped."""
    for thread in threads:
        thread.start()
    try:
        yield
    finally:
        for thread in threads:
            thread.stopped.set()
        for thread in threads:
            thread.join(LIMIT)


@contextlib.contextmanager
def folder_of(name):
    """A folder that goes with the test, also where that is ended by SIGTERM."""
    signal.signal(signal.SIGTERM, lambda *_: sys.exit(1))
    with tempfile.TemporaryDirectory(prefix=f"fleet-{name}-") as folder:
        os.chmod(folder, 0o755)
        yield pathlib.Path(folder)

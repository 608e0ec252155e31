"""The system calls of a server, as `strace` tells of them."""

import pathlib
import re
import struct
import subprocess
import tempfile
import time

import tools
from asking import Client, codes_of
from coap import register

CALL = re.compile(r"^(?:\d+ +)?(?:<\.\.\. )?(\w+)(?:\(| resumed>)(.*)$")
BYTES = re.compile(r'"((?:\\x[0-9a-f]{2})*)"')
TRACED = "recvfrom,recvmsg,recvmmsg,sendto,sendmsg,sendmmsg,read,readv,write,writev"
INWARD, OUTWARD = ("recv", "read"), ("send", "write")
# how Redis answers an append: by the identifier of the entry
APPENDED = re.compile(rb"\$\d+\r\n\d+-\d+\r\n")

# how a confirmable POST and a 2.01 in its acknowledgement begin, each with a token of four bytes (RFC 7252, section 3)
REQUEST, REPLY = b"\x44\x02", b"\x64\x41"


class Trace:
    """What came in and went out in the order in which it did: whether it went out, and the bytes."""

    def __init__(self, path):
        found = (CALL.match(line) for line in path.read_text(errors="replace").splitlines())
        # of a call that is told of in two lines the second one tells that it has returned
        calls = [it.groups() for it in found if it and "<unfinished ...>" not in it.group(2)]
        self.calls = [(name.startswith(OUTWARD), bytes_in(rest)) for name, rest in calls]

    def first(self, goes_out, truth, begin=0):
        """Where the first that is such stands behind a place, or none."""
        places = range(begin, len(self.calls))
        return next((it for it in places if self.calls[it][0] == goes_out and truth(self.calls[it][1])), None)

    def is_in_order(self, reply):
        """Whether its request came, then an append went out, then that was answered, and then the reply went out."""
        key = struct.pack("!H", reply.mid) + reply.token
        begin, sent = self.first(False, begins(REQUEST + key)), self.first(True, begins(REPLY + key))
        if None in (begin, sent):
            return False
        asked = self.first(True, lambda it: b"XADD" in it, begin)
        appended = asked is not None and self.first(False, APPENDED.match, asked)
        return bool(appended) and appended < sent


def begins(head):
    return lambda it: it.startswith(head)


def bytes_in(text):
    return b"".join(bytes.fromhex(it.replace(r"\x", "")) for it in BYTES.findall(text))


def calls_in_order(scene):
    """Before a reply leaves, Redis has answered the append of what it tells of."""
    tracer = tools.tool(("strace",), "strace")
    works = tracer and subprocess.run([tracer, "-o", "/dev/null", "true"], stderr=subprocess.DEVNULL).returncode == 0
    if not works:
        scene.passes_over("system calls, since there is no strace that works (FLEET_INSTALL=1 has it installed)")
        return
    path = pathlib.Path(tempfile.mkdtemp(prefix="trace-", dir=scene.folder)) / "calls"
    wrapper = [tracer, "-D", "-f", "-xx", "-s", "128", "-o", path, "-e", f"trace={TRACED}"]
    with scene.redis() as redis, scene.sharing(redis.address, wrapper=wrapper) as server:
        with Client(server.port) as client:
            replies = client.ask_all([register(f"traced-{it}") for it in range(20)], at_once=1)
        server.kill()
    scene.holds("20 Registers, one by one", codes_of(replies), {"2.01": 20})
    end = time.monotonic() + 10
    while "+++ killed by SIGKILL +++" not in path.read_text(errors="replace") and time.monotonic() < end:
        time.sleep(0.02)
    trace = Trace(path)
    found = [it.mid for it in replies if it and not trace.is_in_order(it)]
    scene.holds("replies that left before the answer to their append came", found, [])

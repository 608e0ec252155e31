"""A server that tells what the program rarely does, written by hand from docs/HTTP.md: away, gone, silent, refusing.

It also has more notifications than devices of a test would tell.
"""

import contextlib
import http.server
import itertools
import json
import threading
import time

from showing import PAGE, POLICY

START, OTHER = "00000000000000aa", "00000000000000bb"
MEASURES = """# HELP fleet_datagrams_total Datagrams that were taken
# TYPE fleet_datagrams_total counter
fleet_datagrams_total %d
fleet_start_time_seconds 1764346801
fleet_log_away %d
%sfleet_log_entries_written_total 41207
"""


BUCKET = 'fleet_log_append_seconds_bucket{le="%s"} %d\n'


def registration(endpoint, lifetime, seen, **further):
    members = {"address": "192.0.2.7:5683", "attributes": {}, "binding": "U", "endpoint": endpoint, "id": START}
    members |= {"lifetime": lifetime, "lwm2m": "1.1", "objects": "</1/0>", "queue": False, "seen": seen, "sms": None}
    return {**members, **further}


def notice(payload=b"", code=69, ended=False, content_format=None, observe=None, path="/3/0", endpoint="lamp"):
    members = {"code": code, "content_format": content_format, "ended": ended, "endpoint": endpoint, "id": START}
    return {**members, "observe": observe, "path": path, "payload": payload.hex(), "token": START}


class Stub:
    """It listens on the loopback until it is left. What it tells is changed by whoever tries a page on it."""

    def __init__(self):
        self.mode, self.start, self.now, self.datagrams = "serving", START, 1_000_000, 0
        # each change is an endpoint with its registration or none; its number is its place, counted from 1
        self.changes, self.asked = [], []
        # the number of the first notification that is kept, and those that are: whether each is complete, with its
        # notice
        self.first, self.notices = 0, []
        # what it observes, the methods of a token, and how many appends took so long and no longer
        self.observations, self.allow, self.buckets = [], "GET, HEAD, DELETE", {"0.1": 3, "+Inf": 3}
        # at which change an endpoint changed last, and of how many changes of which list that is known
        self.last, self.last_of = {}, (None, 0)
        self.server = http.server.ThreadingHTTPServer(("127.0.0.1", 0), self.handler())
        self.visited = self.server.server_address

    def __enter__(self):
        threading.Thread(target=self.server.serve_forever, daemon=True).start()
        return self

    def __exit__(self, *_):
        self.mode = "serving"
        self.server.shutdown()
        self.server.server_close()

    def handler(self):
        stub = self

        class Handler(http.server.BaseHTTPRequestHandler):
            def do_GET(self):
                stub.asked.append(self.path)
                status, kind, body = stub.answer(*self.path.partition("?")[::2])
                self.send_response(status)
                fields = {"content-security-policy": POLICY, "content-type": kind, "content-length": str(len(body))}
                for name, value in fields.items():
                    self.send_header(name, value)
                # a page waits for a silent server no longer than it likes
                with contextlib.suppress(OSError):
                    self.end_headers()
                    self.wfile.write(body)

            def do_POST(self):
                stub.asked.append(f"POST {self.path}")
                self.send_response(405)
                for name, value in (("allow", stub.allow), ("content-length", "0")):
                    self.send_header(name, value)
                self.end_headers()

            def log_message(self, *_):
                pass

        return Handler

    def answer(self, path, query):
        """The status, the kind and the body of what is told."""
        if path == "/":
            return 200, "text/html; charset=utf-8", PAGE.read_bytes()
        while self.mode == "silent":
            time.sleep(0.1)
        if path == "/metrics":
            buckets = "".join(BUCKET % it for it in self.buckets.items())
            return 200, "text/plain", (MEASURES % (self.datagrams, self.mode == "away", buckets)).encode()
        status, members = self.members(path, dict(it.split("=") for it in query.split("&") if it))
        return status, "application/json", json.dumps(members).encode()

    def members(self, path, query):
        is_away = self.mode == "away"
        if path == "/v1/health":
            health = {"now": self.now, "status": self.mode if is_away else "serving", "version": "0.1.0"}
            return (503, health) if is_away else (200, {"counter": "ok", **health})
        if is_away:
            return 503, {"error": "away"}
        if self.mode == "refusing":
            return 503, {"error": "no memory"}
        if path == "/v1/node":
            counts = {"change": len(self.changes), "counter": 1, "number": 7, "registrations": len(self.changes)}
            return 200, {**counts, "start": self.start}
        if path == "/v1/notifications":
            return self.notices_from(int(query["from"]), query["start"], int(query["limit"]))
        if path.endswith("/observations"):
            return 200, {"next": None, "observations": self.observations}
        return self.changes_behind(int(query["since"]), query.get("start"), int(query["limit"]))

    def notices_from(self, begin, start, limit):
        """Those from a number on; where they are no longer kept, the first that is."""
        if start != self.start:
            return 410, {"error": "gone"}
        if begin < self.first:
            return 410, {"error": "gone", "first": self.first}
        told = list(enumerate(self.notices, self.first))[begin - self.first :][:limit]
        members = [{"complete": complete, "notice": it, "number": number} for number, (complete, it) in told]
        return 200, {"next": begin + len(told), "notifications": members, "start": self.start}

    def changes_behind(self, since, start, limit):
        """Those from a number on; an endpoint that has changed again is told later."""
        if self.mode == "gone" or (start or self.start) != self.start:
            self.mode = "serving"
            return 410, {"error": "gone"}
        if self.last_of[0] is not self.changes or self.last_of[1] != len(self.changes):
            self.last = {endpoint: at for at, (endpoint, _) in enumerate(self.changes, 1)}
            self.last_of = self.changes, len(self.changes)
        numbered = enumerate(itertools.islice(self.changes, since, None), since + 1)
        behind = ((at, *it) for at, it in numbered if at == self.last[it[0]])
        told = [{"change": it[0], "endpoint": it[1], "registration": it[2]} for it in itertools.islice(behind, limit)]
        next_ = told[-1]["change"] if told else since
        more = next(behind, None) is not None
        return 200, {"changes": told, "more": more, "next": next_, "start": self.start}

"""What a server has done and knows, in the text that Prometheus reads (format 0.0.4), and its lines of visitors."""

import contextlib
import json
import sqlite3
import subprocess
import time

import tools
from asking import Client
from checks import SERVES, VERSION, VISITS, Shown
from coap import register, update
from exposition import Exposition, measures_of
from serving import LIMIT
from targets import ID
from visiting import answer_to, ask, connected, hear, say, spelled, told

TEXT = "text/plain; version=0.0.4"
# what is counted of a ping, a Register, its Update, an Update of nobody, and a byte that is answered by nothing
MEASURED = {
    f'fleet_build_info{{version="{VERSION}"}}': 1,
    "fleet_registrations": 1,
    "fleet_change": 2,
    "fleet_datagrams_total": 5,
    'fleet_replies_total{code="2.01"}': 1,
    'fleet_replies_total{code="2.02"}': 0,
    'fleet_replies_total{code="2.04"}': 1,
    'fleet_replies_total{code="4.00"}': 0,
    'fleet_replies_total{code="4.04"}': 1,
    'fleet_replies_total{code="5.03"}': 0,
    "fleet_empty_replies_total": 1,
    "fleet_unanswered_total": 1,
    "fleet_notifications_total": 0,
    "fleet_swept_total": 0,
    "fleet_no_memory_total": 0,
    "fleet_passed_over_total": 0,
    "fleet_log_away": 0,
    # the claim of its number, the clock that it raised, and the two changes, each in a round of its own
    "fleet_log_append_seconds_count": 4,
    "fleet_log_entries_written_total": 4,
    "fleet_log_entries_read_total": 0,
    "fleet_log_whole_bytes": 0,
    "fleet_log_compactions_total": 0,
    "fleet_log_away_seconds_total": 0,
    "fleet_log_refused_total": 0,
    "fleet_clock_offset_seconds": 0,
    "fleet_receive_faults_total": 0,
    "fleet_send_faults_total": 0,
    "fleet_dropped_total": 0,
    "fleet_socket_drops_total": 0,
    "fleet_duplicates_total": 0,
    "fleet_blocks_total": 0,
    "fleet_bodies": 0,
    "fleet_requests_sent_total": 0,
    "fleet_requests_sent_again_total": 0,
    "fleet_requests_reset_total": 0,
    "fleet_requests_unanswered_total": 0,
    "fleet_requests_waiting": 0,
    "fleet_notifications_stale_total": 0,
    "fleet_notification_blocks_total": 0,
    "fleet_notification_fetches": 0,
    "fleet_replies_unnumbered_total": 0,
}
# every status that a server gives
STATUSES = (200, 201, 204, 400, 401, 403, 404, 405, 410, 413, 414, 421, 431, 500, 501, 503)
# the bounds of a histogram, in seconds
BOUNDS = ("0.0005", "0.001", "0.002", "0.005", "0.01", "0.02", "0.05", "0.1", "0.2", "0.5", "1", "2", "5", "+Inf")
APPENDS = "fleet_log_append_seconds"


def metrics(scene):
    """Measures are a text of the format of Prometheus, and have what was done."""
    with scene.serving(*SERVES) as server, Client(server.port) as client:
        client.say(b"\x40")
        client.ping()
        lamp = Shown(client, "lamp")
        codes = [client.code_of(update(it)) for it in (lamp.id, ID)]
        scene.holds("what is answered before", codes, ["2.04", "4.04"])
        response = ask(server.visited, "/metrics")
        text = response.body.decode("utf-8", "replace")
        scene.holds("GET /metrics", response, told("200 OK", text, kind=TEXT))
        head = ask(server.visited, "/metrics", "HEAD")
        scene.holds("HEAD /metrics", head, told("200 OK", text, kind=TEXT).without_body())
        measured(scene, server, Exposition(text))
        checked_by_promtool(scene, text)


def measured(scene, server, found):
    scene.holds("what is wrong with the text of /metrics", found.faults, [])
    want = {**MEASURED, "fleet_number": server.number}
    scene.holds("measures", {name: found.samples.get(name) for name in want}, want)
    kinds = {name: "counter" if name.endswith("_total") else "gauge" for name in found.types}
    scene.holds("types of measures", found.types, {**kinds, APPENDS: "histogram"})
    started = found.samples.get("fleet_start_time_seconds", 0)
    scene.is_true("the moment of the start", time.time() - LIMIT < started <= time.time(), started)
    counter = json.loads(ask(server.visited, "/v1/node").body)["counter"]
    names = [name for name, number in found.samples.items() if number == counter]
    scene.is_true("the counter is among the measures", names, counter)


def checked_by_promtool(scene, text):
    tool = tools.tool(("promtool",), "prometheus")
    if not tool:
        scene.passes_over("promtool, which is not there (FLEET_INSTALL=1 has it installed)")
        return
    words = [tool, "check", "metrics"]
    ran = subprocess.run(words, input=text, stdout=subprocess.PIPE, stderr=subprocess.STDOUT, text=True, timeout=LIMIT)
    scene.holds("promtool check metrics", (ran.returncode, ran.stdout), (0, ""))


def buckets_of(found):
    return [found.get('%s_bucket{le="%s"}' % (APPENDS, bound), -1) for bound in BOUNDS]


LONG_LIST = b",".join(b"</%d/0>;title=some-more-bytes" % number for number in range(1000, 1220))
REGISTERS, ENTRY_OVERHEAD = 20, 300


def log_measures(scene):
    """Each Register is an entry, whose bytes stand in the log; a start reads what is there twice."""
    data = scene.place("measured")
    with scene.serving("--data", data, "--port", "0", *VISITS) as server, Client(server.port) as client:
        client.ping()
        before, begun = measures_of(server), time.monotonic()
        codes = [client.code_of(register(f"name-{it}", objects=LONG_LIST)) for it in range(REGISTERS)]
        found, took = measures_of(server), time.monotonic() - begun
        scene.holds("Registers with long lists", codes, ["2.01"] * REGISTERS)
        risen = {name: found[name] - before[name] for name in before if name in found}
        for name in (f"{APPENDS}_count", "fleet_log_entries_written_total", f'{APPENDS}_bucket{{le="+Inf"}}'):
            scene.holds(f"{name} rises by one for each Register", risen[name], REGISTERS)
        room = REGISTERS * len(LONG_LIST), REGISTERS * (len(LONG_LIST) + ENTRY_OVERHEAD)
        grown = risen["fleet_log_bytes"]
        scene.is_true("fleet_log_bytes rises by what was appended", room[0] < grown < room[1], (grown, room))
        buckets = buckets_of(found)
        scene.holds("buckets rise to the count", [sorted(buckets), buckets[-1]], [buckets, found[f"{APPENDS}_count"]])
        spent = risen[f"{APPENDS}_sum"]
        scene.is_true("the seconds of the appends", 0 < spent < took, (spent, took))
    restarted_measures(scene, data)


def restarted_measures(scene, data):
    with contextlib.closing(sqlite3.connect(data / "fleet.db")) as store:
        entries, size = store.execute("SELECT count(*), sum(length(bytes)) FROM entry").fetchone()
    # with the claim of its number, and the clock that it raised
    scene.holds("entries of the log", entries, REGISTERS + 2)
    with scene.serving("--data", data, "--port", "0", *VISITS) as server:
        time.sleep(1.5)
        found = measures_of(server)
        names = "fleet_log_entries_read_total", "fleet_log_entries_written_total", "fleet_log_bytes", f"{APPENDS}_count"
        want = 2 * entries, 0, size, 0
        scene.holds("measures of the log at a start", tuple(found.get(name) for name in names), want)


# what a visitor asks, and how it is answered
VISITED = (
    ("/v1/health", "GET", 200),
    ("/v1/health", "HEAD", 200),
    ("/v1/registrations/none", "GET", 404),
    ("/v1/registrations?limit=0", "GET", 400),
    ("/v1/node", "POST", 405),
    (f"/v1/changes?since=1&start={ID}", "GET", 410),
)


def statuses(scene):
    """Each response is counted by its status, once the next turn is made."""
    with scene.serving(*SERVES) as server, Client(server.port) as client:
        for target, method, status in VISITED:
            answer = ask(server.visited, target, method)
            scene.holds(f"{method} {target}", answer.status[:3], str(status))
        answer_to(server.visited, b"nothing\r\n\r\n")
        with connected(server.visited) as nobody:
            nobody.close()
        client.ping()
        found = measures_of(server)
        want = {status: [it for _, _, it in VISITED].count(status) for status in STATUSES}
        want[400] += 1
        got = {it: found.get('fleet_http_responses_total{status="%d"}' % it) for it in STATUSES}
        scene.holds("responses by status", got, want)
        client.ping()
        got = measures_of(server).get('fleet_http_responses_total{status="200"}')
        scene.holds("a request for the measures is counted too", got, want[200] + 1)


# what visitors send, and their method and target as a line tells them
FORGED = (
    (spelled("/v1/node"), "GET", "/v1/node", 200),
    (spelled("/v1/registrations?after=a&limit=1", "HEAD"), "HEAD", "/v1/registrations?after=a&limit=1", 200),
    (b'GET /\x1b[2J\xff"\\ HTTP/1.1\r\nHost: localhost\r\n\r\n', "GET", r"/\x1b[2J\xff\"\\", 400),
    (b"GET /a\nhttp peer=1 method=GET HTTP/1.1\r\nHost: a\r\n\r\n", "GET", "/a", 400),
    (spelled("/" + 500 * "x"), "GET", "/" + 199 * "x", 404),
    (spelled("/v1/node", 300 * "M"), 200 * "M", "/v1/node", 405),
    (b"\r\n\r\n \r\n\r\n", "-", "-", 400),
)


def lines(scene):
    """Of each visitor who is answered there is a line, which cannot be forged, and none of one who asks nothing."""
    with scene.serving(*SERVES) as server:
        with connected(server.visited) as nobody:
            nobody.close()
        for sent, method, target, status in FORGED:
            before = server.errors().count("\n")
            with connected(server.visited) as visitor:
                peer = "%s:%d" % visitor.getsockname()
                say(visitor, [sent])
                count = len(hear(visitor))
            told_of = server.errors().split("\n")[before:-1]
            want = f"http peer={peer} method={method} target={target} status={status} bytes={count}"
            scene.holds(f"the line of {sent[:40]}", [it.partition("] ")[2] for it in told_of], [want])

"""What the page says of the server: that it serves, is away, was started again, asks for a token, and in numbers."""

import json
import re
import time

from asking import Client, registered
from coap import deregister, register, update
from showing import COUNT, IS_SHOWN, LIST, NO_SERVER, PRESS, SOON, STATE, TEXT, list_of, looks_at, rows_of
from stub import OTHER, START, Stub, registration
from tokens import TOKEN, WRONG, token_file
from visiting import ask


def counted(scene):
    """Counters are those that are told, and what comes is drawn."""
    with scene.serves("--memory") as server, scene.shows(server, "counted") as tab:
        scene.hears("a server that serves", tab, "Serving")
        scene.holds("nothing is drawn where nothing came", tab.value(DRAWN), 0)
        found = registered(server.port, 1200)
        with Client(server.port) as client:
            client.ask_all([update(it) for it in found[:34]], at_once=1)
        scene.sees("so many", tab, COUNT, "1,200 registered, 1 to 50 shown")
        scene.is_true("what came is drawn", tab.awaits(DRAWN, lambda found: found > 0) > 0, 0)
        text = tab.value(TEXT % "#rates")
        most = int(re.search(r"([\d,]+) at most", text).group(1).replace(",", ""))
        # a turn takes a second or more
        scene.is_true("and told as a text", 20 < most <= 1200 + 34, text)
        looks_at(tab, "server")
        told_of = json.loads(ask(server.visited, "/v1/node").body)
        want = {"registrations kept": f"{told_of['registrations']:,}", "changes": f"{told_of['change']:,}"}
        want |= {"version": "0.1.0", "notifications": "0"}
        shown = tab.awaits(STATE, lambda _: list_of(tab, "#node").get("changes") == want["changes"], 5)
        shown = list_of(tab, "#node")
        scene.holds("counters", {it: shown.get(it) for it in want}, want)
        replies = list_of(tab, "#replies")
        scene.holds("replies", [replies.get(it) for it in ("2.01 Created", "2.04 Changed")], ["1,200", "34"])
        tab.value("document.querySelector('#metrics').open = true")
        names = tab.awaits(LIST % "#all", lambda it: len(it) > 100)
        scene.is_true("all metrics", "fleet_stamp_clock" in names, names)


# how many dots of the chart have the colour that it is drawn in
DRAWN = """(it => {
  const pen = new OffscreenCanvas(it.width, it.height).getContext("2d", { willReadFrequently: true });
  pen.drawImage(it, 0, 0);
  const colour = getComputedStyle(it).color.match(/\\d+/g).join();
  const { data } = pen.getImageData(0, 0, it.width, it.height);
  return Array.from({ length: data.length / 4 }, (_, at) => data.slice(4 * at, 4 * at + 3).join())
    .filter(it => it === colour).length;
})(document.querySelector("#plot"))"""
LOG = ("append p50, since start", "append p99, since start")
# buckets of a histogram, and the quantiles that they have
BUCKETS = (
    ({"0.1": 3, "+Inf": 3}, ["50 ms", "99 ms"]),
    ({"0.1": 0, "0.2": 0, "+Inf": 0}, ["none yet", "none yet"]),
    ({"0.1": 0, "0.2": 0, "+Inf": 4}, ["200 ms", "200 ms"]),
    ({"0.001": 50, "0.1": 98, "2": 100, "+Inf": 100}, ["1 ms", "1.1 s"]),
)


def measured(scene):
    """Append times are reckoned as Prometheus does, and a server that was started again draws anew."""
    for buckets, want in BUCKETS:
        with Stub() as stub:
            stub.buckets = buckets
            with scene.shows(stub, f"measured {want}") as tab:
                scene.hears(f"a server of {want}", tab, "Serving")
                found = list_of(tab, "#log")
                scene.holds(f"append times {buckets}", [found.get(it) for it in LOG], want)
    with Stub() as stub, scene.shows(stub, "measured") as tab:
        scene.hears("a server without datagrams", tab, "Serving")
        stub.datagrams = 5000
        found = tab.awaits(TEXT % "#rates", lambda it: not it.startswith("0 now, 0 at most"))
        scene.is_true("then some come", not found.startswith("0 now, 0 at most"), found)
        stub.datagrams = 10
        found = tab.awaits(TEXT % "#rates", lambda it: it.startswith("0 now, 0 at most"))
        scene.is_true("fewer in all than before: it is drawn anew", found.startswith("0 now, 0 at most"), found)


def tokens(scene):
    """A token is asked for, again where it is wrong, and kept for the tab alone until one signs out."""
    path = token_file(scene, TOKEN.encode())
    refused = ("status of 401",)
    with scene.serves("--memory", "--http-token-file", path) as server, Client(server.port) as client:
        client.ask(register("lamp"))
        with scene.shows(server, "tokens", refused) as tab:
            scene.hears("a token is asked for", tab, "Sign in")
            scene.holds("nothing is shown without it", tab.value(IS_SHOWN % "main"), False)
            scene.holds("where it is typed", tab.value("document.activeElement.type"), "password")
            for wrong in ("short", "日" * 20, WRONG):
                tab.types(wrong)
                tab.presses("Enter")
                words = f"[{TEXT % '#login-words'}, document.activeElement.value, document.activeElement.ariaInvalid]"
                want = ["That is not the token of this server.", "", "true"]
                scene.sees(f"a wrong one: {wrong}", tab, words, want)
            tab.types(TOKEN)
            tab.presses("Enter")
            scene.sees("the right one", tab, COUNT, "1 registered, 1 to 1 shown")
            scene.holds("it is no longer asked for", tab.value(IS_SHOWN % "#login"), False)
            kept = "[location.href, document.cookie, localStorage.length, Object.values(sessionStorage)]"
            scene.holds("where it is kept", tab.value(kept), ["http://%s:%d/" % server.visited, "", 0, [TOKEN]])
            tab.call("Page.reload")
            scene.sees("the tab is loaded again", tab, COUNT, "1 registered, 1 to 1 shown")
            tab.value(PRESS % "Sign out")
            scene.hears("one signs out", tab, "Sign in")
            scene.holds("and nothing is kept", tab.value("Object.values(sessionStorage)"), [])
        with scene.shows(server, "another tab", refused) as tab:
            scene.hears("another tab is asked", tab, "Sign in")


def restarted(scene):
    """The server is killed under the page, and started again where it was."""
    data = scene.place("page")
    with scene.serves("--data", data) as server, Client(server.port) as client:
        visited = "%s:%d" % server.visited
        client.ask(register("lamp", 86400))
        gone = client.ask(register("gone", 86400)).located
        with scene.shows(server, "restarted", NO_SERVER) as tab:
            scene.sees("two are registered", tab, COUNT, "2 registered, 1 to 2 shown")
            client.ask(deregister(gone))
            scene.sees("one is registered", tab, COUNT, "1 registered, 1 to 1 shown")
            server.kill()
            scene.hears("the server is killed", tab, "it cannot be reached")
            state = tab.value(STATE)
            scene.is_true("so it says that it is away", state.startswith("Away: The server is away: "), state)
            tab.value("document.querySelector('thead button').click()")
            scene.holds("and so does the tab", tab.value("document.title"), "Fleet: away")
            scene.holds("what it told last is shown", list(rows_of(tab)), ["lamp"])
            scene.holds("of its log it is not known", list_of(tab, "#log").get("state"), "not known")
            with scene.serves("--data", data, visited=visited) as again, Client(again.port) as other:
                scene.hears("it is started again", tab, "It is back: it was away for ")
                scene.hears("which is said", tab, "The server was started again.")
                scene.sees("who was registered is", tab, COUNT, "1 registered, 1 to 1 shown")
                other.ask(register("after"))
                scene.sees_soon("whoever registers is seen", tab, lambda rows: sorted(rows) == ["after", "lamp"])
            scene.hears("it is killed again", tab, "it cannot be reached")
            with scene.serves("--memory", visited=visited):
                scene.sees("one that knows nobody", tab, COUNT, "0 registered")
                scene.hears("it is served", tab, "Serving")


def rarely(scene):
    """What a server is rarely in is said, and the page goes on."""
    but = ("status of 503", "status of 410", *NO_SERVER)
    with Stub() as stub:
        stub.changes = [(f"name-{it}", registration(f"name-{it}", 0, 1)) for it in range(600)]
        with scene.shows(stub, "rarely", but) as tab:
            scene.sees("three answers that follow each other", tab, COUNT, "600 registered, 1 to 50 shown")
            want = [f"/v1/changes?since={it}&start={START}&limit=256" for it in (0, 256, 512)]
            at = stub.asked.index(want[0])
            scene.holds("what was asked for them, at once", stub.asked[at : at + 3], want)
            time.sleep(2 * SOON)
            scene.holds("what is asked where nothing has changed", changes_asked(stub)[3:], [])
            away(scene, stub, tab)
            stub.changes = [("new", registration("new", 0, 1)), ("short", registration("short", 100, stub.now))]
            stub.start = OTHER
            scene.sees("another start is asked anew", tab, COUNT, "2 registered, 1 to 2 shown")
            scene.hears("which is said", tab, "The server was started again.")
            stub.mode, stub.changes = "gone", [*stub.changes, ("third", registration("third", 0, 1))]
            scene.sees("410 is asked anew", tab, COUNT, "3 registered, 1 to 3 shown")
            want = [f"/v1/changes?since={it}&start={OTHER}&limit=256" for it in (2, 0)]
            scene.holds("and from the begin", changes_asked(stub)[-2:], want)
            stub.now += 100_000
            scene.sees("the server's clock goes on", tab, COUNT, "2 registered, 1 to 2 shown")
            stub.now -= 1
            scene.sees("a millisecond less", tab, COUNT, "3 registered, 1 to 3 shown")


def changes_asked(stub):
    return [it for it in stub.asked if "changes" in it]


def away(scene, stub, tab):
    """The log is away, there is no memory, no answer; then all is as it was."""
    for mode, words in SAID.items():
        stub.mode = mode
        scene.hears(f"a server that is {mode}", tab, words, 15)
        if mode == "away":
            log = list_of(tab, "#log")
            want = ["away: nothing can be stored", "41,207"]
            scene.holds("the log", [log.get("state"), log.get("entries written")], want)
        stub.mode = "serving"
        scene.hears(f"it was {mode}", tab, "Serving: It is back", 15)


SAID = {"away": "not in its log yet", "refusing": "it answers 503 no memory", "silent": "it cannot be reached"}

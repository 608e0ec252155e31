"""What the page finds of many registrations, in which order, and what it saves of that."""

import json
import time

from asking import Updater, registered
from showing import BLANK, COUNT, ELEMENTS, FEED, OFFERS, PRESS, TEXT, TILES, chooses, presses_tile, rows_of, searches
from stub import Stub, registration


def many(scene):
    """Thousands: the page says how many, has few elements, and goes on answering while they change."""
    with scene.serves("--memory") as server, scene.shows(server, "many") as tab:
        found = registered(server.port, 3000)
        scene.sees("3,000 are counted", tab, COUNT, "3,000 registered, 1 to 50 shown", 60)
        changing = Updater(server.port, found)
        changing.start()
        slowest = slowest_answer(tab, 5)
        changing.stopped.set()
        changing.join()
        scene.is_true("the page answers meanwhile", slowest < 1.0, slowest)
        scene.is_true("elements of the page", tab.value(ELEMENTS) < 1600, tab.value(ELEMENTS))
        searches(tab, "NAME-2999 device")
        scene.sees("one is searched by two words", tab, COUNT, "3,000 registered, 1 found, 1 to 1 shown")
        scene.holds("and found", list(rows_of(tab)), ["name-2999"])
        searches(tab, found[1234])
        scene.sees("one is searched by its identifier", tab, COUNT, "3,000 registered, 1 found, 1 to 1 shown")
        scene.holds("and found too", list(rows_of(tab)), ["name-1234"])
        searches(tab, "nobody")
        scene.sees("nobody is found", tab, COUNT, "3,000 registered, 0 found")
        scene.sees("which is said", tab, BLANK, "No registration matches")
        tab.value(PRESS % "Clear filters")
        scene.sees("all are found", tab, COUNT, "3,000 registered, 1 to 50 shown")
        walked(scene, tab)


def slowest_answer(tab, wait):
    """How long the page takes at most to answer while so many seconds pass."""
    slowest, end = 0.0, time.monotonic() + wait
    while time.monotonic() < end:
        begun = time.monotonic()
        tab.value("1 + 1")
        slowest = max(slowest, time.monotonic() - begun)
    return slowest


def walked(scene, tab):
    """Each page of the table, in the size that is chosen."""
    chooses(tab, "#size", "250")
    names = []
    for _ in range(12):
        names += list(rows_of(tab))
        tab.value(PRESS % "Next page")
    scene.holds("all pages have all", names, sorted(f"name-{it}" for it in range(3000)))
    scene.holds("the last one", tab.value(COUNT), "3,000 registered, 2,751 to 3,000 shown")
    scene.holds("which is said", tab.value(TEXT % "#page-words"), "Page 12 of 12")
    tab.value(PRESS % "Previous page")
    scene.holds("the one before", tab.value(COUNT), "3,000 registered, 2,501 to 2,750 shown")


def hundred_thousand(scene):
    """A hundred thousand are read, and the page goes on answering while it counts and searches them."""
    with Stub() as stub:
        stub.changes = [(f"name-{it:06}", registration(f"name-{it:06}", 0, it)) for it in range(100_000)]
        with scene.browser.tab() as tab:
            tab.call("Page.addScriptToEvaluateOnNewDocument", source=TASKS)
            tab.opens("http://%s:%d/" % stub.visited)
            scene.sees("a hundred thousand are read", tab, COUNT, "100,000 registered, 1 to 50 shown", 120)
            tab.value("tasks.length = 0")
            for at in range(10):
                stub.changes += [(f"name-{it:06}", registration(f"name-{it:06}", 0, 1)) for it in range(500 * at)]
                time.sleep(0.5)
            longest = tab.value("Math.max(0, ...tasks)")
            scene.is_true("the longest task while they change", longest < 1000, longest)
            scene.says(f"the longest task while they change took {longest:.0f} ms")
            searches(tab, "name-099999")
            scene.sees("one is found", tab, COUNT, "100,000 registered, 1 found, 1 to 1 shown")
            scene.is_true("elements of the page", tab.value(ELEMENTS) < 1600, tab.value(ELEMENTS))
            scene.holds("a hundred thousand: the console", tab.of_console(), [])


# the milliseconds of each task of the page that held it for 50 or more
TASKS = """const tasks = [];
const taken = list => tasks.push(...list.getEntries().map(it => it.duration));
new PerformanceObserver(taken).observe({ type: 'longtask' });"""


# registrations, and how their endpoints are ordered by each head
FOUR = (
    ("a", 200, 9_700, "</9/0>", "3", "192.0.2.1:1", "UQ", "1.1"),
    ("b", 300, 9_600, "</7/0>", "4", "192.0.2.2:1", "S", "1.0"),
    ("c", 0, 9_650, "</5/0>", "1", "192.0.2.3:1", "T", "1.3"),
    ("d", 100, 9_900, "</3/0>", "2", "192.0.2.4:1", "U", "1.2"),
)
ORDERED = {
    "Endpoint": "abcd", "Seen": "dacb", "Lifetime left": "dabc", "Objects": "dcba", "Attributes": "cdab",
    "Address": "abcd", "Binding": "bcda", "LwM2M": "badc",
}


def one_of_four(name, lifetime, seen, objects, value, address, binding, lwm2m):
    further = {"objects": objects, "attributes": {"x": value}, "address": address, "binding": binding, "lwm2m": lwm2m}
    return registration(name, lifetime, seen, **further)


def ordered(scene):
    """The table by each head, up and down."""
    with Stub() as stub:
        stub.changes, stub.now = [(it[0], one_of_four(*it)) for it in FOUR], 10_000
        with scene.shows(stub, "ordered") as tab:
            tab.has_size(1600, 900)
            scene.sees("so many", tab, COUNT, "4 registered, 1 to 4 shown")
            for head, names in ORDERED.items():
                for way, want in (("ascending", names), ("descending", names[::-1])):
                    # at the begin it is ordered so
                    if (head, way) != ("Endpoint", "ascending"):
                        tab.value(PRESS % head)
                    found = tab.value(SORTED), "".join(rows_of(tab))
                    scene.holds(f"by {head}, {way}", found, ([f"{head} {way}"], want))
            chooses(tab, "#order", "seen true")
            scene.holds("by what a phone has in place of heads", "".join(rows_of(tab)), "bcad")


SORTED = "[...document.querySelectorAll('thead [aria-sort]')].map(it => it.textContent + ' ' + it.ariaSort)"
MINUTE, HOUR = 60_000, 3_600_000


def filtered(scene):
    """Each tile and each filter finds what it counts; together they find what all of them let through."""
    with Stub() as stub:
        stub.now = now = 10 * HOUR
        stub.changes = [(it["endpoint"], it) for it in (
            registration("a", 0, now - 10, objects="</3303/0>", attributes={"site": "x"}),
            registration("b", 100, now - 95_000, objects="</3303/0>,</3303/1>", attributes={"site": "y"}, queue=True),
            registration("c", 0, now - 2 * HOUR, objects="</3/0>", attributes={"site": "x"}, binding="UQ", queue=True),
            registration("d", 0, now - HOUR + 1, objects="</3/0>,</3304/0>", lwm2m="1.0"),
            registration("e", 0, now - HOUR, objects="</3/0>,</3304/0>"),
        )]
        with scene.shows(stub, "filtered") as tab:
            scene.sees("so many", tab, COUNT, "5 registered, 1 to 5 shown")
            for words, names in TILED.items():
                scene.holds(f"{words} counts", tab.value(TILES)[words], str(len(names)))
                presses_tile(tab, words)
                scene.holds(f"{words} finds", "".join(rows_of(tab)), names)
                presses_tile(tab, words)
                scene.holds(f"{words} off again", "".join(rows_of(tab)), "abcde")
            for field, value, offer, names in FILTERED:
                tab.awaits(OFFERS % field, lambda it, offer=offer: offer in it)
                scene.is_true(f"{field} offers {offer}", offer in tab.value(OFFERS % field), tab.value(OFFERS % field))
                chooses(tab, field, value)
                scene.holds(f"{field} finds", "".join(rows_of(tab)), names)
                tab.value(PRESS % "Clear filters")
                scene.holds(f"{field} is cleared", (tab.value(COUNT), tab.value(VALUES)), CLEARED)
            chooses(tab, "#by-object", "3303")
            chooses(tab, "#by-attribute", "site=x")
            scene.holds("two filters together", "".join(rows_of(tab)), "a")
            tab.value(PRESS % "Clear filters")
            came_and_went(scene, stub, tab)


TILED = {"Seen in 1 min": "a", "Seen in 1 h": "abd", "Quiet over 1 h": "ce", "Ending soon": "b", "Queue mode": "bc"}
FILTERED = (
    ("#by-object", "3303", "3303 Temperature (2)", "ab"),
    ("#by-object", "3304", "3304 Humidity (2)", "de"),
    ("#by-attribute", "site=x", "site=x (2)", "ac"),
    ("#by-binding", "UQ", "Binding UQ (1)", "c"),
    ("#by-version", "1.0", "LwM2M 1.0 (1)", "d"),
)
VALUES = """['#search', '#by-object', '#by-attribute', '#by-binding', '#by-version']
  .map(it => document.querySelector(it).value).join('')"""
CLEARED = ("5 registered, 1 to 5 shown", "")


def came_and_went(scene, stub, tab):
    """What comes while the page is open is counted and found, and what goes is counted and leads to the activity."""
    stub.changes += [("f", registration("f", 0, stub.now)), ("a", None)]
    scene.sees("one came, one went", tab, f"[{TILES}.Came, {TILES}.Went]", ["1", "1"])
    presses_tile(tab, "Came")
    scene.holds("Came finds", "".join(rows_of(tab)), "f")
    presses_tile(tab, "Went")
    want = [["a", "deregistered"], ["f", "registered from 192.0.2.7:5683, for ever"]]
    scene.sees("Went leads to what happened", tab, FEED, want)


def exported(scene):
    """What was found is saved as CSV, where no cell is a formula, and as JSON."""
    with Stub() as stub:
        stub.changes = [("=1+1", registration("=1+1", 0, 1, attributes={"a": 'x"y'}))]
        stub.changes += [("b", registration("b", 9, 999_000))]
        with scene.shows(stub, "exported") as tab:
            scene.sees("so many", tab, COUNT, "2 registered, 1 to 2 shown")
            tab.value(SAVED)
            tab.value(PRESS % "Export CSV")
            found = tab.awaits("saved[0] ?? ''", lambda it: it).splitlines()
            scene.holds("heads of the CSV", found[0], ",".join(HEADS_OF_CSV))
            scene.is_true("a formula is none", found[1].startswith('"\'=1+1","'), found[1])
            scene.is_true("and a mark is doubled", found[1].endswith(',"a=x""y"'), found[1])
            searches(tab, "b")
            tab.value(PRESS % "Export JSON")
            told = json.loads(tab.awaits("saved[1] ?? '[]'", lambda it: it != "[]"))
            want = [{**registration("b", 9, 999_000), "end": 1_008_000}]
            scene.holds("the JSON of what was found", told, want)


HEADS_OF_CSV = ("endpoint", "id", "address", "seen", "end", "lifetime", "lwm2m", "binding", "queue", "sms", "objects")
HEADS_OF_CSV += ("attributes",)
# what is saved comes into a list, and not into a file
SAVED = """globalThis.saved = [];
URL.createObjectURL = blob => { blob.text().then(text => saved.push(text)); return '#'; };
HTMLAnchorElement.prototype.click = () => {};"""

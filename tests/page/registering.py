"""What the page shows of registrations: that they come, change and go, and what is opened."""

import re
import time

import tools
from asking import Client
from coap import deregister, register, update
from showing import BLANK, COUNT, FEED, HEADS, IS_SHOWN, NAME, OFFERS, PRESS, ROWS, SOON, TEXT
from showing import list_of, looks_at, opens_device, rows_of

COLUMNS = ["Endpoint", "Seen", "Lifetime left", "Last value", "Objects", "Attributes", "Address", "Binding", "LwM2M"]


def address_of(client):
    return "127.0.0.1:%d" % client.socket.getsockname()[1]


def lived(scene):
    """A device registers, is seen elsewhere with another lifetime, and goes."""
    with scene.shown("lived", MAY_ASK) as (server, tab, client):
        scene.hears("a server that serves", tab, "Serving")
        scene.sees("nobody is registered", tab, COUNT, "0 registered")
        scene.sees("which is said", tab, BLANK, "No device is registered yet")
        scene.holds("heads of columns", tab.value(HEADS), COLUMNS)
        lamp = client.ask(register("lamp", 300)).located
        scene.sees_soon("a Register is seen", tab, lambda rows: "lamp" in rows)
        shown = rows_of(tab)["lamp"]
        scene.is_true("how long ago it was seen", re.fullmatch(r"[0-4] s ago", shown.pop("Seen")), shown)
        left = shown.pop("Lifetime left")
        scene.is_true("what is left of its lifetime", re.fullmatch(r"4 min 5[5-9] s|5 min", left), left)
        scene.holds("its row", shown, row_of(client))
        further = ("b=UQ", "sms=+49", "site=a b", "x=")
        other = client.ask(register("other", 0, b'</>;rt="oma.lwm2m",</3/0>', further)).located
        scene.sees_soon("a second one is seen", tab, lambda rows: "other" in rows)
        shown = rows_of(tab)["other"]
        members = {"Binding": "UQ", "Attributes": "site=a b\nx=", "Objects": "Device", "Lifetime left": "never ends"}
        scene.holds("its row too", shown, row_of(client) | members | {"Seen": shown["Seen"]})
        opens_device(tab, "other")
        facts = list_of(tab, "#facts")
        want = {"Identifier": other, "SMS": "+49", "Queue mode": "yes", "Binding": "UQ (UDP, queue mode)"}
        want |= {"x": "(empty)"}
        scene.holds("what more is told where it is opened", {it: facts.get(it) for it in want}, want)
        moves(scene, server, tab, lamp)
        client.ask(deregister(other))
        scene.sees_soon("a Deregister is seen", tab, lambda rows: "other" not in rows)
        scene.sees("one is registered", tab, COUNT, "1 registered, 1 to 1 shown")
        scene.holds("which the tab says as well", tab.value("document.title"), "other, Fleet: 1 registered")


# where a device is opened the page asks once whether the server takes commands, which is refused so
MAY_ASK = ("status of 405",)


def real_client(scene):
    """A Register, an Update and a Deregister of a real client are seen."""
    client = tools.real_client()
    if not client:
        scene.passes_over("a real client, which is not there (FLEET_INSTALL=1 has it installed)")
        return
    with scene.serves("--memory") as server, scene.shows(server, "real_client", MAY_ASK) as tab:
        scene.hears("a server for a real client", tab, "Serving")
        words = ["-m", "post", "-t", "40", "-e", "</1/0>,</3/0>"]
        code, found = tools.asked_by_client(client, words, server.port, "rd?ep=real&lt=300&lwm2m=1.1&b=U")
        scene.sees_soon("a Register of a real client is seen", tab, lambda rows: "real" in rows)
        opens_device(tab, "real")
        scene.holds("its code and its identifier", (code, list_of(tab, "#facts").get("Identifier")), ("2.01", found))
        code, _ = tools.asked_by_client(client, ["-m", "post"], server.port, f"rd/{found}?lt=0")
        scene.sees_soon("its Update is seen", tab, lambda rows: rows["real"]["Lifetime left"] == "never ends")
        gone, _ = tools.asked_by_client(client, ["-m", "delete"], server.port, f"rd/{found}")
        scene.sees_soon("its Deregister is seen", tab, lambda rows: "real" not in rows)
        scene.holds("codes of its Update and its Deregister", (code, gone), ("2.04", "2.02"))


def row_of(client):
    """A row without what passes."""
    cells = {"Last value": "", "Objects": "Server\nDevice", "Attributes": "", "Address": address_of(client)}
    return {**cells, "Binding": "U", "LwM2M": "1.1"}


def moves(scene, server, tab, identifier):
    """An Update from another address, with another lifetime; then its time passes."""
    bar = "parseFloat(document.querySelector('tbody .bar > span').style.width)"
    with Client(server.port) as client:
        client.ask(update(identifier, 20))
        scene.sees_soon("an Update's address is seen", tab, lambda rows: rows["lamp"]["Address"] == address_of(client))
    left, seen = (rows_of(tab)["lamp"][it] for it in ("Lifetime left", "Seen"))
    of = tab.value("document.querySelector('tbody .c-left').title")
    scene.is_true("its lifetime", of.startswith("of 20 s, until ") and left.endswith(" s"), (of, left))
    before = tab.value(bar)
    time.sleep(3)
    row, after = rows_of(tab)["lamp"], tab.value(bar)
    scene.is_true("time passes", (row["Lifetime left"], row["Seen"]) != (left, seen), row)
    scene.is_true("the bar gets shorter", 5 <= before - after <= 30 and 60 < after < 95, (before, after))


BAD = "<img src=x onerror=alert(1)>"
# what a device says, and how it stands in the table
TEXTS = {
    BAD: BAD,
    "<script>alert(2)</script>": "<script>alert(2)</script>",
    "&lt;b&gt;": "&lt;b&gt;",
    "a\u200bb": "a[U+200b]b",
    "a\u202eb": "a[U+202e]b",
    "a\nb\x00": "a[U+a]b[U+0]",
    "é 日本 🚀": "é 日本 🚀",
    "n" * 252: "n" * 252,
    "__proto__": "__proto__",
}


def texts(scene):
    """What devices say stays text, and is told apart."""
    with scene.shown("texts", MAY_ASK) as (_, tab, client):
        for name in TEXTS:
            client.ask(register(name))
        client.ask(register("sayer", further=("b=U", f"sms={BAD}", f"{BAD}={BAD}", "__proto__=x", "a=&amp;")))
        long = ",".join(f"</{it}/0>" for it in range(256))
        client.ask(register("long", objects=long.encode()))
        scene.sees("so many", tab, COUNT, "11 registered, 1 to 11 shown")
        rows = rows_of(tab)
        scene.holds("names stay text", sorted(rows), sorted([*TEXTS.values(), "sayer", "long"]))
        attributes = sorted(rows["sayer"]["Attributes"].splitlines())
        scene.holds("attributes stay text", attributes, sorted([f"{BAD}={BAD}", "__proto__=x", "a=&amp;"]))
        scene.holds("a long list is cut", len(rows["long"]["Objects"].splitlines()), 12)
        scene.holds("and whole in its title", max(tab.value(TITLED)), 256)
        opens_device(tab, "sayer")
        facts = list_of(tab, "#facts")
        scene.holds("an SMS number stays text", facts.get("SMS"), BAD)
        scene.holds("nor does an attribute", facts.get("<img src"), f"x onerror=alert(1)>={BAD}")
        tab.awaits(OFFERS % "#by-attribute", lambda it: len(it) > 3)
        scene.is_true("and where filters offer it", f"{BAD}={BAD} (1)" in tab.value(OFFERS % "#by-attribute"), "")
        found = tab.value("['img', 'script', 'b', 'iframe'].map(it => document.getElementsByTagName(it).length)")
        scene.holds("elements that devices have made", found, [0, 1, 0, 0])
        scene.holds("attributes of elements that have a text of a device", tab.value(ATTRIBUTES), TEXTUAL)


TITLED = "[...document.querySelectorAll('.c-objects')].map(it => it.title.split(', ').length)"
# where a text of a device stands in an attribute, and the attributes that may have one
ATTRIBUTES = """[...new Set([...document.querySelectorAll('*')].flatMap(it => [...it.attributes])
  .filter(it => /<img|%3Cimg/.test(it.value)).map(it => it.name))].sort()"""
TEXTUAL = ["href", "title", "value"]


def expired(scene):
    """What expires goes by itself, by the server's clock and before its end is told."""
    with scene.serves("--memory") as server, scene.browser.tab() as tab, Client(server.port) as client:
        tab.call("Page.addScriptToEvaluateOnNewDocument", source="Date.now = () => 4102444800000")
        tab.opens("http://%s:%d/" % server.visited)
        scene.hears("a clock that is late in the century", tab, "Serving")
        client.ask(register("ever", 0))
        client.ask(register("short", 1))
        end = time.monotonic() + 1
        scene.sees_soon("one that never expires", tab, lambda rows: "ever" in rows)
        tab.awaits(ROWS, lambda _: "short" not in rows_of(tab))
        scene.is_true("one that lives a second has gone", time.monotonic() < end + 1.5 * SOON, time.monotonic() - end)
        client.ask_all([register(f"name-{it}", 10) for it in range(500)], at_once=25)
        end = time.monotonic() + 10
        scene.sees("all that live ten seconds are there", tab, COUNT, "501 registered, 1 to 50 shown", 8)
        found = tab.awaits(COUNT, lambda text: text.startswith("1 registered"), 10 + SOON)
        scene.is_true("and have gone", time.monotonic() < end + SOON, found)
        scene.holds("who never expires stays", list(rows_of(tab)), ["ever"])
        scene.holds("expired: the console", tab.of_console(), [])


def happened(scene):
    """Each thing that happens to a registration is told with its endpoint, and nothing while that is held."""
    with scene.shown("happened") as (server, tab, client):
        scene.sees("nobody is registered", tab, COUNT, "0 registered")
        looks_at(tab, "activity")
        first = client.ask(register("lamp", 300)).located
        want = [["lamp", f"registered from {address_of(client)}, for 5 min"]]
        scene.sees("it registers", tab, FEED, want)
        with Client(server.port) as other:
            other.ask(update(first))
            want = [["lamp", f"moved from {address_of(client)} to {address_of(other)}"], *want]
            scene.sees("it moves", tab, FEED, want)
            other.ask(update(first, 60))
            want = [["lamp", "changed its lifetime to 1 min"], *want]
            scene.sees("it changes its lifetime", tab, FEED, want)
            again = other.ask(register("lamp", 60)).located
            want = [["lamp", "registered again: its observations have ended"], *want]
            scene.sees("it registers again", tab, FEED, want)
            tab.value(PRESS % "Pause")
            other.ask(deregister(again))
            scene.sees("it goes", tab, COUNT, "0 registered")
            time.sleep(SOON)
            scene.holds("which is not told while that is held", tab.value(FEED), want)
            tab.value(PRESS % "Go on")
            want = [["lamp", "deregistered"], *want]
            scene.sees("but then", tab, FEED, want)
            other.ask(register("short", 1))
            ended = ["short", "ended: no Update came in its lifetime of 1 s"]
            found = tab.awaits(FEED, lambda it: it[0] == ended, 15)
            scene.holds("one that ends", found[0], ended)


def opened(scene):
    """A device is opened by a link, by a key and by the address, and closed; what is not there is said to be so."""
    hostile = f"a/b c%d+e&{BAD}"
    with scene.shown("opened", MAY_ASK) as (_, tab, client):
        for name in ("lamp", "other", hostile):
            client.ask(register(name))
        scene.sees("so many", tab, COUNT, "3 registered, 1 to 3 shown")
        tab.value("document.querySelectorAll('tbody a')[1].focus()")
        tab.presses("Enter")
        scene.sees("by Enter", tab, NAME, "lamp")
        scene.holds("where the focus is", tab.value("document.activeElement.id"), "device-name")
        tab.presses("Escape")
        scene.sees("closed by Escape", tab, IS_SHOWN % "#device", False)
        scene.holds("where the focus is then", tab.value("document.activeElement.textContent"), "lamp")
        tab.presses("ArrowDown")
        scene.holds("by an arrow to the next", tab.value("document.activeElement.textContent"), "other")
        tab.value("document.querySelector('tbody tr').click()")
        scene.sees("by a click, one of a hostile name", tab, NAME, hostile)
        tab.value("history.back()")
        scene.sees("back", tab, IS_SHOWN % "#device", False)
        tab.value("history.forward()")
        scene.sees("and forward", tab, NAME, hostile)
        tab.call("Page.reload")
        scene.sees("by the address, at a load", tab, NAME, hostile)
        state = tab.awaits(TEXT % "#device-state", lambda it: it.startswith("Registered, seen "))
        scene.is_true("and it is registered", state.startswith("Registered, seen "), state)
        opens_device(tab, "later")
        want = "Not registered. It is shown as soon as it registers; what it told before stays below."
        scene.sees("one that is not there", tab, TEXT % "#device-state", want)
        client.ask(register("later"))
        tab.awaits(TEXT % "#device-state", lambda it: it.startswith("Registered"))
        scene.is_true("registers", tab.value(TEXT % "#device-state").startswith("Registered, seen "), "")
        scene.sees("elements of a hostile name", tab, "document.getElementsByTagName('img').length", 0)

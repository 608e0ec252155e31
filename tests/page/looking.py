"""How the page looks and is heard: on a phone and a wide screen, in the light and the dark, and by keyboard."""

import itertools
import time

from asking import Client, registered
from coap import register
from registering import BAD, MAY_ASK
from showing import COUNT, PUT_FOCUS, looks_at, opens_device
from stub import START, Stub, notice, registration

SIZES = ((390, 844), (1280, 800))
VIEWS = {
    "devices": lambda tab: looks_at(tab, "devices"), "device": lambda tab: opens_device(tab, "lamp"),
    "activity": lambda tab: looks_at(tab, "activity"), "server": lambda tab: looks_at(tab, "server"),
}
# the roles of the devices where none is open: a phone has no panels, and a table of four columns
ROLES = {
    390: {"table": 1, "columnheader": 4, "rowheader": 50, "row": 51, "heading": 3, "status": 1, "image": 0},
    1280: {"table": 1, "columnheader": 8, "rowheader": 50, "row": 51, "heading": 6, "status": 1, "image": 1},
}


def looked_at(scene):
    """Each view in each width and each scheme: nothing too wide, nothing too faint, nothing without a name."""
    with scene.serves("--memory") as server, Client(server.port) as client:
        long = b",".join(b"</%d/0>" % it for it in range(60))
        for name, lifetime, objects in (("lamp", 3000, b"</1/0>"), ("l" * 252, 0, long), (BAD, 3000, b"</3/0>")):
            client.ask(register(name, lifetime, objects, ("b=U", f"{'v' * 250}=1", "site=a")))
        registered(server.port, 60)
        with scene.shows(server, "looked at", MAY_ASK) as tab:
            scene.sees("so many", tab, COUNT, "63 registered, 1 to 50 shown")
            for (width, height), (view, turns_to) in itertools.product(SIZES, VIEWS.items()):
                tab.has_size(width, height, is_phone=width == 390)
                turns_to(tab)
                scene.sees(f"{width} wide, {view}", tab, "innerWidth", width)
                scene.sees(f"{width} wide, {view}, beyond the edge", tab, BEYOND, 0)
                scene.is_true(f"{width} wide, {view}, room for values", tab.value(NARROWEST) > 50, tab.value(NARROWEST))
                heard(scene, tab, width, view)
                seen(scene, tab, width, view)
            dark, light = (tab.has_scheme(it) or tab.value(PAPER) for it in ("dark", "light"))
            scene.is_true("the dark is darker", dark < 100 < 600 < light, (dark, light))
            looks_at(tab, "devices")
            by_keyboard(scene, tab)


def seen(scene, tab, width, view):
    """What is seen of a view, in the light and in the dark."""
    for scheme in ("light", "dark"):
        tab.has_scheme(scheme)
        faint = [it for it in tab.value(CONTRASTS) if it[1] < 4.5]
        scene.holds(f"{width} wide, {view}, {scheme}: texts that are faint", faint, [])
        if scene.pictures:
            tab.picture(scene.pictures / f"{view}-{width}-{scheme}.png")


BEYOND = "(it => it.scrollWidth - it.clientWidth)(document.scrollingElement)"
NARROWEST = """Math.min(999, ...[...document.querySelectorAll('#facts dd')].filter(it => it.checkVisibility())
  .map(it => it.offsetWidth))"""
PAPER = "getComputedStyle(document.body).backgroundColor.match(/\\d+/g).map(Number).reduce((sum, it) => sum + it)"
# the contrast of each text with what it stands on (WCAG 2.1, 1.4.3)
CONTRASTS = """(() => {
  const parts = text => text.match(/[\\d.]+/g).map(Number);
  const light = text => parts(text).slice(0, 3).map(it => it / 255)
    .map(it => it <= 0.04045 ? it / 12.92 : ((it + 0.055) / 1.055) ** 2.4)
    .reduce((sum, it, at) => sum + it * [0.2126, 0.7152, 0.0722][at], 0);
  const ground = it => it && (parts(getComputedStyle(it).backgroundColor)[3] ?? 1) ? it : ground(it.parentElement);
  const contrast = it => [getComputedStyle(it).color, getComputedStyle(ground(it)).backgroundColor].map(light)
    .sort((one, other) => other - one).map(it => it + 0.05).reduce((one, other) => one / other);
  return [...document.querySelectorAll(":is(h1, h2, h3, p, a, button, span, strong, dt, dd, th, td, label, time)")]
    .concat([...document.querySelectorAll("input, select, summary, li")])
    .filter(it => it.checkVisibility() && (it.textContent.trim() || it.matches("input")))
    .map(it => [it.tagName + " " + it.textContent.slice(0, 20), contrast(it)]);
})()"""


def heard(scene, tab, width, view):
    """What a view is to who hears it: the table with its heads, and a name for each thing that can be used."""
    nodes = [it for it in tab.call("Accessibility.getFullAXTree")["nodes"] if not it.get("ignored")]
    roles = [it["role"]["value"] for it in nodes]
    if view == "devices":
        found = {it: roles.count(it) for it in ROLES[width]}
        scene.holds(f"{width} wide, roles", found | {"image": found["image"] or roles.count("img")}, ROLES[width])
        scene.holds(f"{width} wide, parts of the table without a role of their own", tab.value(ROLELESS), 0)
    usable = [it for it in nodes if any(of["name"] == "focusable" for of in it.get("properties", ()))]
    nameless = [it["role"]["value"] for it in usable if not it.get("name", {}).get("value")]
    scene.holds(f"{width} wide, {view}, things without a name", nameless, [])


# some browsers see no table where its rows are cards, unless the roles of its parts are told
ROLELESS = "document.querySelectorAll(':is(table, thead, tbody, tr, th, td):not([role])').length"


def by_keyboard(scene, tab):
    """The tabulator comes to each thing that can be used, and shows where it is."""
    tab.value("document.activeElement.blur(); scrollTo(0, 0)")
    stops = []
    for _ in range(29):
        tab.presses("Tab")
        stops.append(tab.value(FOCUS))
    # a browser may begin before the first of them
    stops = list(itertools.dropwhile(lambda it: it[0] == "BODY", stops))[:28]
    # the views, the tiles, what finds, the heads, and the first rows
    finds = ["search", "by-object", "by-attribute", "by-binding", "by-version"]
    want = [*["A"] * 3, *["BUTTON"] * 8, *finds, *["BUTTON"] * 8, *["A"] * 4]
    scene.holds("by the tabulator", [name for name, _ in stops], want)
    scene.holds("where the focus is not seen", [name for name, width in stops if width < 2], [])
    tab.value("document.activeElement.blur()")
    tab.call("Input.dispatchKeyEvent", type="keyDown", key="/", text="/")
    scene.holds("the search by its key", tab.value("document.activeElement.id"), "search")
    tab.types("name-5")
    scene.sees("what is typed is searched", tab, COUNT, "63 registered, 11 found, 1 to 11 shown")
    tab.value("document.querySelector('#clear').click()")
    tab.value(PUT_FOCUS % "#next")
    tab.presses("Enter")
    scene.sees("a button by the keyboard", tab, COUNT, "63 registered, 51 to 63 shown")


# what has the focus, and how wide the line around it is
FOCUS = """(it => {
  const { outlineStyle, outlineWidth } = getComputedStyle(it);
  return [it.id || it.tagName, outlineStyle === 'none' ? 0 : parseFloat(outlineWidth)];
})(document.activeElement)"""


def pictured(scene):
    """The picture of docs/page.png: a fleet, and a device that is open."""
    kinds = {"lamp": "</3/0>,</3303/0>,</3311/0>", "meter": "</3/0>,</3303/0>,</3331/0>", "probe": "</3/0>,</3303/0>"}
    places, path = ("harbour", "mill", "station"), "/3303/0/5700"
    names = [f"{kind}-{place}-{at}" for at in range(1, 5) for kind in kinds for place in places]
    with Stub() as stub:
        stub.now, stub.buckets = 1_764_590_400_000, {"0.001": 900, "0.002": 990, "0.005": 1000, "+Inf": 1000}
        for at, name in enumerate(names):
            kind, place, _ = name.split("-")
            told = {"objects": kinds[kind], "attributes": {"site": place}, "queue": at % 5 == 4}
            stub.changes.append((name, registration(name, 300, stub.now + 60_000 - 7_000 * (at * 5 % 40), **told)))
        stub.observations = [{"accept": None, "endpoint": names[0], "path": path, "token": START}]
        with scene.shows(stub, "pictured", MAY_ASK) as tab:
            tab.has_size(1600, 900)
            opens_device(tab, names[0])
            for turn in range(20):
                stub.now, stub.datagrams = stub.now + 3_000, stub.datagrams + 40 + turn % 7
                for at, name in enumerate(names):
                    value = 20 + at % 5 + (turn * (at % 3 + 1)) % 11 / 4
                    stub.notices.append((True, notice(b"%.1f" % value, content_format=0, path=path, endpoint=name)))
                time.sleep(1.1)
            wanted = "document.querySelectorAll('.watch canvas').length"
            scene.sees("a chart", tab, wanted, 1)
            if scene.picture:
                tab.picture(scene.picture)

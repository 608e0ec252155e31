"""The files of examples: devices that are run against a server, and what is read of its metrics."""

import contextlib
import json
import pathlib
import re
import signal
import subprocess
import time

import tools
from checks import VISITS
from devices import COMMANDS, is_soon, notifications, token_of
from exposition import measures_of
from ports import free_port
from serving import LIMIT, ends_with_the_test
from visiting import ask

TOP = pathlib.Path(__file__).resolve().parent.parent.parent
EXAMPLES_FOLDER = TOP / "examples"
COUNT = 20
NAMES = sorted(f"device-{it}" for it in range(1, COUNT + 1))
OBSERVED, PATH = "device-7", "/3303/0/5700"
# how many notifications are waited for, the seconds between two of them, and how long seven more would take
SOME, NOTIFY, NO_MORE = 8, 0.2, 1.5
METRIC = re.compile(r"\bfleet_\w+")


class Devices:
    """A run of examples/devices.py, which is ended where it is left."""

    def __init__(self, scene, port):
        self.output = scene.folder / f"devices-{port}"
        words = [EXAMPLES_FOLDER / "devices.py", COUNT, "--port", port, "--update", 1, "--notify", NOTIFY]
        with open(self.output, "wb") as output:
            streams = {"stdin": subprocess.DEVNULL, "stdout": output, "stderr": subprocess.STDOUT}
            self.run = subprocess.Popen(list(map(str, words)), preexec_fn=ends_with_the_test, **streams)

    def __enter__(self):
        return self

    def __exit__(self, *_):
        with contextlib.suppress(ProcessLookupError):
            self.run.kill()
        self.run.wait()

    def printed(self):
        return self.output.read_text(errors="replace").splitlines()

    def ends_by(self, kind):
        """The status and the last line, where a signal ends it."""
        self.run.send_signal(kind)
        return self.run.wait(LIMIT), self.printed()[-1:]


def registered(server):
    """The registrations that a server tells of, by their endpoints."""
    page = json.loads(ask(server.visited, "/v1/registrations?limit=256").body)
    return {it["endpoint"]: it for it in page["registrations"]}


def simulated_devices(scene):
    """Devices register, update, notify, register again at a server that knows none, and deregister."""
    port = free_port()
    words = ("--memory", "--port", port, *COMMANDS)
    with contextlib.ExitStack() as both:
        with scene.serving(*words) as server:
            devices = both.enter_context(Devices(scene, port))
            is_soon(lambda: len(registered(server)) == COUNT, LIMIT)
            first = registered(server)
            scene.holds("devices.py: all register", sorted(first), NAMES)
            scene.is_true("devices.py: all update", is_soon(lambda: have_updated(server, first)), registered(server))
            observed(scene, server)
        with scene.serving(*words) as server:
            is_soon(lambda: len(registered(server)) == COUNT, LIMIT)
            scene.holds("devices.py: all register again at a server that knows none", sorted(registered(server)), NAMES)
            want = 0, [f"{COUNT} of {COUNT} devices deregistered"]
            scene.holds("devices.py: its end by Ctrl-C", devices.ends_by(signal.SIGINT), want)
            scene.holds("devices.py: none is left", registered(server), {})
            want = f"{COUNT} of {COUNT} devices registered at 127.0.0.1:{port}"
            scene.holds("devices.py: what it says", devices.printed()[0], want)


def have_updated(server, first):
    """Whether each device was seen again, with the identifier that it had."""
    now = registered(server)
    return all(now[it]["seen"] > first[it]["seen"] and now[it]["id"] == first[it]["id"] for it in first)


def observed(scene, server):
    """An observation gives notifications, each with a temperature, until it is ended."""
    command = f"/v1/registrations/{OBSERVED}/observations?path={PATH}"
    token = token_of(ask(server.visited, command, "POST"))
    is_soon(lambda: notifications(server)["next"] >= SOME)
    found = [it["notice"] for it in notifications(server)["notifications"]]
    scene.is_true("devices.py: an observation gives notifications", len(found) >= SOME, found)
    from_one = {(it["endpoint"], it["path"], it["token"], it["code"], it["ended"]) for it in found}
    scene.holds("devices.py: whose they are", from_one, {(OBSERVED, PATH, token, 69, False)})
    values = [bytes.fromhex(it["payload"]).decode() for it in found]
    scene.is_true("devices.py: their values", all(re.fullmatch(r"\d\d\.\d", it) for it in values), values)
    scene.is_true("devices.py: values that differ", len(set(values)) > 1, values)
    ended(scene, server, token)


def ended(scene, server, token):
    """A device whose observation has ended soon sends no more notifications, which the server answers by Resets."""
    response = ask(server.visited, f"/v1/tokens/{token}", "DELETE")
    scene.holds("devices.py: the end of an observation", response.status, "204 No Content")
    told, before = notifications(server)["next"], measures_of(server)["fleet_empty_replies_total"]
    time.sleep(NO_MORE)
    scene.holds("devices.py: no notification behind its end", notifications(server)["next"], told)
    resets = measures_of(server)["fleet_empty_replies_total"] - before
    scene.is_true("devices.py: it stops sending notifications", resets <= 2, resets)


def refused_words(scene):
    """devices.py tells how it is called."""
    for words, status in ((["--help"], 0), (["many"], 2), (["4", "--ports", "1"], 2)):
        ran = subprocess.run([EXAMPLES_FOLDER / "devices.py", *words], capture_output=True, text=True, timeout=LIMIT)
        told = "usage: devices.py" in ran.stdout + ran.stderr
        scene.holds(f"devices.py {' '.join(words)}", (ran.returncode, told), (status, True))


def alerted():
    """The metrics that HTTP.md says are worth an alert, in paragraphs that speak of alerts or in lists below them."""
    found, is_list = set(), False
    for paragraph in (TOP / "docs" / "HTTP.md").read_text().split("\n\n"):
        speaks = re.search(r"\balert", paragraph, re.I)
        if speaks or is_list:
            found.update(METRIC.findall(paragraph))
        is_list = speaks and paragraph.endswith(":")
    return found


def watched(scene):
    """The alert rules and the dashboard name metrics that the program has, and the rules all that are to have one."""
    rules, board = ((EXAMPLES_FOLDER / it).read_text() for it in ("alerts.yml", "dashboard.json"))
    with scene.serving("--memory", "--port", "0", *VISITS) as server:
        known = {it.partition("{")[0] for it in measures_of(server)}
    for name, text in (("alerts.yml", rules), ("dashboard.json", board)):
        scene.holds(f"metrics of {name} that the program does not have", sorted(set(METRIC.findall(text)) - known), [])
    expressions = set(METRIC.findall("\n".join(re.findall(r"^ +expr: (.+)$", rules, re.M))))
    scene.holds("metrics of alerts.yml, and those that HTTP.md says are worth an alert", expressions, alerted())
    shown = {it["title"]: "\n".join(target["expr"] for target in it["targets"]) for it in json.loads(board)["panels"]}
    empty = [title for title, text in shown.items() if not METRIC.search(text) and "up{" not in text]
    scene.holds("panels of dashboard.json that show no metric", empty, [])
    checked_by_promtool(scene)


def checked_by_promtool(scene):
    tool = tools.tool(("promtool",), "prometheus")
    if not tool:
        scene.passes_over("promtool check rules, which is not there (FLEET_INSTALL=1 has it installed)")
        return
    words = [tool, "check", "rules", EXAMPLES_FOLDER / "alerts.yml"]
    ran = subprocess.run(words, stdout=subprocess.PIPE, stderr=subprocess.STDOUT, text=True, timeout=LIMIT)
    scene.is_true("promtool check rules", ran.returncode == 0 and "11 rules found" in ran.stdout, ran.stdout)


EXAMPLES = (simulated_devices, refused_words, watched)

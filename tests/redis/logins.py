"""Who may ask a Redis, and what it refuses."""

import re
import tempfile

from asking import Client
from coap import register
from entries import is_away
from faults import all_goes_on, nothing_is_told, told
from keeper import KEY
from scenes import SOON, ended, is_answered, measure

PASSWORD, WRONG, GENERAL = "pass-0123456789-word", "wrong-9876543210-word", "general-4567890123-word"
RIGHTS = ("+xadd", "+xrange", "+xtrim", "+ping", "+auth", "+info", "+time")
# the bytes of files that are no logins
NO_LOGINS = {
    "one line": b"fleet",
    "one line that ends": b"fleet\n",
    "nothing": b"",
    "no user": f"\n{PASSWORD}\n".encode(),
    "no password": b"fleet\n\n",
    "three lines": f"fleet\n{PASSWORD}\nmore\n".encode(),
    "a control byte in the user": f"fl\x01eet\n{PASSWORD}\n".encode(),
    "a control byte in the password": b"fleet\npass\tword\n",
    "a byte 0": b"fleet\npass\0word\n",
    "a password of 257 bytes": b"fleet\n" + b"a" * 257,
    "2,000 bytes": b"fleet\n" + b"a" * 2_000 + b"\n",
}


def login_file(scene, text):
    with tempfile.NamedTemporaryFile(prefix="login-", dir=scene.folder, delete=False) as file:
        file.write(text)
    return file.name


def login_of(scene, user, password):
    return "--redis-login", login_file(scene, f"{user}\n{password}\n".encode())


def login_files(scene):
    """A file that has no user and password ends a start at once, whether or not a Redis is there."""
    address = f"127.0.0.1:{scene.closed_port()}"
    for what, text in NO_LOGINS.items():
        with scene.sharer(address, "--redis-login", login_file(scene, text)) as server:
            scene.holds(f"a login file with {what}", server.ends(5), (1, "login refused"))
    with scene.sharer(address, "--redis-login", scene.folder / "missing") as server:
        scene.holds("a login file that is missing", server.ends(5), (1, "login refused"))
    with scene.sharer(address, "--redis-login", scene.folder) as server:
        scene.holds("a folder in its place", server.ends(5), (1, "login refused"))
    tells_no_password(scene)


def tells_no_password(scene):
    """No run has printed a password."""
    printed = [path.read_bytes() for path in scene.folder.glob("told-*/*")]
    found = [it for it in (PASSWORD, WRONG, GENERAL) if any(it.encode() in text for text in printed)]
    scene.holds(f"passwords in what {len(printed) // 2} runs have printed", found, [])


def is_refused(scene, what, server, error):
    """A start ends by a refusal, of which Redis's own text stands before."""
    scene.holds(f"the end: {what}", server.ends(SOON), (1, "redis refused"))
    tells_why(scene, server, error)


def tells_why(scene, server, error):
    found = re.findall(r"redis refused error=(\w+)", server.errors())
    scene.holds("what Redis says of it", found[:1], [error])


def refusals(scene):
    """What a Redis refuses for good ends a start. A server that serves is away until Redis does what it is asked."""
    with scene.empty_redis(password=GENERAL) as redis:
        scene.founds(redis, *login_of(scene, "default", GENERAL))
        for user, rights in USERS.items():
            redis.ask("ACL", "SETUSER", user, "on", f">{PASSWORD}", "~fleet", *rights)
        for what, (login, words, error) in AT_A_START.items():
            further = login_of(scene, *login) if login else ()
            with scene.sharer(redis.address, *further, *words) as server:
                is_refused(scene, what, server, error)
        refused_meanwhile(scene, redis)
        serving(scene, redis)
    tells_no_password(scene)


USERS = {
    "fleet": RIGHTS,
    "reader": tuple(it for it in RIGHTS if it != "+xadd"),
    "writer": tuple(it for it in RIGHTS if it != "+xrange"),
    "short": tuple(it for it in RIGHTS if it != "+info"),
    "timeless": tuple(it for it in RIGHTS if it != "+time"),
}
AT_A_START = {
    "a wrong password": (("fleet", WRONG), (), "WRONGPASS"),
    "a user that is not known": (("nobody", PASSWORD), (), "WRONGPASS"),
    "no login where one is needed": (None, (), "NOAUTH"),
    "a user that may not read": (("writer", PASSWORD), (), "NOPERM"),
    "a user that may not have the stream": (("fleet", PASSWORD), ("--stream", "other"), "NOPERM"),
}


def refused_meanwhile(scene, redis):
    """A user that may not append, and one that may no longer log in, until they may."""
    with scene.sharing(redis.address, *login_of(scene, "reader", PASSWORD)) as server, Client(server.port) as client:
        what = "a Register where nothing may be appended"
        code = client.code_of(register("a"), 1.0)
        scene.holds(f"{what}, and ends", (code, is_away(server), ended([server])), ("none", True, []))
        tells_why(scene, server, "NOPERM")
        redis.ask("ACL", "SETUSER", "reader", "+xadd")
        scene.holds(f"{what} until it may be", is_answered(server, register("a"), "2.01"), True)
        redis.ask_all([("ACL", "SETUSER", "reader", "off"), ("CLIENT", "KILL", "USER", "reader")])
        what = "a Register where the user is off"
        scene.holds(f"{what}, and ends", (client.code_of(register("b"), 2.0), ended([server])), ("none", []))
        redis.ask("ACL", "SETUSER", "reader", "on")
        scene.holds(f"{what} until it is on", is_answered(server, register("b"), "2.01"), True)


def serving(scene, redis):
    """The right logins serve, also one with the ends of lines of another system, or without the last."""
    texts = {
        "a user with the rights that are needed": f"fleet\n{PASSWORD}\n",
        "one that may not ask what is kept on the disk": f"short\n{PASSWORD}\n",
        "one that may not ask what time it is": f"timeless\n{PASSWORD}\n",
        "the general user": f"default\n{GENERAL}\n",
        "lines that end by CR and LF": f"fleet\r\n{PASSWORD}\r\n",
        "no end of the last line": f"fleet\n{PASSWORD}",
    }
    for number, (what, text) in enumerate(texts.items()):
        file = login_file(scene, text.encode())
        with scene.sharing(redis.address, "--redis-login", file) as server, Client(server.port) as client:
            scene.holds(f"a Register with {what}", client.code_of(register(f"login-{number}")), "2.01")


def other_types(scene):
    """A key that holds something else ends a start. Servers that serve are away until it does no more, and know all."""
    with scene.empty_redis() as redis:
        redis.ask("SET", KEY, "text")
        with scene.sharer(redis.address) as server:
            is_refused(scene, "a key that holds a text", server, "WRONGTYPE")
        scene.holds("the text then", redis.ask("GET", KEY), b"text")
    what = "a key that becomes a text"
    with told(scene, what) as (redis, servers, found):
        redis.ask("SET", KEY, "text")
        nothing_is_told(scene, what, servers, found.known, 1)
        scene.holds(f"{what}: servers that have ended", ended(servers), [])
        for it in servers:
            tells_why(scene, it, "WRONGTYPE")
        counts = [measure(it, "fleet_log_refused_total") for it in servers]
        scene.is_true(f"{what}: turns that are counted as refused: {counts}", all(counts), "none at one")
        redis.ask("DEL", KEY)
        all_goes_on(scene, f"{what}, and is deleted", redis, servers, found)

"""Who may ask: the hosts that a request may be for, and the token that it has to bring."""

import os

from asking import Client
from checks import SERVES
from coap import register
from targets import GUARDED, ID, NO_ENDPOINT, NO_PARAMETER, NO_RESOURCE, NO_SINCE, NO_TOKEN, NOT_ALLOWED, NOT_FOUND
from targets import NOT_THIS_HOST
from tokens import TOKEN, WRONG, token_file, with_token
from visiting import ask

# who a request may be for: the field or its lack, the version, and the response's status
HOSTS = (
    ("127.0.0.1", "200 OK"),
    ("127.0.0.1:80", "200 OK"),
    ("192.0.2.1:8080", "200 OK"),
    ("[::1]:80", "200 OK"),
    ("[2001:db8::7]", "200 OK"),
    ("localhost", "200 OK"),
    ("LOCALHOST", "200 OK"),
    ("localhost:65535", "200 OK"),
    ("fleet.example", "200 OK"),
    ("Fleet.Example:443", "200 OK"),
    ("evil.example", "421 Misdirected Request"),
    ("evil.example:80", "421 Misdirected Request"),
    ("fleet.example.evil.example", "421 Misdirected Request"),
    ("a.fleet.example", "421 Misdirected Request"),
    ("localhost.evil.example", "421 Misdirected Request"),
    ("127.0.0.1.evil.example", "421 Misdirected Request"),
    ("127.0.0.256", "421 Misdirected Request"),
    ("127.0.0.1.1", "421 Misdirected Request"),
    ("", "421 Misdirected Request"),
)


def hosts(scene):
    """Requests for another host are refused, so that no page of another site is answered under its own name."""
    with scene.serving(*SERVES, "--http-host", "fleet.example") as server:
        found = {host: ask(server.visited, "/v1/node", host=host).status for host, _ in HOSTS}
        scene.holds("hosts that a request may be for", found, dict(HOSTS))
        scene.holds("another host", ask(server.visited, "/v1/node", host="evil.example"), NOT_THIS_HOST)
        found = [ask(server.visited, it, method, host="evil.example") for it, method in (("/", "GET"), ("/x", "PUT"))]
        scene.holds("another host, at any target and by any method", found, [NOT_THIS_HOST] * 2)
        response = ask(server.visited, "/v1/health", host=None, version="HTTP/1.0")
        scene.holds("HTTP/1.0 without a host", response.line, "HTTP/1.0 200 OK")
        response = ask(server.visited, "/v1/health", host="evil.example", version="HTTP/1.0")
        scene.holds("HTTP/1.0 with another host", response.line, "HTTP/1.0 421 Misdirected Request")
        # where the target is absolute its own host counts (RFC 9112, section 3.2.2)
        found = [ask(server.visited, f"http://{it}/v1/node", host=other).status for it, other in ABSOLUTE]
        scene.holds("absolute targets", found, ["200 OK", "421 Misdirected Request"])
    with scene.serving(*SERVES) as server:
        found = ask(server.visited, "/v1/node", host="fleet.example")
        scene.holds("a name that was not given", found, NOT_THIS_HOST)


ABSOLUTE = ("localhost:8080", "evil.example"), ("evil.example", "localhost:8080")
# the Authorization fields of a request, and whether they present the token
PRESENTED = (
    ((), False),
    ((f"Bearer {TOKEN}",), True),
    ((f"bearer {TOKEN}",), True),
    ((f"BEARER {TOKEN}",), True),
    ((f"Bearer {TOKEN}a",), False),
    ((f"Bearer {TOKEN[:-1]}",), False),
    ((f"Bearer {WRONG}",), False),
    ((f"Bearer b{TOKEN[1:]}",), False),
    ((f"Bearer {TOKEN.lower()}",), False),
    ((f"Bearer  {TOKEN}",), False),
    ((f"Bearer\t{TOKEN}",), False),
    ((f"Bearer{TOKEN}",), False),
    ((f'Bearer "{TOKEN}"',), False),
    ((f"Bearer {TOKEN}, Bearer {TOKEN}",), False),
    (("Bearer",), False),
    (("",), False),
    ((TOKEN,), False),
    ((f"Basic {TOKEN}",), False),
    ((f"Digest {TOKEN}",), False),
    (("Basic dXNlcjpwYXNzd29yZA==",), False),
    ((f"Bearer {TOKEN}", f"Bearer {TOKEN}"), False),
    ((f"Bearer {TOKEN}", f"Basic {TOKEN}"), False),
    ((f"Bearer {WRONG}", f"Bearer {TOKEN}"), False),
)


def tokens(scene):
    """Whoever does not bring the token is told nothing but whether the server serves."""
    path = token_file(scene, TOKEN.encode() + b"\n")
    with scene.serving(*SERVES, "--http-token-file", path) as server, Client(server.port) as client:
        client.ask(register("a"))
        for values, is_right in PRESENTED:
            response = ask(server.visited, "/v1/registrations/b", **with_token(values))
            scene.holds(f"Authorization: {list(values)}", response, NOT_FOUND if is_right else NO_TOKEN)
        for target in GUARDED:
            scene.holds(f"GET {target} without the token", ask(server.visited, target), NO_TOKEN)
            scene.holds(f"HEAD {target} without it", ask(server.visited, target, "HEAD"), NO_TOKEN.without_body())
        scene.holds("the health without it", ask(server.visited, "/v1/health").status, "200 OK")
        scene.holds("GET / without it", ask(server.visited, "/"), NOT_FOUND)
        first_causes(scene, server)
        scene.holds("the token among what is logged", [it for it in (TOKEN, WRONG) if it in server.errors()], [])


def first_causes(scene, server):
    """Of several causes the first one is told."""
    right, evil = with_token([f"Bearer {TOKEN}"]), {"host": "evil.example"}
    rows = (
        ("another host, no resource", "/x", {**evil}, NOT_THIS_HOST),
        ("no resource, another method, no token", "/x", {"method": "POST"}, NO_RESOURCE),
        ("another method, no token", "/v1/node?x=1", {"method": "POST"}, NOT_ALLOWED),
        ("no token, a parameter that is none", "/v1/node?x=1", {}, NO_TOKEN),
        ("an endpoint and a parameter that are none", "/v1/registrations/%ff?x=1", right, NO_ENDPOINT),
        ("a parameter that is none, nobody", "/v1/registrations/b?x=1", right, NO_PARAMETER),
        ("a number that is none, another start", f"/v1/changes?start={ID}&since=x", right, NO_SINCE),
    )
    for check, target, further, want in rows:
        scene.holds(f"first causes: {check}", ask(server.visited, target, **further), want)


# what a file of a token has, and the token that it gives
FILES = (
    ("", None),
    ("\n", None),
    ("a" * 15, None),
    ("a" * 15 + "\n", None),
    ("a" * 16, "a" * 16),
    (TOKEN + "\n", TOKEN),
    ("a" * 256 + "\n", "a" * 256),
    ("a" * 257 + "\n", None),
    ("a" * 100_000, None),
    (f"{TOKEN}\nand another line\n", TOKEN),
    (f"\n{TOKEN}\n", None),
    (f"{TOKEN} \n", None),
    ("a b c d e f g h i j\n", None),
    (f"{TOKEN}\r\n", TOKEN),
    (f"{TOKEN}\r", None),
    (f"{TOKEN}\rb\n", None),
    ("ä" * 16 + "\n", None),
    (f"{TOKEN}:\n", None),
    (f"{TOKEN}\0\n", None),
)


# the modes of a file with a token, and whether its owner alone may write it
MODES = ((0o400, True), (0o600, True), (0o644, True), (0o620, False), (0o602, False), (0o666, False))


def token_modes(scene):
    """A file that others than its owner may write gives no token."""
    path = token_file(scene, f"{TOKEN}\n".encode())
    for mode, is_own in MODES:
        os.chmod(path, mode)
        with scene.server(*SERVES, "--http-token-file", path) as server:
            if is_own:
                scene.holds(f"a file with mode {mode:04o}", server.serves(), True)
            else:
                scene.holds(f"a file with mode {mode:04o}", server.ends(10), (1, "token refused"))


def token_files(scene):
    """A file gives a token, or the server does not begin."""
    for text, token in FILES:
        words = (*SERVES, "--http-token-file", token_file(scene, text.encode()))
        name = repr(text) if len(text) < 40 else f"{len(text)} bytes"
        if token is None:
            with scene.server(*words) as server:
                scene.holds(f"a file of {name}", server.ends(10), (1, "token refused"))
            continue
        with scene.serving(*words) as server:
            found = [ask(server.visited, "/v1/node", **with_token(it)).status for it in ((f"Bearer {token}",), ())]
            scene.holds(f"a file of {name}", found, ["200 OK", "401 Unauthorized"])
    for name, path in (("that is missing", scene.folder / "no-token"), ("that is a folder", scene.folder)):
        with scene.server(*SERVES, "--http-token-file", path) as server:
            scene.holds(f"a file {name}", server.ends(10), (1, "token refused"))

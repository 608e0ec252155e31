"""Commands over HTTP that are refused: their targets and parameters, and who may give them."""

from checks import SERVES
from coap import OBSERVE
from devices import OBSERVES, Observed, cancel, observations, observe, token_of
from targets import ID, LONG, METHODS, NO_ENDPOINT, NO_LIMIT, NO_PARAMETER, NO_RESOURCE, NO_START, NO_TOKEN, NO_VALUE
from targets import NO_WATCH, NOT_ALLOWED, NOT_FOUND, NOT_THIS_HOST, NOTIFIED, OBSERVED, TWICE, bad, with_query
from tokens import TOKEN, token_file, with_token
from visiting import ask, refused

NO_PATH, NO_ACCEPT, NO_FROM = map(bad, ("path", "accept", "from"))
ANOTHER_SITE = refused("403 Forbidden", "from another site")
GET_AND_POST = refused("405 Method Not Allowed", "method not allowed", "allow: GET, HEAD, POST")
GET_AND_DELETE = refused("405 Method Not Allowed", "method not allowed", "allow: GET, HEAD, DELETE")
ONE = f"/v1/tokens/{ID}"

# values of `accept` that are none
ACCEPTS = ("", "65536", "-1", "+1", "01", "00", "x", "1.0", "%31", "18446744073709551617", "0x10", "110,")
# values of `path` that are none
PATHS = ("3/0", "/3/", "//3", "/65535", "/03", "/1/2/3/4/5", "%", "%4", "%ff", "/+3", "/-1", "/3/0%00", "/%31x")
# what answers each POST
POSTED = (
    (NOT_FOUND, with_query((OBSERVED,), "path=/3/0", "path=/3/0&accept=110", "accept=0&path=/1/2/3/4", "path=%2F3")),
    (NOT_FOUND, with_query((OBSERVED,), "path=/65534", "path=/0", "path=/3/0&accept=65535", f"path=/3{'/0' * 3}")),
    (NOT_FOUND, (f"/v1/registrations/{LONG}/observations?path=/3", "/v1/registrations/%c3%a9/observations?path=/3")),
    (NO_PATH, (OBSERVED, f"{OBSERVED}?", *with_query((OBSERVED,), "accept=110", "path=", "path=/", "path=/x"))),
    (NO_PATH, with_query((OBSERVED,), *(f"path={it}" for it in PATHS))),
    (NO_ACCEPT, with_query((OBSERVED,), *(f"path=/3/0&accept={it}" for it in ACCEPTS))),
    (NO_PARAMETER, with_query((OBSERVED,), "path=/3&x=1", "x=1", "path=/3&limit=1", "path=/3&after=/3", "Path=/3")),
    (NO_PARAMETER, with_query((OBSERVED,), "path=/3&token=1", "%70ath=/3", f"path=/3&start={ID}")),
    (NO_VALUE, with_query((OBSERVED,), "path", "path=/3&", "path=/3&accept", "&path=/3")),
    (TWICE, with_query((OBSERVED,), "path=/3&path=/3", "accept=1&path=/3&accept=1")),
    (NO_ENDPOINT, ("/v1/registrations/%ff/observations?path=/3", f"/v1/registrations/{LONG}a/observations?path=/3")),
    (NO_RESOURCE, (f"{OBSERVED}/?path=/3", "/v1/registrations//observations?path=/3", f"/v1/ids/{ID}/observations")),
    (NOT_ALLOWED, ("/v1/registrations", "/v1/registrations/a?path=/3", "/v1/changes", NOTIFIED, "/v1/node", "/")),
    (GET_AND_DELETE, (ONE, "/v1/tokens/1", f"{ONE}?x=1")),
)
# what answers each DELETE
DELETED = (
    (NOT_FOUND, (ONE, "/v1/tokens/%30000000000010001", f"{ONE}?")),
    (NO_WATCH, ("/v1/tokens/1", "/v1/tokens/000000000001000A", f"/v1/tokens/{ID}0", "/v1/tokens/%ff")),
    (NO_PARAMETER, with_query((ONE,), "x=1", "limit=1", "path=/3/0")),
    (NO_VALUE, with_query((ONE,), "x", "&")),
    (NO_RESOURCE, ("/v1/tokens", "/v1/tokens/", f"{ONE}/")),
    (NOT_ALLOWED, ("/v1/registrations", "/v1/registrations/a", f"/v1/ids/{ID}", NOTIFIED, "/v1/node", "/")),
    (GET_AND_POST, (OBSERVED, f"{OBSERVED}?path=/3/0")),
)
# what answers each GET of notifications
ASKED = (
    (NO_FROM, with_query((NOTIFIED,), "from=", "from=x", "from=-1", "from=+1", "from=01", "from=1.0", "from=%31")),
    (NO_FROM, with_query((NOTIFIED,), "from=18446744073709551616", f"from=x&start={ID}", "from=00")),
    (NO_START, with_query((NOTIFIED,), "from=1", "from=18446744073709551615", "from=1&limit=1", "from=0&start=x")),
    (NO_START, with_query((NOTIFIED,), "start=", "start=0", "start=000000000000000A", f"from=0&start={ID}0")),
    (NO_LIMIT, with_query((NOTIFIED,), "limit=0", "limit=257", "limit=x", "limit=01", "from=0&limit=")),
    (NO_PARAMETER, with_query((NOTIFIED,), "x=1", "since=0", "after=a", "From=0", "path=/3/0")),
    (NO_VALUE, with_query((NOTIFIED,), "from", "&", "from=0&")),
    (TWICE, with_query((NOTIFIED,), "from=0&from=0", f"start={ID}&start={ID}", "limit=1&limit=1")),
    (NO_RESOURCE, (f"{NOTIFIED}/", f"{NOTIFIED}/0", "/v1/notification")),
)


def commands(scene):
    """Each command that asks for nothing is refused for what is wrong with it."""
    with scene.serving(*OBSERVES) as server:
        for method, rows in (("POST", POSTED), ("DELETE", DELETED), ("GET", ASKED)):
            for want, asked in rows:
                for target in asked:
                    scene.holds(f"{method} {target[:80]}", ask(server.visited, target, method), want)
        for target, taken, want in ((OBSERVED, "POST", GET_AND_POST), (ONE, "DELETE", GET_AND_DELETE)):
            methods = [it for it in METHODS if it != taken]
            found = {method: ask(server.visited, target, method) for method in methods}
            scene.holds(f"other methods at {target}", found, dict.fromkeys(methods, want))
            for method in ("GET", "HEAD"):
                found = ask(server.visited, target, method)
                want = NOT_FOUND if method == "GET" else NOT_FOUND.without_body()
                scene.holds(f"{method} {target} of nobody", found, want)


def without_commands(scene):
    """Without the option nothing can be changed, and nothing is asked of a device."""
    with scene.serving(*SERVES) as server, Observed(server.port, "lamp") as lamp:
        for fields in ((), ("Origin: null",)):
            scene.holds(f"POST without the option {fields}", observe(server, lamp, fields=fields), NOT_ALLOWED)
            scene.holds(f"DELETE without the option {fields}", cancel(server, ID, fields=fields), NOT_ALLOWED)
        scene.holds("POST of what is none", ask(server.visited, observations(lamp), "POST"), NOT_ALLOWED)
        found = [ask(server.visited, it, "PUT") for it in (observations(lamp), ONE)]
        scene.holds("PUT without the option", found, [NOT_ALLOWED] * 2)
        scene.holds("what the device hears", lamp.hears_nothing(), None)
        response = ask(server.visited, NOTIFIED)
        scene.holds("GET of notifications", response.status, "200 OK")


# a request's Host, its fields, and whether it comes from this site
SITES = (
    ("127.0.0.1", (), True),
    ("127.0.0.1", ("Origin: http://127.0.0.1",), True),
    ("127.0.0.1", ("Origin: https://127.0.0.1",), True),
    ("127.0.0.1:8080", ("Origin: http://127.0.0.1:8080",), True),
    ("localhost:8080", ("origin:https://localhost:8080",), True),
    ("[::1]:80", ("Origin: http://[::1]:80",), True),
    ("fleet.example", ("Origin: https://fleet.example",), True),
    ("127.0.0.1:8080", ("Origin: http://127.0.0.1:8081",), False),
    ("127.0.0.1:8080", ("Origin: http://127.0.0.1",), False),
    ("127.0.0.1", ("Origin: http://127.0.0.1:80",), False),
    ("127.0.0.1", ("Origin: http://localhost",), False),
    ("127.0.0.1", ("Origin: null",), False),
    ("127.0.0.1", ("Origin:",), False),
    ("127.0.0.1", ("Origin: 127.0.0.1",), False),
    ("127.0.0.1", ("Origin: //127.0.0.1",), False),
    ("127.0.0.1", ("Origin: ftp://127.0.0.1",), False),
    ("127.0.0.1", ("Origin: http://127.0.0.1/",), False),
    ("127.0.0.1", ("Origin: http://127.0.0.1.evil.example",), False),
    ("127.0.0.1", ("Origin: http://evil.example",), False),
    ("127.0.0.1", ("Origin: http://evil.example/http://127.0.0.1",), False),
    ("127.0.0.1", ("Origin: http://127.0.0.1 http://127.0.0.1",), False),
    ("127.0.0.1", ("Origin: http://127.0.0.1", "Origin: http://127.0.0.1"), False),
    ("127.0.0.1", ("Origin: http://127.0.0.1", "Origin: null"), False),
    ("fleet.example", ("Origin: https://fleet.example:443",), False),
)


def sites(scene):
    """Commands that come from a page of another site are refused, and none of them reaches a device."""
    with scene.serving(*OBSERVES, "--http-host", "fleet.example") as server, Observed(server.port, "lamp") as lamp:
        for host, fields, is_own in SITES:
            further = {"host": host, "fields": fields}
            if is_own:
                commanded(scene, server, lamp, f"to {host} with {fields}", further)
                continue
            scene.holds(f"POST to {host} with {fields}", observe(server, lamp, **further), ANOTHER_SITE)
            scene.holds(f"DELETE to {host} with {fields}", cancel(server, ID, **further), ANOTHER_SITE)
        scene.holds("what the device hears of other sites", lamp.hears_nothing(), None)
        for method in ("GET", "HEAD"):
            found = ask(server.visited, "/v1/registrations/lamp", method, fields=("Origin: null",)).status
            scene.holds(f"{method} from another site", found, "200 OK")
        causes_of_commands(scene, server, lamp)


def commanded(scene, server, device, what, further):
    """A path is observed, and the observation ends, by commands that are taken."""
    response, got = observe(server, device, **further), device.heard()
    token = token_of(response)
    found = response.status, got and got.token.hex()
    scene.holds(f"POST {what}", found, ("201 Created", token))
    device.answers(got, b"1", ((OBSERVE, b"\x01"),))
    response, got = cancel(server, token, **further), device.heard()
    found = response.status, got and got.token.hex()
    scene.holds(f"DELETE {what}", found, ("204 No Content", token))
    device.answers(got)


def causes_of_commands(scene, server, lamp):
    """Of several causes the first one is told."""
    other, target = ("Origin: null",), observations(lamp)
    rows = (
        ("another host and site", f"{target}?path=/3/0", "POST", "evil.example", NOT_THIS_HOST),
        ("no resource, another site", "/x", "POST", "127.0.0.1", NO_RESOURCE),
        ("another method, another site", "/v1/node", "POST", "127.0.0.1", NOT_ALLOWED),
        ("another method of commands, another site", target, "PUT", "127.0.0.1", GET_AND_POST),
        ("another site, no path", target, "POST", "127.0.0.1", ANOTHER_SITE),
        ("another site, no token of an observation", "/v1/tokens/1", "DELETE", "127.0.0.1", ANOTHER_SITE),
    )
    for check, asked, method, host, want in rows:
        scene.holds(f"first causes: {check}", ask(server.visited, asked, method, host=host, fields=other), want)


def commands_with_token(scene):
    """Whoever does not bring the token gives no command."""
    path = token_file(scene, TOKEN.encode() + b"\n")
    right, wrong = (with_token([f"Bearer {it}"])["fields"] for it in (TOKEN, TOKEN[:-1] + "b"))
    with scene.serving(*OBSERVES, "--http-token-file", path) as server, Observed(server.port, "lamp") as lamp:
        for fields in ((), tuple(wrong), ("Origin: null",), (*wrong, "Origin: null"), ("Origin: http://127.0.0.1",)):
            scene.holds(f"POST with {fields}", observe(server, lamp, fields=fields), NO_TOKEN)
            scene.holds(f"DELETE with {fields}", cancel(server, ID, fields=fields), NO_TOKEN)
            scene.holds(f"GET with {fields}", ask(server.visited, NOTIFIED, fields=fields), NO_TOKEN)
        other = (*right, "Origin: null")
        found = [observe(server, lamp, fields=other), cancel(server, ID, fields=other)]
        scene.holds("the token, from another site", found, [ANOTHER_SITE] * 2)
        scene.holds("what the device hears", lamp.hears_nothing(), None)
        for fields in (right, (*right, "Origin: http://127.0.0.1")):
            commanded(scene, server, lamp, f"with {len(fields)} fields and the token", {"fields": fields})


COMMANDING = commands, without_commands, sites, commands_with_token

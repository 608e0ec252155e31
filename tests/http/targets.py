"""Targets of requests, and how each is answered where nobody has registered."""

from checks import SERVES, answers
from visiting import ask, refused, told

ID = "0000000000010001"
LONG = "a" * 252
NOT_FOUND, GONE = refused("404 Not Found", "not found"), refused("410 Gone", "gone")
NO_RESOURCE = refused("404 Not Found", "no such resource")
NO_TOKEN = refused("401 Unauthorized", "a token is needed", "www-authenticate: Bearer")
NOT_ALLOWED = refused("405 Method Not Allowed", "method not allowed", "allow: GET, HEAD")
NOT_THIS_HOST = refused("421 Misdirected Request", "not for this host")
NO_REGISTRATIONS = told("200 OK", '{"next":null,"registrations":[]}')


def bad(text):
    return refused("400 Bad Request", text)


NO_PARAMETER, NO_VALUE, TWICE = map(bad, ("no such parameter", "a parameter without a value", "a parameter twice"))
NO_ENDPOINT, NO_ID, NO_ADDRESS, NO_WATCH = map(bad, ("endpoint", "id", "address", "token"))
NO_LIMIT, NO_AFTER, NO_SINCE, NO_START = map(bad, ("limit", "after", "since", "start"))

ALONE = ("/", "/v1/health", "/v1/node", "/metrics")
LISTS = ("/v1/registrations", "/v1/changes")
ONES = ("/v1/registrations/a", f"/v1/ids/{ID}", "/v1/addresses/127.0.0.1:1", f"/v1/tokens/{ID}")
OBSERVED, NOTIFIED = "/v1/registrations/a/observations", "/v1/notifications"
ALL = (*ALONE, *LISTS, NOTIFIED, *ONES, OBSERVED)
# those that are told to whoever brings the token alone
GUARDED = ("/v1/node", "/metrics", *LISTS, NOTIFIED, *ONES, OBSERVED)
METHODS = ("POST", "PUT", "DELETE", "PATCH", "OPTIONS", "TRACE", "BREW", "get")


def with_query(targets, *queries):
    return tuple(f"{target}?{query}" for target in targets for query in queries)


def below(target, *segments):
    return tuple(f"{target}/{segment}" for segment in segments)


# what answers each of these targets
REFUSED = (
    (NO_RESOURCE, ("/v1", "/v1/", "/v2/node", "/index.html", "/v1/nodes", "/V1/node", "/metrics/", "/v1/health/x")),
    (NO_RESOURCE, ("//v1/node", "/v1//node", "/v1/node/", "/v1/%6Eode", "/v1/ids", "/v1/ids/", "/v1/addresses")),
    (NO_RESOURCE, ("/v1/tokens/", "/v1/changes/", "/v1/registrations/")),
    (NO_RESOURCE, ("/v1/registrations/a/b", "/v1/registrations/a/", "/v1/registrations//a")),
    (NO_RESOURCE, ("/v1/registrations//observations", f"{OBSERVED}/", f"/v1/ids/{ID}/observations")),
    (NO_RESOURCE, ("/v1/registrations/a/b/observations", "/v1/registrations/a/Observations")),
    (NO_PARAMETER, with_query(ALL, "x=1", "x=1&limit=x")),
    (NO_PARAMETER, with_query((OBSERVED,), "since=0", f"start={ID}")),
    (NO_LIMIT, with_query((OBSERVED,), "limit=0", "limit=257")),
    (NO_AFTER, with_query((OBSERVED,), "after=", "after=a", "after=/", "after=3", "after=/3/", "after=/1/2/3/4/5")),
    (NO_AFTER, with_query((OBSERVED,), "after=/65535", "after=/03", "after=%")),
    (NO_ENDPOINT, ("/v1/registrations/%ff/observations", f"/v1/registrations/{LONG}a/observations")),
    (NO_PARAMETER, with_query((*ALONE, *ONES), "limit=1", "after=a", "since=0")),
    (NO_PARAMETER, with_query(LISTS, "Limit=1", "%6cimit=1", "limit%3D1=1")),
    (NO_PARAMETER, ("/v1/registrations?since=0", f"/v1/registrations?start={ID}", "/v1/changes?after=a")),
    (NO_VALUE, with_query(ALL, "limit", "&", "x")),
    (NO_VALUE, with_query(LISTS, "limit=1&", "&limit=1")),
    (TWICE, with_query(LISTS, "limit=1&limit=1", "limit=1&limit=x")),
    (TWICE, ("/v1/registrations?after=a&after=b", "/v1/changes?since=0&since=0", f"/v1/changes?start={ID}&start={ID}")),
    (NO_LIMIT, with_query(LISTS, "limit=", "limit=0", "limit=257", "limit=+1", "limit=01", "limit=1.0", "limit=-1")),
    (NO_LIMIT, with_query(LISTS, "limit=%31", "limit=x&x=1", "limit=1=1", "limit=18446744073709551617")),
    (NO_AFTER, with_query(LISTS[:1], "after=%", "after=%4", "after=%zz", "after=%ff", f"after={LONG}a")),
    (NO_SINCE, with_query(LISTS[1:], "since=", "since=-1", "since=+1", "since=00", "since=x")),
    (NO_SINCE, with_query(LISTS[1:], "since=18446744073709551616", "since=%30")),
    (NO_START, with_query(LISTS[1:], "start=", "start=0", "start=000000000000000A", f"start={ID}0")),
    (NO_START, with_query(LISTS[1:], "start=000000000000000g", "since=1", "since=18446744073709551615")),
    (NO_ENDPOINT, below("/v1/registrations", "%", "%4", "%4g", "%ff", "%C3", f"{LONG}a", "%ff?x=1")),
    (NO_ID, below("/v1/ids", "1", "000000000001000A", f"{ID}0", "000000000001000g", "%ff", "1?x=1")),
    (NO_WATCH, below("/v1/tokens", "1", "000000000001000A", "-000000000000001")),
    (NO_ADDRESS, below("/v1/addresses", "a", "127.0.0.1", "127.0.0.1:65536", "127.0.0.01:1", "127.0.0.1:01", "%ff")),
    (NO_ADDRESS, below("/v1/addresses", "localhost:1", "127.0.0.1:", "%5B::1%5D:5683")),
)
# targets that ask for no more than they seem to
TAKEN = (
    (NO_REGISTRATIONS, with_query(LISTS[:1], "", "limit=1", "limit=256", "after=", "after=%C3%a9", f"after={LONG}")),
    (NO_REGISTRATIONS, with_query(LISTS[:1], "after=a&limit=2", "limit=2&after=a=b", "after=%26")),
    (NOT_FOUND, with_query((OBSERVED,), "", "after=/3/0", "limit=256&after=%2F65534", "after=/1/2/3/4")),
    (NOT_FOUND, ("/v1/registrations/lamp?", f"/v1/registrations/{LONG}", f"/v1/ids/%30{ID[1:-1]}%31")),
    (NOT_FOUND, ("/v1/addresses/%5B2001:0db8:0000:0000:0000:0000:0000:0001%5D:5683", *ONES)),
)


def targets(scene):
    """Each target that asks for nothing is refused for what is wrong with it, and so is each other method."""
    with scene.serving(*SERVES) as server:
        for want, asked in (*REFUSED, *TAKEN):
            answers(scene, server, ((target, want) for target in asked))
        for target in ALL:
            found = {method: ask(server.visited, target, method) for method in METHODS}
            scene.holds(f"other methods at {target}", found, dict.fromkeys(METHODS, NOT_ALLOWED))
        scene.holds("OPTIONS *", ask(server.visited, "*", "OPTIONS"), NO_RESOURCE)
        response = ask(server.visited, "/v1/nodes", "HEAD")
        scene.holds("HEAD of what is refused", response, NO_RESOURCE.without_body())

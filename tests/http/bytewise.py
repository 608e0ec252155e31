"""Requests as no library sends them: in pieces, pipelined, too long, cut short, and what is no request."""

from checks import SERVES
from visiting import answer_to, read, refused_unread, spelled, told

HEALTH = spelled("/v1/health")
MOST_HEAD, MOST_FIELDS = 8192, 64
BAD_REQUEST, TOO_LONG = refused_unread("400 Bad Request"), refused_unread("414 URI Too Long")
TOO_LARGE, NO_BODY = refused_unread("431 Request Header Fields Too Large"), refused_unread("413 Payload Too Large")
NO_CODING = refused_unread("501 Not Implemented")
CHUNKED = ("Transfer-Encoding: chunked",)


def head_of(length):
    """A request for the health whose head has so many bytes."""
    return spelled("/v1/health", fields=("X: " + "x" * (length - len(spelled("/v1/health", fields=("X: ",)))),))


def with_fields(count):
    """A request with so many fields, the Host among them."""
    return spelled("/v1/health", fields=[f"X{it}: x" for it in range(count - 1)])


def post(*fields):
    return spelled("/v1/health", "POST", fields)


# requests that are answered by the health
ANSWERED = (
    ("a line end before a request", b"\r\n" + HEALTH),
    ("a head of 8,192 bytes", head_of(MOST_HEAD)),
    ("64 fields", with_fields(MOST_FIELDS)),
    ("no bytes as a body", spelled("/v1/health", fields=("Content-Length: 0",))),
    ("a chunked body without bytes", spelled("/v1/health", fields=CHUNKED) + b"0\r\n\r\n"),
    ("names of fields in another case", b"GET /v1/health HTTP/1.1\r\nHOST:127.0.0.1\r\nconnection:keep-alive\r\n\r\n"),
    ("two requests at once", HEALTH + HEALTH),
    ("a request and a part of one", HEALTH + HEALTH[:20]),
)
# what is no request that is taken, and the whole answer
UNREAD = (
    ("bytes that are no request", b"\x00\x01\r\n\r\n", BAD_REQUEST),
    ("a datagram of CoAP", bytes.fromhex("4402000101020304b272640d0a0d0a"), BAD_REQUEST),
    ("a request of TLS", bytes.fromhex("16030100c8010000c4030300"), BAD_REQUEST),
    ("no version", b"GET /v1/health\r\n\r\n", BAD_REQUEST),
    ("HTTP/2.0", spelled("/v1/health", version="HTTP/2.0"), BAD_REQUEST),
    ("lines that end in LF alone", HEALTH.replace(b"\r\n", b"\n"), BAD_REQUEST),
    ("no Host", spelled("/v1/health", host=None), BAD_REQUEST),
    ("two Hosts", spelled("/v1/health", fields=("Host: 127.0.0.1",)), BAD_REQUEST),
    ("a Host that is none", spelled("/v1/health", host="127.0.0.1 x"), BAD_REQUEST),
    ("a blank before a colon", spelled("/v1/health", fields=("X : x",)), BAD_REQUEST),
    ("a folded field", spelled("/v1/health", fields=("X: x", " y")), BAD_REQUEST),
    ("two lengths", post("Content-Length: 1", "Content-Length: 2") + b"x", BAD_REQUEST),
    ("a length and a coding", post("Content-Length: 5", *CHUNKED) + b"0\r\n\r\n", BAD_REQUEST),
    ("a target of 20,000 bytes", spelled("/" + "a" * 20_000), TOO_LONG),
    ("20,000 bytes without a line end", b"a" * 20_000, TOO_LONG),
    ("a head of 8,193 bytes", head_of(MOST_HEAD + 1), TOO_LARGE),
    ("a field of 20,000 bytes", head_of(20_000), TOO_LARGE),
    ("65 fields", with_fields(MOST_FIELDS + 1), TOO_LARGE),
    ("a body of a byte", post("Content-Length: 1") + b"x", NO_BODY),
    ("a body of a byte that does not come", post("Content-Length: 1"), NO_BODY),
    ("a body of a gigabyte", post("Content-Length: 1073741824") + b"x" * 100_000, NO_BODY),
    ("a body of GET", spelled("/v1/health", fields=("Content-Length: 1",)) + b"x", NO_BODY),
    ("a chunked body of a byte", post(*CHUNKED) + b"1\r\nx\r\n0\r\n\r\n", NO_BODY),
    ("another coding", post("Transfer-Encoding: gzip, chunked"), NO_CODING),
)
# what a visitor has sent when he ends his side, and the whole answer
CUT = (
    ("nothing", b"", b""),
    ("a part of a request", HEALTH[:20], BAD_REQUEST),
    ("a request without its last byte", HEALTH[:-1], BAD_REQUEST),
)


def is_health(text):
    """Whether the bytes are one response, with the health and nothing behind it."""
    response = read(text)
    try:
        is_whole = response == told("200 OK", response.body.decode())
        return is_whole and response.body.startswith(b'{"counter":"ok","now":')
    except UnicodeDecodeError:
        return False


def bytewise(scene):
    """However a request comes, it is answered once, and the connection is closed; and so is what is no request."""
    with scene.serving(*SERVES) as server:
        for check, text in ANSWERED:
            answer = answer_to(server.visited, text)
            scene.is_true(f"as bytes: {check}", is_health(answer), answer)
        for check, text, want in UNREAD:
            scene.holds(f"as bytes: {check}", answer_to(server.visited, text), want)
        for check, text, want in CUT:
            scene.holds(f"an end behind {check}", answer_to(server.visited, text, ends=True), want)
        answer = answer_to(server.visited, HEALTH, ends=True)
        scene.is_true("an end behind a request", is_health(answer), answer)
        for check, request in (("a request", HEALTH), ("a line end and a request", b"\r\n" + HEALTH)):
            answer = answer_to(server.visited, *(bytes([it]) for it in request), pause=0.001)
            scene.is_true(f"byte by byte: {check}", is_health(answer), answer)
        pieces = [HEALTH[:-1], HEALTH[-1:] + HEALTH]
        answer = answer_to(server.visited, *pieces, pause=0.1)
        scene.is_true("the last byte of a request and another request", is_health(answer), answer)

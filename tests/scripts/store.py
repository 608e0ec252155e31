"""The store once more, as plain as it can be: what a made script is to print.

An event is added as a line of a script, and is done here beside it. Nothing is read back: datagrams (RFC 7252) and
deltas are only written. Each endpoint has one slot, which is never changed but replaced.
"""
import ipaddress
import json
from dataclasses import dataclass, field, replace

CON, NON, ACK, RST = range(4)
NOTHING = "-"
# a field that an Update leaves as it is
KEPT = object()
# the queries with these names are no attributes
PARAMETERS = ("ep", "lt", "lwm2m", "b", "Q", "sms")


def id_text(stamp):
    counter, node = stamp
    return f"{counter:012x}{node:04x}"


def stamp_bytes(stamp):
    return bytes.fromhex(id_text(stamp))


def path_text(path):
    return "".join(f"/{number}" for number in path)


def optional(value):
    return NOTHING if value is None else value


def uint(number):
    """A whole number in the fewest bytes."""
    return number.to_bytes((number.bit_length() + 7) // 8, "big")


def nibble(number):
    """The nibble of an option's delta or length, and what follows of it."""
    if number < 13:
        return number, b""
    if number < 269:
        return 13, bytes([number - 13])
    return 14, (number - 269).to_bytes(2, "big")


def message(kind, code, mid, token=b"", options=(), payload=b""):
    """A CoAP message, its options in rising order."""
    parts = [bytes([0x40 | kind << 4 | len(token), code]), mid.to_bytes(2, "big"), token]
    last = 0
    for number, value in options:
        (delta, further), (length, rest) = nibble(number - last), nibble(len(value))
        parts += [bytes([delta << 4 | length]), further, rest, value]
        last = number
    parts += [b"\xff", payload] if payload else []
    return b"".join(parts)


def address_bytes(address):
    host, _, port = address.rpartition(":")
    ip = ipaddress.ip_address(host.strip("[]"))
    return bytes([ip.version]) + ip.packed + int(port).to_bytes(2, "big")


def sized(text, width=1):
    """The length of a text in bytes, and the text."""
    encoded = text.encode()
    return len(encoded).to_bytes(width, "big") + encoded


def attributes_of(queries):
    """The value of each attribute: of a repeated name the last."""
    pairs = (query.partition("=")[::2] for query in queries)
    return {name: value for name, value in pairs if name and name not in PARAMETERS}


@dataclass(frozen=True)
class Watch:
    token: tuple
    accept: int = None
    is_cancelled: bool = False

    def bytes(self, path):
        head = b"\x01" + bytes([len(path)]) + b"".join(number.to_bytes(2, "big") for number in path)
        if self.is_cancelled:
            return head + stamp_bytes(self.token) + b"\x02"
        accept = b"\0" if self.accept is None else b"\x01" + self.accept.to_bytes(2, "big")
        return head + stamp_bytes(self.token) + b"\x01" + accept


@dataclass(frozen=True)
class Slot:
    """What is known of an endpoint: its last registration, with the stamp and the value of each field and attribute."""
    stamp: tuple
    base: tuple = (False, False)
    fields: dict = field(default_factory=dict)
    attributes: dict = field(default_factory=dict)
    watches: dict = field(default_factory=dict)
    is_removed: bool = False
    # up to which stamp it is over, if it is
    ended: tuple = None

    def value(self, name):
        return self.fields[name][1]

    def deadline(self):
        """When the registration expires, or None for never."""
        return self.value("seen") + 1000 * self.value("lifetime") if self.value("lifetime") else None

    def lasts(self):
        return not self.is_removed and (self.ended is None or self.fields["seen"][0] > self.ended)

    def is_shown(self, now):
        return self.lasts() and (self.deadline() is None or now < self.deadline())

    def is_expired(self, now):
        return self.lasts() and not self.is_shown(now)

    def live(self):
        """The paths of the watches that are not cancelled, rising."""
        return sorted(path for path, watch in self.watches.items() if not watch.is_cancelled)

    def written(self, stamp, values, queries):
        """With the values that are written, and the attributes of the queries."""
        new = {name: (stamp, value) for name, value in values.items() if value is not KEPT}
        named = {name: (stamp, value) for name, value in attributes_of(queries).items()}
        return replace(self, fields={**self.fields, **new}, attributes={**self.attributes, **named})

    def watched(self, path, watch):
        return replace(self, watches={**self.watches, path: watch})

    def join(self, other):
        if self.stamp != other.stamp:
            return max(self, other, key=lambda it: it.stamp)
        if self.is_removed or other.is_removed:
            return Slot(self.stamp, is_removed=True)
        fields = {name: max(self.fields[name], other.fields[name], key=lambda it: it[0]) for name in self.fields}
        attributes = dict(self.attributes)
        for name, write in other.attributes.items():
            attributes[name] = max(attributes.get(name, write), write)
        watches = dict(self.watches)
        for path, watch in other.watches.items():
            watches[path] = max(watches.get(path, watch), watch, key=lambda it: (it.token, it.is_cancelled))
        ended = max(self.ended, other.ended, key=lambda it: it or (0, 0))
        return replace(self, fields=fields, attributes=attributes, watches=watches, ended=ended)

    def bytes(self, endpoint):
        head = b"\x01" + sized(endpoint) + stamp_bytes(self.stamp)
        if self.is_removed:
            return head + b"\x80\0\0\0"
        sms = self.value("sms")
        values = {
            "address": address_bytes(self.value("address")),
            "seen": self.value("seen").to_bytes(6, "big"),
            "lifetime": self.value("lifetime").to_bytes(4, "big"),
            "binding": sized(self.value("binding")),
            "sms": b"\0" if sms is None else b"\x01" + sized(sms),
            "objects": sized(self.value("objects"), 2),
        }
        fields = b"".join(stamp_bytes(self.fields[name][0]) + values[name] for name in values)
        attributes = b"".join(
            b"\x01" + sized(name) + stamp_bytes(stamp) + sized(value)
            for name, (stamp, value) in sorted(self.attributes.items())
        )
        ended = b"\0" if self.ended is None else b"\x01" + stamp_bytes(self.ended)
        watches = b"".join(self.watches[path].bytes(path) for path in sorted(self.watches))
        base = bytes([self.base[0] | self.base[1] << 1])
        return head + b"\x7f" + base + fields + attributes + b"\0" + ended + watches + b"\0"


class Node:
    def __init__(self, number):
        self.number, self.clock, self.change = number, 0, 0
        self.slots, self.moved = {}, {}

    def stamp(self):
        self.clock += 1
        return self.clock, self.number

    def put(self, endpoint, slot):
        """Joins a slot. Where that moves what is known, the endpoint takes the next change number."""
        old = self.slots.get(endpoint)
        new = old.join(slot) if old else slot
        if new != old:
            self.change += 1
            self.slots[endpoint], self.moved[endpoint] = new, self.change

    def since(self, number):
        return [(endpoint, self.slots[endpoint]) for endpoint in sorted(self.slots) if self.moved[endpoint] > number]

    def shown(self, now):
        return [(endpoint, slot) for endpoint, slot in sorted(self.slots.items()) if slot.is_shown(now)]

    def expired(self, now):
        return [(endpoint, slot) for endpoint, slot in sorted(self.slots.items()) if slot.is_expired(now)]

    def by_id(self, now, stamp):
        return next((it for it in self.shown(now) if it[1].stamp == stamp), None)

    def by_address(self, now, address):
        holders = [it for it in self.shown(now) if it[1].value("address") == address]
        return max(holders, key=lambda it: it[1].fields["address"][0], default=None)

    def by_token(self, now, token):
        """The endpoint, its slot and the path of the live watch."""
        live = ((it, path) for it in self.shown(now) for path in it[1].live() if it[1].watches[path].token == token)
        return next(live, None)


def json_text(found):
    """The names in order, none for nothing."""
    return "none" if found is None else json.dumps(found, separators=(",", ":"), sort_keys=True, ensure_ascii=False)


def view(found):
    if found is None:
        return None
    endpoint, slot = found
    names = ("address", "binding", "lifetime", "objects", "seen", "sms")
    return {
        **{name: slot.value(name) for name in names},
        "attributes": {name: value for name, (_, value) in slot.attributes.items()},
        "endpoint": endpoint,
        "id": id_text(slot.stamp),
        "lwm2m": "1.1" if slot.base[0] else "1.0",
        "queue": slot.base[1] or "Q" in slot.value("binding"),
    }


def watch_view(found):
    if found is None:
        return None
    (endpoint, slot), path = found
    watch = slot.watches[path]
    token = id_text(watch.token)
    return {
        "accept": watch.accept, "endpoint": endpoint, "id": id_text(slot.stamp), "path": path_text(path), "token": token
    }


def delta(clock, slots):
    return b"LWD3" + clock.to_bytes(6, "big") + b"".join(slot.bytes(name) for name, slot in slots) + b"\0"


@dataclass(frozen=True)
class From:
    """Who sends a datagram, when, and how."""
    node: int
    now: int = 0
    address: str = "127.0.0.1:5683"
    kind: int = CON
    mid: int = 4
    token: bytes = b""


class Run:
    """The lines of a script, and what each is to print."""

    def __init__(self, nodes):
        self.nodes = {number: Node(number) for number in range(1, nodes + 1)}
        self.messages = []
        self.script, self.prints = [f"nodes {nodes}"], []

    def add(self, event, prints):
        self.script.append(event)
        self.prints.append(prints)

    def take(self, it, datagram, reply, notice=None):
        told = NOTHING if notice is None else json_text(notice)
        reply = reply.hex() if reply else NOTHING
        self.add(f"take {it.node} {it.now} {it.address} {datagram.hex()}", f"taken {reply} {told}")

    def request(self, it, code, segments, queries, objects, reply):
        """A request, and its reply of a code and perhaps an identifier."""
        options = [(11, segment) for segment in segments] + [(15, query.encode()) for query in queries]
        datagram = message(it.kind, code, it.mid, it.token, options, (objects or "").encode())
        answer, *location = reply
        where = [(8, b"rd"), (8, location[0].encode())] if location else []
        self.take(it, datagram, message(ACK if it.kind == CON else NON, answer, it.mid, it.token, where))

    def register(
        self, it, name, lifetime=86400, is_v11=False, binding="U", sms=None, has_queue=False, objects="</>", others=()
    ):
        """A Register, and behind its parameters the other queries."""
        node = self.nodes[it.node]
        stamp = node.stamp()
        values = {"address": it.address, "seen": it.now, "lifetime": lifetime, "binding": binding, "sms": sms}
        slot = Slot(stamp, (is_v11, has_queue)).written(stamp, {**values, "objects": objects}, others)
        node.put(name, slot)
        queries = [f"ep={name}", f"lt={lifetime}", f"lwm2m=1.{int(is_v11)}", f"b={binding}"]
        queries += [f"sms={sms}"] if sms is not None else []
        queries += ["Q"] if has_queue else []
        self.request(it, 0x02, [b"rd"], [*queries, *others], objects, (0x41, id_text(stamp)))

    def update(self, it, stamp, lifetime=KEPT, binding=KEPT, sms=KEPT, objects=KEPT, others=()):
        """An Update, and behind its parameters the other queries."""
        node = self.nodes[it.node]
        found = node.by_id(it.now, stamp)
        values = {"lifetime": lifetime, "binding": binding, "sms": sms, "objects": objects}
        if found:
            always = {"address": it.address, "seen": it.now}
            node.put(found[0], found[1].written(node.stamp(), {**values, **always}, others))
        named = (("lt", lifetime), ("b", binding), ("sms", sms))
        queries = [f"{name}={value}" for name, value in named if value is not KEPT]
        segments = [b"rd", id_text(stamp).encode()]
        objects = None if objects is KEPT else objects
        self.request(it, 0x02, segments, [*queries, *others], objects, (0x44,) if found else (0x84,))

    def deregister(self, it, stamp):
        node = self.nodes[it.node]
        found = node.by_id(it.now, stamp)
        if found:
            node.stamp()
            node.put(found[0], Slot(stamp, is_removed=True))
        self.request(it, 0x04, [b"rd", id_text(stamp).encode()], [], None, (0x42,) if found else (0x84,))

    def report(self, it, token, code, number=None, format=None, payload=b""):
        """A notification, which ends the watch unless it is a success with a number."""
        node = self.nodes[it.node]
        found = node.by_token(it.now, token)
        options = [(6, uint(number))] if number is not None else []
        options += [(12, uint(format))] if format is not None else []
        datagram = message(it.kind, code, it.mid, stamp_bytes(token), options, payload)
        if found is None:
            return self.take(it, datagram, b"" if it.kind == ACK else message(RST, 0, it.mid))
        (endpoint, slot), path = found
        ended = code >> 5 != 2 or number is None
        if ended:
            self.end(node, found)
        of_watch = {"endpoint": endpoint, "id": id_text(slot.stamp), "path": path_text(path), "token": id_text(token)}
        told = {"code": code, "content_format": format, "ended": ended, "observe": number, "payload": payload.hex()}
        self.take(it, datagram, message(ACK, 0, it.mid) if it.kind == CON else b"", {**of_watch, **told})

    def end(self, node, found):
        (endpoint, slot), path = found
        node.stamp()
        node.put(endpoint, slot.watched(path, replace(slot.watches[path], is_cancelled=True)))

    def ask_to_observe(self, slot, path, number, mid):
        """The request that begins or ends an observation, and where it goes."""
        watch = slot.watches[path]
        options = [(6, uint(number))] + [(11, str(it).encode()) for it in path]
        options += [(17, uint(watch.accept))] if watch.accept is not None else []
        datagram = message(CON, 0x01, mid, stamp_bytes(watch.token), options)
        return f"sent {id_text(watch.token)} {slot.value('address')} {datagram.hex()}"

    def observe(self, number, now, stamp, path, accept=None, mid=0):
        node = self.nodes[number]
        found = node.by_id(now, stamp)
        prints = "refused 1"
        if found:
            endpoint, slot = found
            slot = slot.watched(path, Watch(node.stamp(), accept))
            node.put(endpoint, slot)
            prints = self.ask_to_observe(slot, path, 0, mid)
        self.add(f"observe {number} {now} {id_text(stamp)} {path_text(path)} {optional(accept)} {mid}", prints)

    def cancel(self, number, now, token, mid=0):
        node = self.nodes[number]
        found = node.by_token(now, token)
        prints = "refused 1"
        if found:
            self.end(node, found)
            (_, slot), path = found
            prints = self.ask_to_observe(slot, path, 1, mid)
        self.add(f"cancel {number} {now} {id_text(token)} {mid}", prints)

    def sweep(self, number, now):
        node = self.nodes[number]
        prints = "none"
        for endpoint, slot in node.expired(now)[:1]:
            node.stamp()
            node.put(endpoint, replace(slot, ended=slot.fields["seen"][0]))
            prints = f"swept {id_text(slot.stamp)}"
        self.add(f"sweep {number} {now}", prints)

    def send(self, number, since=0):
        node = self.nodes[number]
        slots = node.since(since)
        prints = f"message {len(self.messages)} {node.change} {delta(node.clock, slots).hex()}"
        self.messages.append((node.clock, slots))
        self.add(f"send {number} {since}", prints)

    def deliver(self, number, place):
        prints = "no message"
        if place < len(self.messages):
            node, (clock, slots) = self.nodes[number], self.messages[place]
            node.clock = max(node.clock, clock)
            for endpoint, slot in slots:
                node.put(endpoint, slot)
            prints = f"joined {len(slots)}"
        self.add(f"deliver {number} {place}", prints)

    def ask_id(self, number, now, stamp):
        self.add(f"id {number} {now} {id_text(stamp)}", json_text(view(self.nodes[number].by_id(now, stamp))))

    def ask_address(self, number, now, address):
        self.add(f"address {number} {now} {address}", json_text(view(self.nodes[number].by_address(now, address))))

    def ask_endpoint(self, number, now, endpoint):
        shown = next((it for it in self.nodes[number].shown(now) if it[0] == endpoint), None)
        self.add(f"endpoint {number} {now} {endpoint}", json_text(view(shown)))

    def ask_token(self, number, now, token):
        found = self.nodes[number].by_token(now, token)
        self.add(f"token {number} {now} {id_text(token)}", json_text(watch_view(found)))

    def ask_watch(self, number, now, stamp, above=()):
        found = self.nodes[number].by_id(now, stamp)
        path = next((path for path in found[1].live() if path > above), None) if found else None
        prints = json_text(None if path is None else watch_view((found, path)))
        self.add(" ".join(filter(None, [f"watch {number} {now} {id_text(stamp)}", path_text(above)])), prints)

    def ask_next(self, number, now, above=""):
        found = next((it for it in self.nodes[number].shown(now) if it[0] > above), None)
        self.add(" ".join(filter(None, [f"next {number} {now}", above])), json_text(view(found)))

    def ask_expired(self, number, now, above=""):
        found = next((it for it in self.nodes[number].expired(now) if it[0] > above), None)
        prints = json_text({"endpoint": found[0], "id": id_text(found[1].stamp)} if found else None)
        self.add(" ".join(filter(None, [f"expired {number} {now}", above])), prints)

    def ask_change(self, number):
        self.add(f"change {number}", str(self.nodes[number].change))

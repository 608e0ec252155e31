"""Scripts that are made, with what they are to print: each function below gives the run of one."""
import random

from store import ACK, CON, KEPT, NON, From, Run

# names from one byte to 252, among them some in other letters
NAMES = ["7", "a", "aa", "ab", "b", "bb", "urn:imei:0123", "zähler", "门", "🐝" * 63, "n" * 252]
HOSTS = [
    "127.0.0.1",
    "10.0.0.255",
    "[2001:0db8:0000:0000:0000:0000:0000:0001]",
    "[0000:0000:0000:0000:0000:ffff:7f00:0001]",
]
# queries that no parameter has: empty and repeated ones, some without a value or a name, the longest
OTHERS = [
    (),
    ("x=1",),
    ("x=2", "y"),
    ("y=", "=no name", "", "x=a=b"),
    ("Lt=4", "ep2=b", "z=1", "z=2", "門=é\"\\"),
    ("x" * 255,),
    ("n" * 100 + "=" + "v" * 154, "x=3"),
]
PATHS = [(3,), (3, 0), (3, 0, 9), (3, 1), (65534, 0, 65534, 1)]


def three_hundred_slots():
    """Three hundred endpoints come to other nodes at once, and ten of them once more."""
    run = Run(3)
    names = [f"device-{number:03}" for number in range(300)]
    for number, name in enumerate(names, 1):
        run.register(From(1, number, f"127.0.0.1:{number}", mid=number), name, lifetime=number)
        run.observe(1, number, (2 * number - 1, 1), (3, number), number, number)
    for since in (0, 580, 600):
        run.send(1, since)
    for place in (0, 2, 1, 0):
        run.deliver(2, place)
    run.ask_change(2)
    run.send(2, 0)
    run.send(2, 290)
    run.deliver(3, 3)
    run.deliver(1, 4)
    for number, name in enumerate(names, 1):
        run.ask_endpoint(3, 0, name)
        run.ask_token(3, 0, (2 * number, 1))
        run.ask_expired(3, 200_000, name)
        run.ask_next(2, 200_000, name)
    return run


def many_attributes():
    """Registrations with about as many attributes as a datagram can name, written at two nodes."""
    run = Run(2)
    letters = "ABCDEFGHIJKLMNOPQRSTUVWXYZabcdefghijklmnopqrstuvwxyz"
    names = [first + second for first in letters for second in letters if first + second not in ("ep", "lt")]
    chance = random.Random(3)
    run.register(From(1), "a", others=chance.sample(names, 2_500))
    run.send(1, 0)
    run.deliver(2, 0)
    run.update(From(1), (1, 1), others=[f"{name}=1" for name in chance.sample(names, 1_000)])
    run.update(From(2), (1, 1), others=[f"{name}=2" for name in chance.sample(names, 750)] * 2)
    run.update(From(2), (1, 1), others=["x"] * 4_000)
    run.send(1, 0)
    run.send(2, 0)
    run.deliver(1, 2)
    run.deliver(2, 1)
    for node in run.nodes:
        run.ask_endpoint(node, 0, "a")
        run.send(node, 0)
    return run


def largest():
    """A Register of 8,192 bytes with each parameter at its longest, and one with a hundred observations: the deltas of
    both come to another node, which ends the last observation."""
    run = Run(2)
    name, objects = "e" * 252, "</" + "o" * 7_629 + ">"
    run.register(From(1), name, 4294967295, True, "ABCDEFGH", "1" * 251, True, objects)
    assert len(bytes.fromhex(run.script[-1].split()[-1])) == 8_192
    run.ask_endpoint(1, 0, name)
    run.ask_next(1, 0)
    run.send(1, 0)
    for _ in range(2):
        run.deliver(2, 0)
        run.ask_endpoint(2, 0, name)
        run.send(2, 0)
        run.ask_change(2)
    run.register(From(1), "a")
    for number in range(100):
        run.observe(1, 0, (2, 1), (65534, 65534, 65534, number), 65535, 32)
    run.send(1, 1)
    run.deliver(2, 3)
    run.send(2, 1)
    run.ask_watch(2, 0, (2, 1))
    run.ask_token(2, 0, (102, 1))
    run.cancel(2, 0, (102, 1), 32)
    run.ask_token(2, 0, (102, 1))
    run.send(2, 2)
    return run


def most_registers():
    """Nine thousand endpoints of one node come to another, about as many as a script can have."""
    run = Run(2)
    for number in range(9_000):
        run.register(From(1), f"{number:x}")
    run.send(1, 0)
    run.send(1, 8_990)
    run.deliver(2, 1)
    run.deliver(2, 0)
    run.ask_change(2)
    run.ask_next(2, 0, "f")
    return run


def most_events():
    """As many events as a script of 1,048,576 bytes can have, each of which is a message."""
    run = Run(1)
    for _ in range((1_048_576 - len("nodes 1\n")) // len("send 1 0\n")):
        run.send(1, 0)
    return run


def ask_all(run, node, now):
    """Asks for all that a node shows, and for what has expired."""
    for name in ["", *NAMES, "~"]:
        run.ask_next(node, now, name)
        run.ask_expired(node, now, name)
        if name:
            run.ask_endpoint(node, now, name)
    for host in HOSTS:
        run.ask_address(node, now, f"{host}:5683")


class Chance:
    """What happens at random in a run, the same for each seed."""

    def __init__(self, run, seed, nodes):
        self.run, self.random, self.nodes = run, random.Random(seed), nodes
        self.now, self.last = 0, {number: 0 for number in nodes}

    def one_of(self, *choices):
        return self.random.choice(choices)

    def node(self):
        return self.one_of(*self.nodes)

    def stamp(self):
        """A stamp that may be of something, by its node's clock."""
        node = self.run.nodes[self.node()]
        return max(1, node.clock - self.random.randrange(40)), self.node()

    def sender(self, kinds=(CON, NON)):
        token = bytes(self.random.randrange(256) for _ in range(self.random.randrange(9)))
        address = f"{self.one_of(*HOSTS)}:{self.one_of(0, 5683, 65535)}"
        return From(self.node(), self.now, address, self.one_of(*kinds), self.random.randrange(65536), token)

    def known(self, node):
        """A registration that the node shows, or a stamp of none."""
        shown = self.run.nodes[node].shown(self.now)
        return self.one_of(*shown)[1].stamp if shown and self.random.random() < 0.9 else self.stamp()

    def token(self, node):
        slots = [slot for _, slot in self.run.nodes[node].shown(self.now)]
        live = [slot.watches[path].token for slot in slots for path in slot.live()]
        return self.one_of(*live) if live and self.random.random() < 0.9 else self.stamp()

    def register(self):
        has_queue, is_v11 = self.one_of(False, True), self.one_of(False, True)
        self.run.register(
            self.sender(), self.one_of(*NAMES), self.one_of(0, 1, 60, 86400, 4294967295), is_v11,
            self.one_of("U", "UQ", "ABCDEFGH"), self.one_of(None, "", "1" * 251), has_queue, self.objects(),
            self.one_of(*OTHERS)
        )

    def objects(self):
        return self.one_of("</>", "</1/0>,</3/0>;ver=1.1", '</>;rt="oma.lwm2m";ct=110', "</" + "9" * 300 + ">")

    def update(self):
        sender = self.sender()
        self.run.update(
            sender, self.known(sender.node), self.one_of(KEPT, 0, 30, 4294967295), self.one_of(KEPT, "Q", "US"),
            self.one_of(KEPT, "", "49"), self.one_of(KEPT, self.objects()),
            self.one_of(*OTHERS, ("ep=c", "Q", "lwm2m=2", "w=1"))
        )

    def deregister(self):
        sender = self.sender()
        self.run.deregister(sender, self.known(sender.node))

    def observe(self):
        node = self.node()
        accept = self.one_of(None, 0, 110, 65535)
        self.run.observe(node, self.now, self.known(node), self.one_of(*PATHS), accept, self.random.randrange(65536))

    def cancel(self):
        node = self.node()
        self.run.cancel(node, self.now, self.token(node), self.random.randrange(65536))

    def report(self):
        sender = self.sender((CON, NON, ACK))
        number, format = self.one_of(None, 0, 1, 16777215), self.one_of(None, 0, 110, 65535)
        code = self.one_of(0x45, 0x45, 0x44, 0x84, 0xA0)
        self.run.report(sender, self.token(sender.node), code, number, format, self.one_of(b"", b"1", b"\xff" * 300))

    def sweep(self):
        self.run.sweep(self.node(), self.now)

    def send(self):
        node = self.node()
        since = self.one_of(self.last[node], self.run.nodes[node].change - 1, 0, 18446744073709551615)
        self.run.send(node, max(0, since))
        self.last[node] = self.run.nodes[node].change

    def deliver(self):
        sent = len(self.run.messages)
        self.run.deliver(self.node(), self.one_of(max(0, sent - 1), self.random.randrange(sent + 1)))

    def ask(self):
        node, run = self.node(), self.run
        name, stamp = self.one_of(*NAMES), self.known(node)
        questions = (
            lambda: run.ask_id(node, self.now, stamp),
            lambda: run.ask_endpoint(node, self.now, name),
            lambda: run.ask_address(node, self.now, f"{self.one_of(*HOSTS)}:5683"),
            lambda: run.ask_token(node, self.now, self.token(node)),
            lambda: run.ask_watch(node, self.now, stamp, self.one_of((), (), *PATHS)),
            lambda: run.ask_next(node, self.now, self.one_of("", name)),
            lambda: run.ask_expired(node, self.now, self.one_of("", name)),
            lambda: run.ask_change(node),
        )
        self.one_of(*questions)()

    def event(self):
        self.now += self.random.randrange(400)
        kinds = {
            self.register: 12, self.update: 16, self.deregister: 2, self.observe: 12, self.cancel: 4, self.sweep: 4,
            self.report: 12, self.send: 10, self.deliver: 14, self.ask: 18
        }
        self.random.choices(list(kinds), list(kinds.values()))[0]()


def five_thousand_events():
    """Clients at four nodes do all that they can, while messages are lost, repeated and late."""
    run = Run(4)
    chance = Chance(run, 1, run.nodes)
    for _ in range(5_000):
        chance.event()
    for node in run.nodes:
        ask_all(run, node, chance.now)
    return run


def gossip():
    """Two nodes get the same messages, one of them the other way round and each three times, and answer alike."""
    run = Run(16)
    chance = Chance(run, 2, range(1, 9))
    for _ in range(1_000):
        chance.event()
    sent = [chance.random.randrange(len(run.messages)) for _ in range(60)]
    for node, places in ((9, sent), (16, [*reversed(sent), *sent, *sent])):
        for place in places:
            run.deliver(node, place)
    before = len(run.prints)
    for node in (9, 16):
        ask_all(run, node, chance.now)
    answers = run.prints[before:]
    assert answers[: len(answers) // 2] == answers[len(answers) // 2 :]
    return run


ALL = (three_hundred_slots, many_attributes, largest, most_registers, most_events, five_thousand_events, gossip)

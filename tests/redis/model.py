"""What one device was told, and what may have become of its requests that nobody answered.

A request that was not answered is open: it may have been taken, may be taken later, or was never. It is settled once
the server that it was sent to has answered a later one, or was killed: from then on it was taken or never will be.
What is answered then by whichever server tells which of the two, or makes it void.
"""

import coap

REGISTERS, UPDATES, DEREGISTERS = ALL = "registers", "updates", "deregisters"
OTHERS = REGISTERS, DEREGISTERS
# the answers to what was done
DONE = "2.01", "2.04", "2.02"


class Sent:
    """A request of a device: what it asks, and where and as which of its requests it was sent."""

    def __init__(self, kind, identifier=None, lifetime=None, objects=None):
        self.kind, self.identifier, self.lifetime, self.objects = kind, identifier, lifetime, objects
        # the place of the server, how often that had been killed, and the number of the request
        self.place = self.ends = self.number = None

    def request(self, endpoint):
        if self.kind == REGISTERS:
            return coap.register(endpoint, self.lifetime, self.objects)
        if self.kind == UPDATES:
            return coap.update(self.identifier, self.lifetime)
        return coap.deregister(self.identifier)

    def again(self):
        """The same, to be sent once more."""
        return Sent(self.kind, self.identifier, self.lifetime, self.objects)


class Model:
    """What a device was told, as its answers come. `wrong` has each answer that no order of its requests explains."""

    def __init__(self, endpoint, ends):
        # `ends` tells how often each server was killed
        self.endpoint, self.ends = endpoint, ends
        # the identifier that it has as far as it was told, the lifetimes that may be known, and its objects
        self.identifier, self.lifetimes, self.objects = None, set(), None
        # identifiers that have ended for good, and all that it was ever told
        self.ended, self.given = [], []
        self.open, self.wrong = [], []
        # for each server the number of the last request that it has answered, and how often it had been killed then
        self.answered = {}

    def settled(self):
        """The open requests that were taken before now or never will be."""
        return [it for it in self.open if self.is_settled(it)]

    def is_settled(self, sent):
        number, ends = self.answered.get(sent.place, (0, None))
        return self.ends[sent.place] != sent.ends or (ends == sent.ends and number > sent.number)

    def hears_nothing(self, sent):
        self.open.append(sent)

    def hears(self, sent, settled, code, located):
        """An answer. `settled` has what was settled when its request was sent."""
        self.answered[sent.place] = sent.number, sent.ends
        if sent.kind == REGISTERS:
            self.registered(sent, code, located)
        elif sent.kind == UPDATES:
            self.updated(sent, code)
        else:
            self.deregistered(sent, code)
        if code in DONE:
            # what an Update leaves as it is an earlier one may have written
            kinds = OTHERS if sent.kind == UPDATES and sent.lifetime is None else ALL
            self.open = [it for it in self.open if it.kind not in kinds or it not in settled]

    def judges(self, sent, code, truth):
        if not truth:
            still_open = [(it.kind, it.identifier, it.place) for it in self.open]
            self.wrong.append((self.endpoint, sent.kind, sent.identifier, sent.place, code, still_open))

    def registered(self, sent, code, located):
        self.judges(sent, code, code == "2.01" and located)
        if code == "2.01":
            self.dies()
            self.given.append(located)
            self.identifier, self.lifetimes, self.objects = located, {sent.lifetime}, sent.objects

    def updated(self, sent, code):
        if sent.identifier != self.identifier:
            self.judges(sent, code, code == "4.04")
        elif code != "2.04":
            self.judges(sent, code, code == "4.04" and self.may_have_ended())
            self.dies()
        elif sent.lifetime is not None:
            self.lifetimes = {sent.lifetime}

    def deregistered(self, sent, code):
        self.judges(sent, code, code == "2.02" or (code == "4.04" and self.may_have_ended()))
        self.dies()

    def may_have_ended(self):
        """Whether an open request may have ended the registration: its Deregister, or another Register."""
        return any(it.kind == REGISTERS for it in self.open) or self.may_be_removed()

    def may_be_removed(self):
        return any((it.kind, it.identifier) == (DEREGISTERS, self.identifier) for it in self.open)

    def dies(self):
        if self.identifier is not None:
            self.ended.append(self.identifier)
        self.identifier, self.lifetimes, self.objects = None, set(), None

    def explains(self, shown, told):
        """Whether what a server shows of the device, or none, is what it was told, or what an open request has made.

        `told` has all identifiers that some device was told: what an open Register has made is none of them.
        """
        if shown is None:
            return self.identifier is None or self.may_be_removed()
        has = shown["lifetime"], shown["objects"]
        if shown["id"] == self.identifier:
            updates = {it.lifetime for it in self.open if (it.kind, it.identifier) == (UPDATES, self.identifier)}
            return has in [(it, self.objects.decode()) for it in self.lifetimes | updates]
        made = [(it.lifetime, it.objects.decode()) for it in self.open if it.kind == REGISTERS]
        return shown["id"] not in told and has in made


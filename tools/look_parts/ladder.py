"""The ladder of a script: devices, contexts and datagrams, as steps that mermaid.py and mscgen.py draw.

A lifeline is a context on a device. A datagram is drawn where it is delivered or lost. Where it is not delivered next, a
note says where it was sent. What a `settle` delivered is drawn dotted: its answer does not tell what the datagrams did.
"""
from dataclasses import dataclass

from .datagrams import shown_address

MOST_SETTLED = 40  # more datagrams of one `settle` are summed up
SOLID, DOTTED, LOST, OPEN = "solid", "dotted", "lost", "open"
POSTS = ("write", "send", "read", "cas", "add", "recv")
# Lines that neither send nor deliver, and do not part a datagram's sending from its delivery.
LOOKS = ("wire", "load", "poll", "dump", "store")


@dataclass(frozen=True)
class Place:
    """A lifeline: a context on a device."""
    context: str
    device: int


@dataclass
class Note:
    line: int
    places: tuple  # of the leftmost and the rightmost lifeline that it is over
    text: str


@dataclass
class Arrow:
    line: int
    start: Place
    end: Place
    style: str
    text: str


@dataclass
class Ladder:
    devices: dict  # the number of a device -> its address
    places: list
    steps: list


def shown_kind(packet, to):
    """A datagram in a few words."""
    told = packet.kind + to
    if packet.is_moving:
        return f"{told}, moved {packet.fields['count']}, at {shown_address(packet.address)}"
    if packet.is_nak_stopped:
        told += f", moved {packet.fields['msn']}"
    return f"{told}, PSN {packet.psn}"


def shown_flight(flight, names_receiver):
    to = f" to {flight.receiver.name}" if names_receiver else ""
    told = shown_kind(flight.packet, to) if flight.packet else "bytes no longer kept" + to
    return f"{flight.number} {told}" + (", sent again" if flight.again else "")


def numbers_text(numbers):
    return str(numbers[0]) if len(numbers) == 1 else f"{numbers[0]} to {numbers[-1]}"


class Maker:
    """Makes the steps of a story, line after line."""

    def __init__(self, story, first=1, last=None):
        self.story = story
        self.first, self.last = first, last
        self.steps = []
        self.places = {}
        self.homes = {}  # a context -> its device, or None where it is carried
        self.left = {}  # a context -> the device that it left last
        self.unsent = []  # datagrams of `go` lines just played, with no note so far
        self.connected = {name: context for name, context in story.world.contexts.items() if any(e.partner for e in context.ends.values())}
        # Where a context has more connected queue pairs than one, an arrow names the one that it is for.
        self.names_receivers = any(sum(bool(e.partner) for e in c.ends.values()) > 1 for c in self.connected.values())
        self.lines = [a for a in story.played.answered if not a.line.is_blank]

    def make(self):
        for at, answered in enumerate(self.lines):
            act = getattr(self, "do_" + answered.line.verb, None)
            if answered.line.verb != "go":
                self.note_sent(answered)
            if answered.is_refused:
                self.refused(answered)
            elif answered.line.verb in POSTS:
                self.posted(answered)
            elif act:
                act(answered)
        self.note_sent(None)
        self.end_of_script()
        steps = [s for s in self.steps if s.line >= self.first and (self.last is None or s.line <= self.last)]
        return Ladder(self.used_devices(), sorted(self.places, key=lambda p: (p.device, list(self.connected).index(p.context))), steps)

    def used_devices(self):
        world = self.story.world
        return {number: shown_address(world.devices[number].address) for number in sorted({p.device for p in self.places})}

    # ---- helpers

    def place(self, context, device):
        return self.places.setdefault(Place(context, device), Place(context, device))

    def here(self, name):
        """The lifeline of an object's or a context's context, or the one that it left, or None."""
        context = name.partition(".")[0]
        if context not in self.connected or context not in self.homes:
            return None
        return self.place(context, self.homes[context] or self.left[context])

    def note(self, line, places, text):
        places = [place for place in places if place]
        if places:
            self.steps.append(Note(line, tuple(places), text))

    def ends_of(self, flight):
        """The lifelines of a datagram's sender and receiver."""
        if flight.sender is None:
            return None, None
        receiver = self.story.world.device_at(flight.to_address)
        start = self.place(flight.sender.context.name, flight.sender_device)
        return start, self.place(flight.receiver.context.name, receiver.number)

    def arrow(self, line, flight, style, did):
        start, end = self.ends_of(flight)
        if start and end:
            told = shown_flight(flight, self.names_receivers)
            self.steps.append(Arrow(line, start, end, style, told + (f": {did}" if did else "")))

    def note_sent(self, following):
        """A note on what `go` lines sent, unless all that is delivered by the next line."""
        if following and following.line.verb in LOOKS:
            return
        waiting, self.unsent = self.unsent, []
        if len(waiting) == 1 and following and following.line.verb in ("deliver", "lose") and int(following.line.rest[0]) == waiting[0].number:
            return
        while waiting:
            start = self.ends_of(waiting[0])[0]
            together = [f for f in waiting if self.ends_of(f)[0] == start]
            waiting = [f for f in waiting if self.ends_of(f)[0] != start]
            self.note(together[-1].line, [start], "sends " + ", ".join(str(f.number) for f in together))

    # ---- lines

    def refused(self, answered):
        if answered.line.rest:
            name = answered.line.rest[0]
            self.note(answered.line.number, [self.here(name)], f"{answered.line.verb} {name}: {answered.first}")

    def posted(self, answered):
        rest = answered.line.rest
        length = {"cas": "", "add": ""}.get(answered.line.verb, f", {rest[4] if len(rest) > 4 else 0} bytes")
        self.note(answered.line.number, [self.here(rest[0])], f"{answered.line.verb} {rest[0]}, id {rest[1]}{length}")

    def do_context(self, answered):
        name, device = answered.line.rest
        if name in self.connected:
            self.homes[name] = int(device)
            self.place(name, int(device))

    def do_connect(self, answered):
        rest = answered.line.rest
        text = f"{rest[0]} and {rest[1]} connected, MTU {rest[3]}, PSN {rest[5]} and {rest[6]}"
        self.note(answered.line.number, [self.here(rest[0]), self.here(rest[1])], text)

    def do_go(self, answered):
        numbers = self.story.lines.get(answered.line.number)
        if numbers:
            self.unsent.append(self.story.flights[numbers[0]])
        else:
            self.note_sent(None)
            name = answered.line.rest[0]
            self.note(answered.line.number, [self.here(name)], f"go {name}: {answered.first}")

    def do_deliver(self, answered):
        number = int(answered.line.rest[0])
        flight = self.story.flights.get(number)
        if flight is None or answered.first in ("gone", "lost"):
            return
        did = answered.first.removeprefix("took ")
        sent = self.story.lines.get(answered.line.number)
        if sent:
            did = f"{did[:did.index(' sent ')]}, sends {numbers_text(sent)}"
        lines = [delivery.line for delivery in flight.deliveries]
        if lines.index(answered.line.number):
            did = f"delivered again, {did}"
        self.arrow(answered.line.number, flight, SOLID, did)

    def do_lose(self, answered):
        flight = self.story.flights.get(int(answered.line.rest[0]))
        if flight and answered.first == "ok":
            self.arrow(answered.line.number, flight, LOST, "lost")

    def do_expire(self, answered):
        name = answered.line.rest[0]
        self.note(answered.line.number, [self.here(name)], f"expire {name}: {answered.first}")

    def do_rnr(self, answered):
        name = answered.line.rest[0]
        self.note(answered.line.number, [self.here(name)], f"RNR timer of {name}: {answered.first}")

    def do_poll(self, answered):
        entries = [answer.split() for answer in answered.answers if answer.startswith("wc ")]
        for word in entries[:4]:
            text = f"completion: {word[3]}, id {word[2]}, status {word[4]}, {word[5]} bytes"
            self.note(answered.line.number, [self.here(answered.line.rest[0])], text)
        if len(entries) > 4:
            self.note(answered.line.number, [self.here(answered.line.rest[0])], f"and {len(entries) - 4} completions more")

    def do_stop(self, answered):
        name = answered.line.rest[0]
        self.note(answered.line.number, [self.here(name)], f"stop {name}: its image is carried, a husk stays")
        if name in self.homes:
            self.left[name], self.homes[name] = self.homes[name], None

    def do_restore(self, answered):
        name, device = answered.line.rest
        if name in self.homes:
            self.homes[name] = int(device)
        self.note(answered.line.number, [self.here(name)], f"restore {name} on device {device}")

    def do_release(self, answered):
        name, device = answered.line.rest
        if name in self.connected:
            self.note(answered.line.number, [self.place(name, int(device))], f"release: the husk of {name} is forgotten")

    def do_settle(self, answered):
        line = answered.line.number
        flights = self.story.settled.get(line, [])
        places = self.all_here()
        left = [answer.removeprefix("left ") for answer in answered.answers[1:]]
        text = f"settle: {answered.first}" + "".join(f", {words}" for words in left)
        if flights:
            text += f", {len(flights)} delivered (dotted below)"
        self.note(line, places, text)
        for flight in flights[:MOST_SETTLED]:
            self.arrow(line, flight, DOTTED, None)
        if len(flights) > MOST_SETTLED:
            self.note(line, places, counted(flights[MOST_SETTLED:]))

    def all_here(self):
        """The leftmost and the rightmost lifeline in use."""
        here = sorted((p for p in map(self.here, self.homes) if p), key=lambda p: p.device)
        return here if len(here) < 2 else [here[0], here[-1]]

    def end_of_script(self):
        last = self.lines[-1].line.number if self.lines else 0
        for flight in self.story.pending.values():
            self.arrow(last, flight, OPEN, "never delivered")
        ending = self.story.played.ending
        if ending:
            self.note(last, self.all_here(), ending.text)


def counted(flights):
    """Datagrams by kind, in words."""
    kinds = {}
    for flight in flights:
        kind = flight.packet.kind if flight.packet else "no longer kept"
        kinds[kind] = kinds.get(kind, 0) + 1
    return f"{len(flights)} more: " + ", ".join(f"{count} {kind}" for kind, count in kinds.items())

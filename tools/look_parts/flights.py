"""Every datagram of a script: what it says, where from and where to, and what became of it.

The program is run on copies of the script into which lines `wire N` are put, each behind the line that sent datagram N.
Such a line shows the bytes and changes nothing. What `settle` sends is told by no answer; there the same lines count how
many datagrams there are. No line of the script is changed. Blank lines are left out of the copies, so that a long script
has more room for lines of look's own.
"""
from dataclasses import dataclass, field

from .answers import play
from .datagrams import RESUME_ACK_OPCODE, READ_REQUEST, Offence, read_datagram
from .errors import LookError
from .program import MOST_BYTES
from .script import lines_of
from .world import World

KEPT = 16_384
STRIDE = KEPT // 2
MOST_LOOKS = 4000  # lines `wire` in one run: their answers may have 8 KB each
PROBES = 15
ROUNDS = 64


@dataclass
class Delivery:
    """A delivery: the line, and what the datagram did, or None where `settle` delivered it and does not tell."""
    line: int
    did: str


@dataclass
class Flight:
    """A datagram."""
    number: int
    line: int  # the line that sent it
    by: str  # `go`, `deliver` or `settle`
    data: bytes = None  # None where the network keeps it no more
    packet: object = None
    sender: object = None  # the end that sent it
    sender_device: int = 0
    from_address: tuple = None
    to_address: tuple = None
    again: bool = False  # a packet with its number was sent before
    deliveries: list = field(default_factory=list)
    lost: int = 0  # the line that lost it

    @property
    def is_pending(self):
        return not self.lost and not self.deliveries

    @property
    def receiver(self):
        return self.sender and self.sender.partner


class Copy:
    """Runs of copies of a script, with lines of look's own behind lines of it."""

    def __init__(self, program, played):
        self.program = program
        self.answered = [a for a in played.answered if not a.line.is_blank]
        self.size = sum(len(a.line.raw) + 1 for a in self.answered)

    def room(self):
        return MOST_BYTES - self.size

    def ask(self, extra):
        """The answers of extra lines, each of which has one answer of one line: by the number of the line before them."""
        if not extra:
            return {}
        last = max(extra)
        parts, places, at = [], [], 0
        for answered in self.answered:
            number = answered.line.number
            if number > last:
                break
            at += len(answered.answers)
            parts.append(answered.line.raw)
            words = extra.get(number, [])
            parts += [word.encode() for word in words]
            places.append((number, at, len(words)))
            at += len(words)
        _, answers = self.program.play(b"\n".join(parts) + b"\n")
        if len(answers) != at:
            raise LookError(f"a copy of the script with lines `wire` has {len(answers)} lines of answers, and not {at}")
        return {number: answers[start:start + count] for number, start, count in places if count}

    def ask_in_parts(self, wanted, what):
        """The same for pairs of a line's number and an extra line, in as many runs as they need; `what` they look at is for the progress."""
        room, told, at = self.room(), [], 0
        while at < len(wanted):
            extra, used, end = {}, 0, at
            while end < len(wanted) and end - at < MOST_LOOKS:
                number, words = wanted[end]
                if used + len(words) + 1 > room:
                    break
                used += len(words) + 1
                extra.setdefault(number, []).append(words)
                end += 1
            if end == at:
                raise LookError(f"the script has {self.size:,} bytes without its blank lines, and {MOST_BYTES:,} leave no room for a line `wire`")
            self.program.doing = f", for {what} {at + 1:,} to {end:,} of {len(wanted):,}"
            answers = self.ask(extra)
            told += [answer for number in sorted(extra) for answer in answers[number]]
            at = end
        self.program.doing = ""
        return told


def sent_numbers(words):
    """The first and the last number that an answer tells after `sent`, or None."""
    if "sent" not in words:
        return None
    numbers = [int(word) for word in words[words.index("sent") + 1:] if word != "to"]
    return numbers[0], numbers[-1]


# ---- how many datagrams each `settle` sent

@dataclass
class Settling:
    """A line `settle`: after it there are at least `low` and at most `high` datagrams (None: not known)."""
    line: int
    low: int
    high: int


def settlings_of(answered):
    """The lines `settle`, with the bounds that the other answers give."""
    found, last = [], 0
    for a in answered:
        numbers = sent_numbers(a.words) if a.line.verb in ("go", "deliver") else None
        if numbers:
            for settling in reversed(found):
                if settling.high is not None:
                    break
                settling.high = numbers[0] - 1
            last = numbers[1]
        if a.line.verb == "settle" and not a.is_refused:
            found.append(Settling(a.line.number, last, None))
    narrow(found)
    return found


def narrow(settlings):
    """Where one `settle` stands alone between known numbers, its count is known; counts do not fall."""
    for before, after in zip(settlings, settlings[1:]):
        after.low = max(after.low, before.low)
    for before, after in zip(settlings[-2::-1], settlings[:0:-1]):
        if after.high is not None:
            before.high = after.high if before.high is None else min(before.high, after.high)
    for at, settling in enumerate(settlings):
        follows = at + 1 < len(settlings) and settlings[at + 1].high == settling.high
        if settling.high is not None and not follows and settling.low <= settling.high:
            settling.low = settling.high


def probes_of(settling):
    """Numbers of datagrams to look at after a `settle`: at most a stride apart, so that a kept one is met if there is one."""
    low, high = settling.low, settling.high
    if high is None:
        near = [low + 2**power for power in range(14)]
        return near + [low + STRIDE * step for step in range(2, 2 + PROBES)]
    gap = high - low
    if gap <= PROBES:
        return list(range(low + 1, high + 1))
    step = min(STRIDE, -(-gap // (PROBES + 1)))
    return list(range(low + step, high, step)) + [high]


def count_settled(copy, settlings):
    """Finds how many datagrams there are after each `settle`."""
    for _ in range(ROUNDS):
        open_ones = [s for s in settlings if s.low != s.high]
        if not open_ones:
            return
        wanted = [(s.line, f"wire {number}") for s in open_ones for number in probes_of(s)]
        answers = iter(copy.ask_in_parts(wanted, "settles, look"))
        for settling in open_ones:
            numbers = probes_of(settling)
            there = [n for n, answer in zip(numbers, answers) if answer != "gone"]
            highest = max(there, default=settling.low)
            above = [n for n in numbers if n > highest]
            settling.low = max(settling.low, highest)
            if above:
                settling.high = above[0] - 1 if settling.high is None else min(settling.high, above[0] - 1)
        for before, after in zip(settlings, settlings[1:]):
            after.low = max(after.low, before.low)
    raise LookError("the datagrams of a `settle` could not be counted")


# ---- the whole story

class Story:
    """The datagrams of a script, and its world after each line."""

    def __init__(self, program, script):
        self.program = program
        self.played = play(program, lines_of(script), script)
        self.copy = Copy(program, self.played)
        self.flights = {}
        self.lines = {}  # the number of a line -> the numbers of the datagrams that it sent
        settlings = settlings_of(self.copy.answered)
        count_settled(self.copy, settlings)
        self.find_lines({s.line: s.low for s in settlings})
        self.find_bytes()
        self.world = World()
        self.last = 0  # the number of the datagram sent last
        self.settled = {}  # the number of a line `settle` -> the datagrams that it delivered, in that order
        self.pending = {}  # the datagrams that are neither lost nor delivered
        self.tops = {}  # the number of an end -> one past the highest packet number that it sent, not cut to 24 bits
        self.resumes = set()  # the messages of moving so far: the number of the end, and the bytes
        for answered in self.played.answered:
            if not answered.line.is_blank:
                self.tell(answered)

    def find_lines(self, settled):
        """Which line sent which datagrams."""
        last = 0
        for a in self.copy.answered:
            numbers = sent_numbers(a.words) if a.line.verb in ("go", "deliver") else None
            if a.line.number in settled:
                numbers = last + 1, settled[a.line.number]
            if numbers and numbers[0] <= numbers[1]:
                if numbers[0] != last + 1:
                    raise LookError(f"line {a.line.number} sent datagram {numbers[0]}, and the one before it is {last}")
                last = numbers[1]
                self.lines[a.line.number] = range(numbers[0], last + 1)
                for number in self.lines[a.line.number]:
                    self.flights[number] = Flight(number, a.line.number, a.line.verb)

    def find_bytes(self):
        wanted = [(flight.line, f"wire {number}") for number, flight in self.flights.items()]
        for flight, answer in zip(self.flights.values(), self.copy.ask_in_parts(wanted, "datagrams")):
            if answer != "gone":
                flight.data = bytes.fromhex(answer.split()[1])
                flight.packet = read_datagram(flight.data)
                if isinstance(flight.packet, Offence):
                    raise LookError(f"datagram {flight.number} is none by docs/wire.md: {flight.packet.why} at {flight.packet.place}")

    # ---- one line

    def tell(self, answered):
        """What a line says of datagrams; the world is then the one after it."""
        verb, rest, words = answered.line.verb, answered.line.rest, answered.words
        sent = [self.flights[n] for n in self.lines.get(answered.line.number, ())]
        self.last = sent[-1].number if sent else self.last
        if verb == "go":
            for flight in sent:
                self.sends(flight, self.world.end(rest[0]))
        elif verb == "deliver":
            self.delivers(answered, sent)
        elif verb == "lose" and words == ["ok"]:
            self.flights[int(rest[0])].lost = answered.line.number
            self.pending.pop(int(rest[0]), None)
        elif verb == "settle" and not answered.is_refused:
            self.settles(answered.line.number, sent)
        self.world.apply(answered)

    def delivers(self, answered, sent):
        flight = self.flights.get(int(answered.line.rest[0]))
        words = answered.words
        if flight is None or words[0] in ("gone", "lost"):
            return
        did = words[1:words.index("sent")] if "sent" in words else words[1:]
        self.is_delivered(flight, answered.line.number, " ".join(did) or words[0])
        for answer in sent:
            if answer.packet and answer.packet.is_nak_stopped:
                self.husk_answers(answer, flight)
            else:
                self.sends(answer, flight.receiver)

    def is_delivered(self, flight, line, did):
        if did is None:
            self.settled.setdefault(line, []).append(flight)
        flight.deliveries.append(Delivery(line, did))
        self.pending.pop(flight.number, None)

    def sends(self, flight, end):
        """An end sends a datagram from where it lives to where it knows its partner."""
        self.pending[flight.number] = flight
        flight.sender, flight.sender_device = end, end.context.device
        flight.from_address = self.world.home(end)
        if flight.packet is None:
            flight.to_address = end.partner_address
            return
        if flight.packet.opcode == RESUME_ACK_OPCODE:
            end.partner_address = flight.packet.address
        flight.to_address = end.partner_address
        self.count_packet(flight, end)

    def count_packet(self, flight, end):
        """Tells whether a request, or RESUME, was sent before."""
        packet = flight.packet
        if packet.is_moving:
            flight.again = (end.number, flight.data) in self.resumes
            self.resumes.add((end.number, flight.data))
        if not packet.is_request:
            return
        top = self.tops.get(end.number, end.psn)
        number = top + (packet.psn - top + 2**23) % 2**24 - 2**23
        count = max(1, -(-packet.fields["length"] // end.terms["mtu"])) if packet.opcode == READ_REQUEST else 1
        flight.again = number < top
        self.tops[end.number] = max(top, number + count)

    def husk_answers(self, answer, flight):
        """The husk of an end answers NAK_STOPPED, from where the datagram arrived to where it came from."""
        end = flight.receiver
        self.pending[answer.number] = answer
        answer.sender, answer.sender_device = end, self.world.device_at(flight.to_address).number
        answer.from_address, answer.to_address = flight.to_address, flight.from_address

    # ---- settling

    def settles(self, line, sent):
        """Settling delivers all that is pending, least number first, and sends only where nothing is pending."""
        for flight in sent:
            if flight.packet is None:
                continue
            end = self.world.ends[flight.packet.dest].partner
            if flight.packet.is_nak_stopped:
                device = end.stops[flight.packet.fields["msn"]]
                arrived = next(f for f in self.pending.values() if self.reached_husk(f, flight, device))
                self.is_delivered(arrived, line, None)
                self.husk_answers(flight, arrived)
            else:
                self.sends(flight, end)
        for flight in list(self.pending.values()):
            if flight.number > self.last - KEPT:
                self.is_delivered(flight, line, None)
        self.settled.get(line, []).sort(key=lambda flight: flight.number)

    def reached_husk(self, flight, answer, device):
        """The datagram is the one that a husk on the device answers, if none before it is."""
        return (
            flight.number < answer.number and flight.packet and not flight.packet.is_moving
            and flight.packet.psn == answer.packet.psn and flight.receiver is self.world.ends[answer.packet.dest].partner
            and flight.to_address == self.world.address_of_device(device))

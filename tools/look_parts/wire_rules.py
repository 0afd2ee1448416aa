"""The rules of the protocol, as far as the datagrams of a connection show whether they are kept.

A capture does not tell which datagrams arrived. So each rule asks only whether there are arrivals with which the end would
send this: any datagram may have been lost, delayed or repeated behind the place of the capture. The capture has to have what
both ends sent, in the order in which they sent it. Each rule names the definition of crates/protocol/specs that it is from.
"""
from dataclasses import dataclass, field

from .datagrams import FETCH_ADD, OPCODES, READ_REQUEST, RESUME_ACK_OPCODE, RESUME_OPCODE, shown_address

WIRE_NUMBERS, HALF = 1 << 24, 1 << 23
WINDOW, MOST_MESSAGE, MOST_MOVES = 64, 1_048_576, 65_535
ACK, RNR, SEQUENCE, INVALID, ACCESS, STOPPED = "ACK", "RNR NAK", "NAK sequence error", "NAK invalid request", "NAK remote access error", "NAK_STOPPED"
COMPARE_SWAP, ATOMIC_ANSWER, READ_MIDDLE = 0x13, 0x12, 0x0E
READ_RESPONSES = range(0x0D, 0x11)

# Each rule: where a page has it, and its definition.
RULES = {
    "datagram": ("docs/wire.md", "Wire.packet_of"),
    "Error": ("docs/device.md, the states of a queue pair", "EndStep.takes"),
    "address": ("docs/moves.md, after the restore", "EndWords.to_partner"),
    "next number": ("docs/device.md, what is sent next", "Requester.transmission"),
    "same packet": ("docs/device.md, what is sent next", "Segments.packet_at"),
    "window full": ("docs/device.md, what is sent next", "Requester.transmission"),
    "reads full": ("docs/device.md, what is sent next", "Requester.transmission"),
    "Resuming": ("docs/device.md, what is sent next", "Requester.transmission"),
    "message": ("docs/wire.md, datagrams in bytes", "Segments.packet_of_piece"),
    "ack request": ("docs/wire.md, datagrams in bytes", "Segments.message_packet"),
    "acknowledge": ("docs/device.md, what a request packet does", "Responder.acts, Responder.repeated"),
    "expected number": ("docs/device.md, what a request packet does", "Responder.request_at"),
    "message number": ("docs/wire.md, acknowledge", "Responder.response"),
    "sequence error": ("docs/device.md, what a request packet does", "Responder.ahead"),
    "not ready": ("docs/device.md, what a request packet does", "Responder.needs_receive"),
    "invalid request": ("docs/device.md, what a request packet does", "Responder.is_invalid"),
    "remote access error": ("docs/device.md, what a request packet does", "Responder.target"),
    "operational error": ("docs/wire.md, acknowledge", "Responder.nak_code"),
    "READ response": ("docs/wire.md, read", "Responder.read_pieces"),
    "atomic reply": ("docs/device.md, what a request packet does", "Responder.answers_old"),
    "RESUME": ("docs/device.md, the messages of moving", "Moves.resume_of"),
    "RESUME_ACK": ("docs/device.md, the messages of moving", "Moves.move_row"),
    "husk": ("docs/device.md, moving a context", "DeviceStep.at_husk"),
}


class Broken(Exception):
    """A datagram that the protocol would not send or answer so: the rule, and why."""

    def __init__(self, rule, why):
        super().__init__(why)
        self.rule, self.why = rule, why


def want(holds, rule, why):
    if not holds:
        raise Broken(rule, why)


def pieces(length, mtu):
    return max(1, -(-length // mtu))


def near(start, psn, place):
    """The number that a wire number means near another; numbers count from 0."""
    return place + (psn - start - place + HALF) % WIRE_NUMBERS - HALF


@dataclass
class Request:
    """A request packet as it was sent first, and how many numbers it takes."""
    first: int
    span: int
    packet: object

    @property
    def lands(self):
        """It is answered by bytes or by an old value, and not by an ACK."""
        return self.packet.opcode in (READ_REQUEST, COMPARE_SWAP, FETCH_ADD)

    @property
    def part(self):
        """First, Middle, Last or Only of a SEND or WRITE; else nothing."""
        return "" if self.lands else OPCODES[self.packet.opcode][0].split()[1]

    @property
    def is_send(self):
        return self.packet.opcode <= 0x05

    @property
    def needs_receive(self):
        return self.is_send and self.part in ("First", "Only") or not self.is_send and "imm" in self.packet.fields


@dataclass
class Half:
    """One end of a connection, as far as its datagrams tell it."""
    number: int
    home: tuple
    start: int
    mtu: int
    reads: int  # how many Reads and atomics may be in flight; 0: not known
    partner: "Half" = None
    # moving
    partner_address: tuple = None  # where it sends to
    own: int = 0  # how often it moved
    recorded: int = 0  # how often its partner did, as it knows
    lived: dict = field(default_factory=dict)  # a count of moves -> the address, by a RESUME or a husk
    resumed: set = field(default_factory=set)  # the counts that a RESUME told
    is_resuming: bool = False
    has_run: bool = True  # a request was sent since it runs again
    husk: int = -1  # the greatest count that a husk of it told
    reached: set = field(default_factory=set)  # what came for it: address, sender, wire number
    has_ended: bool = False
    # requests: numbers count from 0
    at: list = field(default_factory=list)  # the request of each number
    starts: list = field(default_factory=lambda: [0])  # how many packets begin below each number
    landing: list = field(default_factory=lambda: [0])  # .. Reads and atomics
    finished: list = field(default_factory=lambda: [0])  # .. messages that end below it
    next: int = 0
    least_una: int = 0  # the oldest unacknowledged number is this one or a later one
    most_una: int = 0  # .. and this one or an earlier one
    places: set = field(default_factory=lambda: {0})  # what it can be
    most_ack: int = 0  # one past the greatest number that an answer acknowledges
    landed: set = field(default_factory=set)  # numbers with a READ response or an ATOMIC ACK
    message: tuple = None  # the message that is being sent: is it a SEND, its bytes so far, its length or None
    # what it answers
    least: int = 0  # the least number that it can expect
    told_ahead: int = -1  # the number of its last sequence error
    old: dict = field(default_factory=dict)  # a number -> the old value that was told
    asked: dict = field(default_factory=dict)  # a number -> the READ requests that ask for it: first number, length

    def __post_init__(self):
        self.lived[0] = self.home

    @property
    def top(self):
        return len(self.at)

    def begins(self, number):
        """A request begins at the number, or would be the next one."""
        return number == self.top or 0 <= number < self.top and self.at[number].first == number


# ---- requests

def may_send_requests(end, source):
    want(not end.is_resuming, "Resuming", "the end resumes, and before RESUME_ACK it sends only RESUME of its own accord")
    want(end.husk < end.own, "husk", f"a husk told that the context left at move count {end.own}, and no RESUME with a greater one came since")
    want(source == end.home, "address", f"the end lives at {shown_address(end.home, True)}")


def raise_una(end):
    """How far all can be acknowledged: up to the first Read or atomic whose answers are not all there."""
    while end.most_una < end.most_ack and (not end.at[end.most_una].lands or end.most_una in end.landed):
        end.most_una += 1


def check_next(end, number):
    """The next number, or the oldest unacknowledged one."""
    if number == end.next:
        return
    want(number >= end.least_una, "next number", f"number {number} was acknowledged: a later one was the oldest unacknowledged one already")
    ways = f"next is {end.next}, and the oldest unacknowledged one cannot be {number}"
    want(number in end.places and number <= end.most_una, "next number", f"number {number} is not in turn: {ways}")
    end.least_una = number


def check_window(end, number, request, has_choices):
    inside = end.most_una < end.top and not end.begins(end.most_una)
    flying = end.starts[number] - end.starts[end.most_una] + inside if number > end.most_una else 0
    want(not has_choices or flying < WINDOW, "window full", f"{flying} request packets are unacknowledged already")
    flying = end.landing[number] - end.landing[end.most_una] + inside if number > end.most_una else 0
    want(not request.lands or not end.reads or flying < end.reads, "reads full", f"{flying} Reads and atomics are in flight already, of {end.reads}")


def same_packet(old, number, packet, mtu, has_choices):
    """A packet that is sent again is the same; a READ asks for the rest."""
    if old.packet.opcode != packet.opcode or has_choices and old.packet.ack_request != packet.ack_request:
        return False
    if packet.opcode != READ_REQUEST:
        return old.packet.fields == packet.fields and old.packet.payload == packet.payload
    gone = (number - old.first) * mtu
    fields = old.packet.fields
    rest = {"address": (fields["address"] + gone) % 2**64, "rkey": fields["rkey"], "length": fields["length"] - gone}
    return packet.fields == rest


def check_message(end, request):
    """A new packet is in its place in its message, and has its size; the message in progress is then another."""
    packet, part, size = request.packet, request.part, len(request.packet.payload)
    begins = part in ("First", "Only") or request.lands
    want(begins == (end.message is None), "message", "a message is not finished" if end.message else "no message is in progress")
    if request.lands:
        want(packet.fields.get("length", 0) <= MOST_MESSAGE, "message", "a READ of more than 1,048,576 bytes")
        return
    is_send, done, length = end.message or (request.is_send, 0, packet.fields.get("length"))
    want(is_send == request.is_send, "message", "the message in progress is of another kind")
    sizes = {"First": size == end.mtu, "Middle": size == end.mtu, "Last": 0 < size <= end.mtu, "Only": size <= end.mtu}
    want(sizes[part], "message", f"a {part} packet of {size} bytes at an MTU of {end.mtu}")
    done += size
    ends = part in ("Last", "Only")
    want(max(done, length or 0) <= MOST_MESSAGE, "message", "a message of more than 1,048,576 bytes")
    if length is not None:
        want(done == length if ends else done < length, "message", f"{done} bytes of a WRITE of {length} bytes")
    end.message = None if ends else (is_send, done, length)


def check_asks(request):
    packet = request.packet
    asks = request.lands or request.part in ("Last", "Only") or packet.psn % 8 == 7
    want(packet.ack_request == asks, "ack request", "an acknowledgement is asked for by a Last, an Only, a READ, an atomic, and where the number mod 8 is 7")


def add_request(end, request):
    """A packet that was not sent before."""
    finishes = request.part not in ("First", "Middle")
    for place in range(request.span):
        end.at.append(request)
        end.starts.append(end.starts[-1] + (place == 0))
        end.landing.append(end.landing[-1] + (place == 0 and request.lands))
        end.finished.append(end.finished[-1] + (place == 0 and finishes))
    if request.lands:
        end.places.add(request.first)


def sends_request(end, source, packet, has_choices):
    may_send_requests(end, source)
    number = near(end.start, packet.psn, end.top)
    span = pieces(packet.fields["length"], end.mtu) if packet.opcode == READ_REQUEST else 1
    request = Request(number, span, packet)
    check_next(end, number)
    check_window(end, number, request, has_choices)
    if number < end.top:
        want(same_packet(end.at[number], number, packet, end.mtu, has_choices), "same packet", f"number {number} was another packet when it was sent first")
    else:
        check_message(end, request)
        if has_choices:
            check_asks(request)
        add_request(end, request)
    if packet.opcode == READ_REQUEST:
        for place in range(number, number + span):
            end.asked.setdefault(place, set()).add((number, packet.fields["length"]))
    end.next = number + span
    end.has_run = True


# ---- answers

def count_finished(end, sender, low, high, packet):
    """The message number is a count of finished messages that there can be."""
    told, least, most = packet.fields["msn"], sender.finished[low] % WIRE_NUMBERS, sender.finished[high] % WIRE_NUMBERS
    want((told - least) % WIRE_NUMBERS <= (most - least) % WIRE_NUMBERS, "message number",
         f"it tells {told} finished messages, and there are {least}" + (f" to {most}" if most != least else ""))


def expects(end, sender, number, packet):
    """The end expects exactly this number now."""
    want(end.least <= number <= sender.top, "expected number", f"the end expects {number}, and it can only expect {end.least} to {sender.top}")
    want(sender.begins(number), "expected number", f"the end expects {number}, which is inside a READ")
    end.least = number
    count_finished(end, sender, number, number, packet)


def acknowledges(end, sender, number, packet):
    """The last packet that acted, which was to be acknowledged, or a repeat of any SEND or WRITE before."""
    want(0 <= number < sender.top, "acknowledge", f"number {number} was not sent")
    expects(end, sender, number + 1, packet)
    messages = sender.starts[number + 1] - sender.landing[number + 1]
    want(messages, "acknowledge", "no SEND or WRITE was sent up to this number")


def is_ahead(end, sender, number, packet):
    want(sender.at and number < sender.at[-1].first, "sequence error", f"no packet ahead of number {number} was sent")
    want(end.told_ahead != number, "sequence error", f"number {number} was told before, and nothing acted since")
    expects(end, sender, number, packet)
    end.told_ahead = number


def at_request(end, sender, number, packet, rule):
    """The request that the end refuses, which it expects."""
    want(0 <= number < sender.top, rule, f"number {number} was not sent")
    expects(end, sender, number, packet)
    return sender.at[number]


def is_not_ready(end, sender, number, packet):
    request = at_request(end, sender, number, packet, "not ready")
    want(request.needs_receive, "not ready", f"number {number} needs no receive")


def is_invalid(end, sender, number, packet):
    request = at_request(end, sender, number, packet, "invalid request")
    unaligned = request.lands and request.packet.opcode != READ_REQUEST and request.packet.fields["address"] % 8
    want(request.part and request.is_send or unaligned, "invalid request", f"number {number} is a request in its place, of the right size")
    end.has_ended = True


def is_denied(end, sender, number, packet):
    fields = at_request(end, sender, number, packet, "remote access error").packet.fields
    want("rkey" in fields and fields.get("length", 8), "remote access error", f"number {number} names no memory")
    end.has_ended = True


def is_operational(*_):
    raise Broken("operational error", "no device of this protocol sends it")


ACKNOWLEDGES = {
    ACK: acknowledges, RNR: is_not_ready, SEQUENCE: is_ahead, INVALID: is_invalid, ACCESS: is_denied,
    "NAK remote operational error": is_operational,
}


def sends_acknowledge(end, packet):
    sender = end.partner
    number = near(sender.start, packet.psn, sender.top)
    ACKNOWLEDGES[packet.kind](end, sender, number, packet)
    acked = number + (packet.kind == ACK)
    sender.most_ack = max(sender.most_ack, acked)
    sender.places.add(acked)
    raise_una(sender)


def is_response_of(first, length, number, packet, mtu):
    """The answer of a READ request to this number: its kind by its place, and its size."""
    count, place = pieces(length, mtu), number - first
    opcode = 0x10 if count == 1 else 0x0D if place == 0 else 0x0F if place + 1 == count else READ_MIDDLE
    return packet.opcode == opcode and len(packet.payload) == min(mtu, length - place * mtu)


def sends_bytes(end, packet):
    """A READ response or an old value."""
    sender = end.partner
    number = near(sender.start, packet.psn, sender.top)
    if packet.opcode == ATOMIC_ANSWER:
        is_atomic = 0 <= number < sender.top and sender.at[number].packet.opcode in (COMPARE_SWAP, FETCH_ADD)
        want(is_atomic, "atomic reply", f"number {number} is no atomic that was sent")
        before = end.old.setdefault(number, packet.fields["old"])
        want(before == packet.fields["old"], "atomic reply", f"the old value of number {number} was {before} before")
    else:
        asked = sender.asked.get(number, ())
        fits = any(is_response_of(first, length, number, packet, sender.mtu) for first, length in asked)
        want(fits, "READ response", f"no READ request for number {number} is answered by this kind with {len(packet.payload)} bytes")
    end.least = max(end.least, sender.at[number].first + sender.at[number].span)
    if packet.opcode != READ_MIDDLE:
        count_finished(end, sender, end.least, sender.top, packet)
    sender.landed.add(number)
    sender.most_ack = max(sender.most_ack, number + 1)
    sender.places.add(number + 1)
    raise_una(sender)


# ---- moving

def sends_resume(end, source, packet):
    count = packet.fields["count"]
    want(packet.address == source, "RESUME", f"it tells {shown_address(packet.address, True)}, and comes from {shown_address(source, True)}")
    want(max(1, end.own, end.husk + 1) <= count <= MOST_MOVES, "RESUME", f"it tells move count {count}, and the end moved {max(end.own, end.husk + 1)} times at least")
    want(end.lived.get(count, source) == source, "RESUME", f"at move count {count} the end lived at {shown_address(end.lived.get(count, source), True)}")
    want(count > end.own or not end.has_run, "RESUME", "the end runs again, and sent requests since")
    end.resumed.add(count)
    if count > end.own:
        end.own, end.home, end.is_resuming, end.has_run = count, source, True, False
        end.lived[count] = source


def sends_resume_ack(end, packet):
    """It is told before the address is looked at, since it is sent to where the partner is from now on."""
    count, partner = packet.fields["count"], end.partner
    want(count >= max(1, end.recorded), "RESUME_ACK", f"it tells move count {count}, and {end.recorded} is recorded")
    want(count in partner.resumed and partner.lived[count] == packet.address, "RESUME_ACK", "no RESUME with this body was sent")
    end.recorded, end.partner_address = count, packet.address
    if count == partner.own:
        partner.is_resuming = False


def sends_stopped(end, source, target, packet):
    """What a husk of the end answers."""
    count = packet.fields["msn"]
    want((source, target, packet.psn) in end.reached, "husk", f"no datagram with this number came to {shown_address(source, True)} from where it answers")
    want(end.lived.get(count, source) == source, "husk", f"at move count {count} the end lived at {shown_address(end.lived.get(count, source), True)}")
    want(not end.has_ended, "Error", "an end in Error leaves nothing in a husk")
    want(count <= MOST_MOVES, "husk", f"no end moves {count} times")
    end.lived[count] = source
    end.husk = max(end.husk, count)


# ---- every datagram of an end

def sends(end, source, target, packet, has_choices=True):
    """Raises Broken where the end would not send this."""
    if packet.is_nak_stopped:
        sends_stopped(end, source, target, packet)
        return
    want(not end.has_ended, "Error", "the end went to Error with its NAK, and sends nothing more")
    if packet.opcode == RESUME_ACK_OPCODE:
        sends_resume_ack(end, packet)
    if packet.opcode == RESUME_OPCODE:
        sends_resume(end, source, packet)
    want(source in end.lived.values(), "address", f"the end was never at {shown_address(source, True)}")
    want(target == end.partner_address, "address", f"the partner is at {shown_address(end.partner_address, True)}, as far as the end was told")
    want(not has_choices or packet.is_request or not packet.ack_request, "ack request", "an answer asks for an acknowledgement")
    if not packet.is_moving:
        end.partner.reached.add((target, source, packet.psn))
    if packet.is_request:
        sends_request(end, source, packet, has_choices)
    elif packet.opcode in READ_RESPONSES or packet.opcode == ATOMIC_ANSWER:
        sends_bytes(end, packet)
    elif not packet.is_moving:
        sends_acknowledge(end, packet)

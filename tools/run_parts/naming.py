"""The inner steps of the packetless machine at an event of a device, by name, as `Named` and `Carries` of crates/law_simulation say.

What the device answered, the state of the machine and the number that a datagram was sent with say which steps they are, in which
order. So whether the machine can make them tests the device, and nothing is searched for.
"""
from look_parts.datagrams import ACKNOWLEDGE, REQUESTS
from run_parts.numbers import Numbers, span

READ_RESPONSES, ATOMIC_RESPONSE = range(0x0D, 0x11), 0x12
SEQUENCE, INVALID, ACCESS = 0, 1, 2
# What an acknowledgement was taken for where it was not useless.
LEARNED = ("ACKED", "REWOUND", "WAITS", "ENDED")
REFUSALS = ("invalid", "access", "length")


def class_of(packet):
    """What a datagram is to the machine; None is a message of moving, or what no end sends."""
    if packet.opcode in REQUESTS:
        return "request"
    if packet.opcode in READ_RESPONSES:
        return "read"
    if packet.opcode == ATOMIC_RESPONSE:
        return "atomic"
    if packet.opcode != ACKNOWLEDGE:
        return None
    kind, code = packet.fields["syndrome"] >> 5 & 3, packet.fields["syndrome"] & 31
    if kind < 2:
        return ("ack", "not ready")[kind]
    return {SEQUENCE: "sequence", INVALID: "refusal", ACCESS: "refusal"}.get(code)


class Naming:
    """Makes the steps that are named, in a machine. `make` takes a step and its fields, and says whether it is enabled."""

    def __init__(self, machine, make):
        self.machine, self.make, self.known = machine, make, {}

    def numbers(self, name):
        """The packet numbers of an end."""
        if name not in self.known:
            self.known[name] = Numbers(self.machine.end(name))
        return self.known[name]

    # ---- a request arrives at the peer of `q`

    def request(self, q, number, length):
        """Request `number` of `q`, with so many bytes of payload, arrives."""
        numbers = self.numbers(q)
        if number == numbers.due():
            self.expected(q, length)
        elif number < numbers.due():
            self.repeated(q, numbers.request_of(number), numbers.piece_of(number))

    def expected(self, q, length):
        """Exactly one of run, atom and turn where it is enabled, else a refusal where one is, else dry; offers follow a turn."""
        place = self.machine.end(q).acted
        if self.make("run", q, length) or self.make("atom", q):
            return
        if self.make("turn", q):
            self.offers(q, place, 0)
        elif not any(self.make("refuse", q, why) for why in REFUSALS):
            self.must("dry", q)

    def repeated(self, q, place, piece):
        """A repeated READ gets an offer for each response, where the rest asked for is granted now."""
        end = self.machine.end(q)
        request = end.posted[place]
        begin = piece * end.mtu
        peer = self.machine.end(end.peer)
        context = self.machine.place(peer)
        if request.kind == "read" and context.granted(
                peer.domain, request.rkey, request.raddress + begin, request.length - begin, "r", True):
            self.offers(q, place, piece)

    def offers(self, q, place, piece):
        """One offer for each response of a READ, from that piece on."""
        end = self.machine.end(q)
        request = end.posted[place]
        for at in range(piece, span(request, end.mtu)):
            self.must("offer", q, place, at * end.mtu, min(end.mtu, request.length - at * end.mtu))

    def must(self, step, q, *fields):
        """Makes a step that is named without a condition."""
        self.make(step, q, *fields, always=True)

    # ---- a response arrives at `q`

    def response(self, q, number, packet, kind, took, is_rnr):
        """A response with that number arrives, and was taken so. `is_rnr`: it ended the queue pair after the last of its waits."""
        if kind == "read":
            if took == "LANDED":
                self.landing(q, number, packet.payload)
        elif kind == "atomic":
            if took == "LANDED":
                self.learning(q, number)
                self.must("tell", q)
        elif took in LEARNED:
            limit = number + 1 if kind == "ack" else number
            self.learning(q, min(limit, self.numbers(q).barrier()))
            if took == "WAITS" or took == "ENDED" and is_rnr:
                self.must("wait", q)
            elif took == "ENDED":
                self.must("bounce", q)

    def learning(self, q, number):
        """All numbers below this one are in place: a tell for each request before, and the known bytes inside its request."""
        end, numbers = self.machine.end(q), self.numbers(q)
        if numbers.oldest() >= number:
            return
        place, known = numbers.request_of(number), numbers.piece_of(number) * end.mtu
        for _ in range(place - end.told):
            self.must("tell", q)
        if known:
            self.must("known", q, known)

    def landing(self, q, number, data):
        """The bytes of a READ response land, and after its last piece the READ is told."""
        end, numbers = self.machine.end(q), self.numbers(q)
        place, piece = numbers.request_of(number), numbers.piece_of(number)
        is_last = piece + 1 == span(end.posted[place], end.mtu)
        wanted = (place, piece * end.mtu, data)
        offer = next((at for at, it in enumerate(end.offers) if it == wanted), len(end.offers))
        self.learning(q, number)
        if data:
            self.must("land", q, offer)
        if is_last:
            self.must("tell", q)

    # ---- events

    def arrival(self, q, is_paused, number, packet, took, is_rnr):
        """A datagram was taken by a device where the queue pair `q`, for which it is, lives and is connected and not in Error."""
        kind = class_of(packet)
        if number is None or kind is None:
            return
        if kind != "request":
            self.response(q, number, packet, kind, took, is_rnr)
        elif not is_paused:
            self.request(self.machine.end(q).peer, number, len(packet.payload))

    def expiry(self, q, is_counted):
        """The retransmission timer of `q` expired."""
        if is_counted:
            self.must("expire", q)

"""Several devices of the C library as nodes over a network in memory, and the record of all that they are asked and answer.

Its lines are those of a script (docs/scripts.md), with two differences: `link` connects one end alone, in the words of `connect`, and
each verb is asked where its context lives. Lines that break a premise of the law are passed over: a `stop` where a partner is carried
or resuming, a datagram that comes 2^22 numbers late, a verb of a context that is carried.
"""
from jichurpa.enums import Answer, State, Took, WcStatus
from jichurpa.errors import Refused
from jichurpa.play import answers
from jichurpa.play.lines import parse_line
from jichurpa.play.world import Carried, World
from run_parts.record import Record

POSTED = ("write", "send", "read", "cas", "add")
VERBS = ("domain", "region", "cq", "qp", "drop", "store", "load", "recv", "poll", *POSTED)


class Passed(Exception):
    """The line is passed over, and why."""


class Nodes(World):
    """The nodes of a run, with ids from 1 on. `do` does a line, and gives its answer."""

    def __init__(self, count):
        super().__init__()
        self.record = Record()
        self.linked, self.done = {}, 0
        for id in range(1, count + 1):
            self.do(f"device {id} 10.0.0.{id}")

    def do(self, text):
        """Does a line. Its answer; None where it is passed over. Raises Disagreement."""
        said = parse_line((f"connect{text[4:]}" if text.startswith("link ") else text).encode())
        try:
            answer = self.answered(text, said)
        except Passed:
            return None
        except Refused as refusal:
            answer = f"refused {refusal.cause.word}"
            if said.word == "connect":
                return answer
        self.done += 1
        self.note(text, said, answer)
        return answer

    def answered(self, text, said):
        """The answer of the node, or of the network."""
        if said.word in VERBS and said.fields[0].context in self.carried:
            raise Passed("its context is carried")
        if said.word == "connect":
            return self.link(*said.fields)
        return getattr(self, said.word)(*said.fields)

    def note(self, text, said, answer):
        """Puts what was heard into the record."""
        if said.word == "context":
            made = "made" if said.fields[1] in self._devices else "none"
            self.record.verb(f"context {said.fields[0]} {made}", answer)
        elif said.word == "connect" and answer == "ok":
            one, two = (tuple(name) for name in said.fields[:2])
            self.record.linked(one, two, text.split(None, 3)[3])
        elif said.word in VERBS:
            self.note_verb(text, said, answer)

    def note_verb(self, text, said, answer):
        """A verb of an application; a request at an end whose partner alone is connected comes before that connection."""
        name = tuple(said.fields[0])
        pair = next((pair for pair in self.record.connects if name in pair), None)
        if answer == "refused BadState" and pair and name not in self.linked:
            self.record.early(text, answer, pair)
        else:
            self.record.verb(text, answer)

    # ---- lines that are others than those of a world

    def link(self, one, two, terms):
        """Connects one end to another, at the address where that lives now."""
        if any(name.context in self.carried for name in (one, two)):
            raise Passed("a context is carried")
        name, partner = tuple(one), tuple(two)
        agreed = self.linked.get(partner)
        if agreed and agreed != (name, terms.exchanged()) or one.context == two.context:
            raise Passed("the lines do not pair up")
        if any(name in pair and partner not in pair or partner in pair and name not in pair for pair in self.record.connects):
            raise Passed("the lines do not pair up")
        there = self.end(two)
        found = there.find()
        if found is None or self.end(one).find() is None:
            raise Passed("an end is not there")
        self.end(one).connect(found.number, there.device.address, terms)
        self.linked[name] = partner, terms
        return answers.OK

    def deliver(self, k):
        """The network hands datagram k to its device."""
        flight = self.network.kept(k)
        device = self.receiver(flight) if flight else None
        if device is None or flight.lost:
            return "gone"
        if self._is_aged(flight):
            raise Passed("it is too late")
        before = device.numbered(flight.queue_pair)
        arrival = device.arrive(flight.source, flight.data)
        self.network.take(k)
        first = self.network.send(flight.datagram.to, arrival.sent)
        is_rnr = arrival.took == Took.ENDED and arrival.detail == WcStatus.RNR_EXCEEDED
        self.record.arrival(before, flight.datagram.number, flight.data, arrival.took.name, is_rnr)
        return answers.took_text(arrival, first)

    def expire(self, end):
        """The retransmission timer expires."""
        expiry = self.end(end).expire()
        self.record.expiry(tuple(end), expiry.answer in (Answer.EXPIRED, Answer.SPENT))
        return answers.expiry_text(expiry)

    def partners(self, context):
        """The ends that ends of a context are connected to, or are to be."""
        for pair in self.record.connects:
            one, two = pair
            if context in (one[0], two[0]):
                yield two if one[0] == context else one

    def stop(self, name):
        """The context leaves its device, as a node stops it, unless the partner of an end is carried or resuming."""
        context = self.home(name)
        resuming = {(info.context, info.name) for info in self.live_ends() if info.state == State.RESUMING}
        if any(partner[0] in self.carried or partner in resuming for partner in self.partners(name)):
            raise Passed("a partner moves")
        with context.stop_image() as image:
            self.carried[name] = Carried(bytes(image), image.queue_pairs())
        del self._homes[name]
        self._stopped.add(name)
        return "stopped"

"""The packetless machine as the search has it: states that can be kept and taken up again, and what is due in them."""
import copy

from run_parts.numbers import ATOMICS, span
from trace_parts.machine import Context, Illegal, Machine, Queue, Refused, Region, refuse_if

POSTED, FLUSH = ("write", "send", "read", "cas", "add"), 5
STATIC = ("context", "domain", "region", "cq", "qp", "connect")
WORD = 8
# Among so many of the last offers of an end that of a piece is looked for.
RECENT = 512


class Mismatch(Exception):
    """A completion that its queue does not hand out next; the queue is in the field `key`."""

    def __init__(self, key):
        super().__init__(key)
        self.key = key


class Probed(Exception):
    """A verb is not refused."""


class Known(Machine):
    """The machine where it is known what each completion queue hands out."""

    def __init__(self, sequences):
        super().__init__()
        self.sequences, self.pushed, self.probing = sequences, {}, False

    def complete(self, end, queue, line):
        key = end.name[0], queue
        at, sequence = self.pushed.get(key, 0), self.sequences.get(key, ())
        if at < len(sequence) and sequence[at] != line:
            raise Mismatch(key)
        self.pushed[key] = at + 1
        super().complete(end, queue, line)

    def post(self, name, request):
        if not self.probing:
            return super().post(name, request)
        self.may_post(name, request)
        raise Probed

    def may_receive(self, name, lkey, address, length):
        end = super().may_receive(name, lkey, address, length)
        if self.probing:
            raise Probed
        return end

    def may_drop(self, name):
        context = super().may_drop(name)
        if self.probing:
            raise Probed
        return context

    def store_verb(self, given, name, address, data):
        if not self.probing:
            return super().store_verb(given, name, address, data)
        refuse_if(not self.thing("regions", name).holds(address, len(data)), "BadKey")
        raise Probed

    def copy(self):
        """The same state, apart from this one."""
        other = copy.copy(self)
        other.contexts = {name: copied_context(context) for name, context in self.contexts.items()}
        other.keys, other.numbers, other.pushed = set(self.keys), set(self.numbers), dict(self.pushed)
        return other


def copied_context(context):
    """A context with its things."""
    other = Context()
    other.domains = set(context.domains)
    other.regions = {name: Region(it.domain, it.base, it.rights, it.local, bytearray(it.data)) for name, it in context.regions.items()}
    other.queues = {name: Queue(it.capacity, list(it.entries)) for name, it in context.queues.items()}
    other.ends = {name: copied_end(end) for name, end in context.ends.items()}
    return other


def copied_end(end):
    """An end. Requests and receives do not change once they are made."""
    other = copy.copy(end)
    other.posted, other.offers, other.unused = list(end.posted), list(end.offers), list(end.unused)
    other.old, other.dry = dict(end.old), set(end.dry)
    return other


class State:
    """A state of the machine, and the lines of the trace that led to it."""

    def __init__(self, sequences, source):
        self.machine, self.source = Known(sequences), source
        # (states that are kept share what led to them: each part is a pair of what is before and lines)
        self.trace, self.made = None, 0

    def saved(self):
        return self.machine.copy(), self.trace, self.made

    def restore(self, saved):
        machine, self.trace, self.made = saved
        self.machine = machine.copy()

    def add(self, lines):
        """Lines of the trace come."""
        self.trace, self.made = (self.trace, lines), self.made + 1

    def lines(self):
        """The trace so far."""
        parts, part = [], self.trace
        while part:
            part, lines = part
            parts.append(lines)
        return [line for lines in reversed(parts) for line in lines]

    def mark(self):
        """What the rest of a run can depend on."""
        machine = self.machine
        regions = tuple(bytes(region.data) for context in machine.contexts.values() for region in context.regions.values())
        ends = tuple(
            (it.told, it.known, it.acted, it.into, it.refused, it.ended, it.spent, it.waits, len(it.unused), bool(it.in_use), tuple(sorted(it.dry)),
             tuple(it.old.get(place) for place in range(it.told, it.acted)), tuple(request.payload for request in it.posted[it.acted:]),
             tuple(offer for offer in it.offers[-RECENT:] if offer[0] >= it.told))
            for context in machine.contexts.values() for it in context.ends.values())
        return hash((regions, ends, tuple(sorted(machine.pushed.items()))))

    # ---- verbs and steps

    def speak(self, line, word, fields, answers):
        """Makes a verb. Whether its answer is the right one; if not, the state is of no use."""
        try:
            self.machine.speak(line, word, fields, answers)
        except Illegal:
            return False
        self.add(self.source[line - 1 : line + len(answers)])
        return True

    def step(self, step, name, *fields):
        """Makes an inner step. Whether it is enabled."""
        if not getattr(self.machine, step + "_step")(self.machine.end(name), *fields):
            return False
        self.add([" ".join(map(str, ("i", step, ".".join(name), *fields)))])
        return True

    def answer(self, word, fields):
        """The lines that a `load` is answered by."""
        try:
            return getattr(self.machine, word + "_verb")(None, *fields)
        except Refused as refused:
            return [f"refused {refused}"]

    def polled(self, fields):
        """The lines that a `poll` is answered by. No completion is taken."""
        try:
            return self.machine.thing("queues", fields[0]).entries[: fields[1]] or ["none"]
        except Refused as refused:
            return [f"refused {refused}"]

    def refusal(self, word, fields):
        """Why a verb is refused, or None. Nothing changes."""
        machine = self.machine.copy() if word in STATIC else self.machine
        machine.probing = word not in STATIC
        try:
            getattr(machine, word + "_verb")(lambda *_: 0, *fields)
        except Refused as refused:
            return str(refused)
        except Probed:
            return None
        finally:
            machine.probing = False
        return None

    # ---- completion queues

    def entries(self, queue):
        context = self.machine.contexts.get(queue[0])
        return context.queues[queue[1]].entries if context and queue[1] in context.queues else []

    def pushed(self, key):
        return self.machine.pushed.get(key, 0)

    def to_come(self, key):
        """The lines that a queue hands out, of completions that are not made yet."""
        return self.machine.sequences.get(key, [])[self.pushed(key):]

    def next_line(self, key):
        """The first of them, or None."""
        sequence, at = self.machine.sequences.get(key, ()), self.pushed(key)
        return sequence[at] if at < len(sequence) else None

    def lines_of(self, name, receives):
        """The words of the lines to come of the requests or of the receives of an end."""
        end = self.machine.end(name)
        queue = end.receive_queue if receives else end.send_queue
        for line in self.to_come((name[0], queue)):
            words = line.split()
            if int(words[1], 16) == end.number and words[3].startswith("recv") == receives:
                yield words

    def will_end(self, name, status):
        return any(int(words[4]) == status for words in self.lines_of(name, False))

    def will_fail(self, name):
        """A request or a receive of an end does not succeed, as far as it is polled."""
        return any(words[4] not in "01" for is_receive in (False, True) for words in self.lines_of(name, is_receive))

    def first_error(self, name):
        """The status of the first request of an end that does not succeed, as far as it is polled; else None."""
        return next((int(words[4]) for words in self.lines_of(name, False) if words[4] != "0"), None)

    def error_id(self, name):
        """The id of that request."""
        return next((int(words[2]) for words in self.lines_of(name, False) if words[4] != "0"), None)

    def due_successes(self, name, peer):
        """Something that succeeds later has not acted yet: a request of an end, or a receive of its peer."""
        if any(words[4] == "0" for words in self.lines_of(peer, True)):
            return True
        end = self.machine.end(name)
        places = [place for place in range(end.told, len(end.posted)) if end.posted[place].signaled]
        count = sum(words[4] == "0" for words in self.lines_of(name, False))
        if not count or count > len(places):
            return False
        last = places[count - 1]
        due = self.due_offer(name)
        return end.acted <= last or due is not None and due[0] <= last

    def request_line(self, end, request, status):
        return f"wc {end.number:06x} {request.id} {request.kind} {status} {request.length if status == 0 else 0}"

    def receive_line(self, name, piece):
        """The completion at the peer of an end, where so many bytes more make its message whole; else None."""
        end, request = self.machine.end(name), self.current(name)
        peer = self.machine.end(end.peer)
        if end.into + piece < request.length or request.kind == "write" and request.immediate is None:
            return None
        receives = peer.unused if request.kind == "write" else peer.receives()
        if not receives:
            return None
        kind = "recvimm" if request.kind == "write" else "recv"
        more = "" if request.immediate is None else f" imm {request.immediate:08x}"
        return f"wc {peer.number:06x} {receives[0].id} {kind} 0 {request.length}{more}"

    def flushed(self, word, fields):
        """The queue and the completion of what is posted to an end that failed; else two times None."""
        end = self.machine.end(fields[0]) if word == "recv" or word in POSTED else None
        if not end or not end.ended:
            return None, None
        queue = end.receive_queue if word == "recv" else end.send_queue
        return queue, f"wc {end.number:06x} {fields[1]} {word} {FLUSH} 0"

    def numbered(self, number):
        """The end with a number."""
        for context in self.machine.contexts.values():
            for end in context.ends.values():
                if end.number == number:
                    return end.name
        return None

    # ---- what is due

    def current(self, name):
        """The request of an end that has its turn at the peer, or None."""
        return self.machine.current(self.machine.end(name))

    def why_refused(self, name):
        """Why the next piece of the current request of an end is refused, or None. Of a SEND that is too long the first pieces may fit."""
        end, request = self.machine.end(name), self.current(name)
        why = self.machine.why_refused(end, request)
        fits = why == "length" and end.into + min(end.mtu, request.length - end.into) <= self.machine.end(end.peer).receives()[0].length
        return None if fits else why

    def is_fenced(self, name):
        """A fence holds the next request back."""
        end = self.machine.end(name)
        return not end.ended and end.acted < len(end.posted) and bool(end.untold()) and not self.machine.end(end.peer).ended and self.current(name) is None

    def due_offer(self, name):
        """The first piece of a READ that had its turn and is not told, of which no offer was made; else None."""
        end = self.machine.end(name)
        if end.ended:
            return None
        for place in range(end.told, end.acted):
            request = end.posted[place]
            if request.kind == "read" and request.length:
                first = -(-end.known // end.mtu) if place == end.told else 0
                for piece in range(first, span(request, end.mtu)):
                    if self.offer_of(end, place, piece) is None:
                        return place, piece
        return None

    @staticmethod
    def offer_of(end, place, piece):
        """The number of the last offer of a piece of a READ, or None."""
        least = max(0, len(end.offers) - RECENT)
        for at in range(len(end.offers) - 1, least - 1, -1):
            if end.offers[at][0] == place and end.offers[at][1] == piece * end.mtu:
                return at
        return None

    def connected(self):
        """All ends that are connected."""
        for context in self.machine.contexts.values():
            for end in context.ends.values():
                if end.peer:
                    yield end

    def quiet_ends(self, name, is_receive):
        """The ends of a context that have an unsignaled request untold, in the queue that a verb of this end needs room in."""
        end = self.machine.end(name)
        queue = end.receive_queue if is_receive else end.send_queue
        for other in self.machine.contexts[name[0]].ends.values():
            if other.send_queue == queue and any(not request.signaled for request in other.untold()):
                yield other.name

    def untold_ends(self, context):
        return [end.name for end in self.machine.contexts[context].ends.values() if end.untold()]

    def acting_on(self, context):
        """The ends that have a current request at a context."""
        return [end.name for end in self.connected() if end.peer[0] == context and self.current(end.name)]

    def ends_towards(self, region):
        """The ends whose peers are in the context of a region."""
        return [end.name for end in self.connected() if end.peer[0] == region[0]]

    def needs_region(self, name, region):
        """A request of an end that has not acted, or a READ of it that is not offered, names a region of its peer's context."""
        found = self.machine.contexts[region[0]].regions.get(region[1])
        end = self.machine.end(name)
        if found is None or self.machine.end(end.peer).ended:
            return False
        due = self.due_offer(name)
        if due and end.posted[due[0]].rkey == found.local + 1:
            return True
        return any(request.rkey == found.local + 1 and request.length for request in end.posted[end.acted:] if request.kind != "send")

    # ---- bytes that are touched: the context, the region's local key, from, to, whether they are written

    def span(self, name, address, length, is_written):
        """The bytes of a region by its name."""
        region = self.machine.contexts[name[0]].regions.get(name[1]) if name[0] in self.machine.contexts else None
        return name[0], region.local if region else None, address, address + length, is_written

    def touched(self, word, fields):
        """What a verb touches."""
        if word == "store":
            return [self.span(fields[0], fields[1], len(fields[2]), True)]
        if word in ("write", "send") and fields[4]:
            return [(fields[0][0], fields[2], fields[3], fields[3] + fields[4], False)]
        return []

    def act_spans(self, name, piece):
        """What the next piece of the current request touches at the peer."""
        end, request = self.machine.end(name), self.current(name)
        if request.kind == "send":
            receives = self.machine.end(end.peer).receives()
            if not receives:
                return []
            return [(end.peer[0], receives[0].lkey, receives[0].address + end.into, receives[0].address + end.into + piece, True)]
        begin = request.raddress + end.into
        return [(end.peer[0], request.rkey - 1, begin, begin + piece, True)]

    def offer_spans(self, name, place, begin, length):
        end = self.machine.end(name)
        request = end.posted[place]
        return [(end.peer[0], request.rkey - 1, request.raddress + begin, request.raddress + begin + length, False)]

    def land_spans(self, name):
        """What the next piece of a READ, or an old value, touches at its owner."""
        end = self.machine.end(name)
        request = end.untold()[0]
        begin = request.address + (end.known if request.kind == "read" else 0)
        length = min(end.mtu, request.length - end.known) if request.kind == "read" else WORD
        return [(name[0], request.lkey, begin, begin + length, True)]

    def pending(self, span):
        """The first act, offer and landing of each end that is due and touches these bytes: the end, which, the request, the piece."""
        context, key, begin, end, is_written = span
        if key is None or begin == end:
            return
        for it in self.connected():
            if it.peer[0] == context and not self.machine.end(it.peer).ended:
                yield from self.first("act", it, self.acts(it, key), begin, end)
                if is_written and not it.ended:
                    yield from self.first("offer", it, self.offers(it, key), begin, end)
            if it.name[0] == context and not it.ended:
                yield from self.first("land", it, self.lands(it, key), begin, end)

    def writers(self, span):
        """All that is due and writes these bytes: from, to, and the bytes, or None where they are not known yet."""
        context, key, begin, end, _ = span
        for it in self.connected():
            if it.peer[0] == context and not self.machine.end(it.peer).ended:
                for place, piece, low, high in self.acts(it, key):
                    if low < end and begin < high:
                        yield low, high, self.written(it, place, piece)
            if it.name[0] == context and not it.ended:
                yield from ((low, high, None) for _, _, low, high in self.lands(it, key) if low < end and begin < high)

    @staticmethod
    def written(it, place, piece):
        """What a piece of a request writes at the peer, or None where that depends on the memory."""
        request = it.posted[place]
        return None if request.lands() else request.payload[piece * it.mtu : (piece + 1) * it.mtu]

    def may_become(self, span, wanted):
        """Each byte is the one that is wanted, or something is due that may write it."""
        context, key, begin, end, _ = span
        found = self.machine.contexts[context].region(key, False).cut(begin, end - begin) if key is not None else b""
        lacking = {at for at, pair in enumerate(zip(found, wanted)) if pair[0] != pair[1]}
        for low, high, data in self.writers(span):
            if not lacking:
                break
            covered = range(max(low, begin) - begin, min(high, end) - begin)
            lacking -= {at for at in covered if data is None or data[at + begin - low] == wanted[at]}
        return not lacking

    def spoils(self, step, span, wanted):
        """How many of the bytes a step makes others than those that are wanted."""
        name, kind, place, piece = step
        end, begin = self.machine.end(name), span[2]
        data = self.written(end, place, piece) if kind == "act" else None
        if data is None:
            return 0
        low = next(low for at, part, low, _ in self.acts(end, span[1]) if (at, part) == (place, piece))
        return sum(begin <= low + at < span[3] and byte != wanted[low + at - begin] for at, byte in enumerate(data))

    @staticmethod
    def first(kind, it, spans, begin, end):
        """The first of some spans that meets these bytes."""
        for place, piece, low, high in spans:
            if low < end and begin < high:
                yield it.name, kind, place, piece
                return

    @staticmethod
    def pieces(place, base, length, mtu, first):
        for piece in range(first, -(-length // mtu)):
            yield place, piece, base + piece * mtu, base + min(length, (piece + 1) * mtu)

    def acts(self, it, key):
        """What the requests that have not acted write in a region of the peer."""
        receives, used = self.machine.end(it.peer).receives(), 0
        for place in range(it.acted, len(it.posted)):
            request = it.posted[place]
            first = it.into // it.mtu if place == it.acted else 0
            if request.kind == "send":
                if used < len(receives) and receives[used].lkey == key:
                    yield from self.pieces(place, receives[used].address, request.length, it.mtu, first)
                used += 1
            elif request.kind != "read" and request.rkey == key + 1:
                yield from self.pieces(place, request.raddress, request.length, it.mtu, first)
            used += request.kind == "write" and request.immediate is not None

    def offers(self, it, key):
        """What the READs of an end that are not offered yet read in a region of the peer."""
        for place in range(it.told, len(it.posted)):
            request = it.posted[place]
            if request.kind == "read" and request.rkey == key + 1:
                first = -(-it.known // it.mtu) if place == it.told else 0
                for found in self.pieces(place, request.raddress, request.length, it.mtu, first):
                    if place >= it.acted or self.offer_of(it, place, found[1]) is None:
                        yield found

    def lands(self, it, key):
        """What READs and atomics of an end that are not told write in a region of their owner."""
        for place in range(it.told, len(it.posted)):
            request = it.posted[place]
            if request.kind == "read" and request.lkey == key:
                yield from self.pieces(place, request.address, request.length, it.mtu, -(-it.known // it.mtu) if place == it.told else 0)
            elif request.kind in ATOMICS and request.lkey == key:
                yield place, 0, request.address, request.address + WORD

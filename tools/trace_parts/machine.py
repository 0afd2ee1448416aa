"""The packetless machine as docs/headline.md and docs/scripts.md tell of it, without any code of the program.

It applies the verbs and inner steps of a trace, and says which is the first that it can not make.
"""
from dataclasses import dataclass, field

from trace_parts import grammar

MOST_BYTES = 2**20
REMOTE = {"write": "w", "read": "r", "cas": "a", "add": "a"}
ATOMICS = ("cas", "add")


class Refused(Exception):
    """A verb is refused for this cause."""


class Illegal(Exception):
    """The line that can be of no run, and why."""

    def __init__(self, line, why):
        self.line, self.why = line, why


def refuse_if(holds, cause):
    if holds:
        raise Refused(cause)


@dataclass
class Region:
    domain: str
    base: int
    rights: set
    local: int
    data: bytearray

    def holds(self, address, length):
        return self.base <= address and address + length <= self.base + len(self.data)

    def cut(self, address, length):
        return bytes(self.data[address - self.base:][:length])

    def put(self, address, data):
        self.data[address - self.base:address - self.base + len(data)] = data


@dataclass
class Queue:
    capacity: int
    entries: list = field(default_factory=list)


@dataclass
class Receive:
    id: int
    lkey: int
    address: int
    length: int


@dataclass
class Request:
    kind: str
    id: int
    lkey: int
    address: int
    length: int
    raddress: int = 0
    rkey: int = 0
    operands: tuple = ()
    immediate: int = None
    fenced: bool = False
    signaled: bool = True
    payload: bytes = b""

    def lands(self):
        return self.kind not in ("write", "send")


@dataclass
class End:
    name: tuple
    number: int
    domain: str
    send_queue: str
    receive_queue: str
    send_depth: int
    receive_depth: int
    peer: tuple = None
    mtu: int = 0  # no step looks at it
    retry: int = 0
    rnr: int = 0
    posted: list = field(default_factory=list)
    told: int = 0  # requests that are finished for the owner
    known: int = 0  # bytes of the first untold one that the owner knows to be in place, or that landed
    acted: int = 0  # requests that have acted at the peer
    into: int = 0  # bytes of the next one that are in place there
    old: dict = field(default_factory=dict)  # the old values of atomics, by their number
    refused: str = None  # why the request behind those that acted is refused
    offers: list = field(default_factory=list)
    dry: set = field(default_factory=set)
    spent: int = 0
    waits: int = 0
    unused: list = field(default_factory=list)
    in_use: Receive = None
    ended: bool = False

    def untold(self):
        return [] if self.ended else self.posted[self.told:]

    def receives(self):
        return ([self.in_use] if self.in_use else []) + self.unused


class Context:
    def __init__(self):
        self.domains, self.regions, self.queues, self.ends = set(), {}, {}, {}

    def reserved(self, queue):
        return sum(len(end.untold()) for end in self.ends.values() if end.send_queue == queue) + sum(
            len(end.receives()) for end in self.ends.values() if end.receive_queue == queue)

    def region(self, key, remote):
        for region in self.regions.values():
            if region.local + (1 if remote else 0) == key:
                return region

    def granted(self, domain, key, address, length, right, remote):
        """Whether the place is granted; no right is asked for where that is empty."""
        if length == 0:
            return True
        region = self.region(key, remote)
        return bool(region) and region.domain == domain and set(right) <= region.rights and region.holds(address, length)


class Machine:
    def __init__(self):
        self.contexts, self.keys, self.numbers = {}, set(), set()

    # ---- what is there

    def context(self, name):
        refuse_if(name not in self.contexts, "NoSuch")
        return self.contexts[name]

    def thing(self, kind, name):
        """A domain, region, queue or end of that name, of the context of the line."""
        things = getattr(self.context(name[0]), kind)
        refuse_if(name[1] not in things, "NoSuch")
        return things[name[1]]

    @staticmethod
    def own(context, things, name, word):
        """The name of a thing of the same context as the line's."""
        refuse_if(word[0] != name[0] or word[1] not in things, "NoSuch")
        return word[1]

    def end(self, name):
        context = self.contexts.get(name[0])
        return context.ends.get(name[1]) if context else None

    def place(self, end):
        return self.contexts[end.name[0]]

    # ---- verbs; each gives the lines of its answer

    def context_verb(self, given, name, made):
        refuse_if(made == "none", "NoSuch")
        refuse_if(name in self.contexts, "NumberTaken")
        self.contexts[name] = Context()
        return ["ok"]

    def domain_verb(self, given, name):
        context = self.context(name[0])
        refuse_if(name[1] in context.domains, "NumberTaken")
        context.domains.add(name[1])
        return ["ok"]

    def region_verb(self, given, name, domain, base, length, rights):
        context = self.context(name[0])
        domain = self.own(context, context.domains, name, domain)
        refuse_if(name[1] in context.regions, "NumberTaken")
        key = given(self.keys, "region", lambda key: key % 2 == 0)
        context.regions[name[1]] = Region(domain, base, rights, key, bytearray(length))
        return [f"region {key:08x} {key + 1:08x}"]

    def cq_verb(self, given, name, capacity):
        context = self.context(name[0])
        refuse_if(name[1] in context.queues, "NumberTaken")
        context.queues[name[1]] = Queue(capacity)
        return ["ok"]

    def qp_verb(self, given, name, domain, send_queue, receive_queue, send_depth, receive_depth):
        context = self.context(name[0])
        domain = self.own(context, context.domains, name, domain)
        send_queue, receive_queue = (self.own(context, context.queues, name, word) for word in (send_queue, receive_queue))
        refuse_if(name[1] in context.ends, "NumberTaken")
        number = given(self.numbers, "qp", lambda number: True)
        context.ends[name[1]] = End(name, number, domain, send_queue, receive_queue, send_depth, receive_depth)
        return [f"qp {number:06x}"]

    def connect_verb(self, given, one, two, _mtu, mtu, _psn, x, y, _retry, retry, _rnr, rnr, _reads, reads):
        for name in (one, two):
            self.context(name[0])
        ends = [self.thing("ends", name) for name in (one, two)]
        refuse_if(one[0] == two[0] or any(end.peer for end in ends), "BadState")
        for end, peer in zip(ends, (two, one)):
            end.peer, end.mtu, end.retry, end.rnr = peer, mtu, retry, rnr
        return ["ok"]

    def may_drop(self, name):
        """Refuses to drop a region where it has to be; else its context."""
        region = self.thing("regions", name)
        context = self.contexts[name[0]]
        refuse_if(any(self.is_used(end, region) for end in context.ends.values()), "InUse")
        return context

    def drop_verb(self, given, name):
        context = self.may_drop(name)
        del context.regions[name[1]]
        return ["ok"]

    def is_used(self, end, region):
        """Whether work of the end, or a message in progress towards it, names the region."""
        work = [item for item in [*end.untold(), *end.unused] if item.length] + ([end.in_use] if end.in_use else [])
        coming = self.current(self.end(end.peer)) if end.peer else None
        written = coming and coming.kind == "write" and self.end(end.peer).into and coming.rkey == region.local + 1
        return bool(written) or any(item.lkey == region.local for item in work)

    def store_verb(self, given, name, address, data):
        region = self.thing("regions", name)
        refuse_if(not region.holds(address, len(data)), "BadKey")
        region.put(address, data)
        return ["ok"]

    def load_verb(self, given, name, address, length):
        region = self.thing("regions", name)
        refuse_if(not region.holds(address, length), "BadKey")
        return ["bytes " + region.cut(address, length).hex()]

    def poll_verb(self, given, name, most):
        queue = self.thing("queues", name)
        polled, queue.entries = queue.entries[:most], queue.entries[most:]
        return polled or ["none"]

    def may_receive(self, name, lkey, address, length):
        """Refuses a receive where it has to be; else the end."""
        end, context = self.thing("ends", name), self.contexts[name[0]]
        refuse_if(length > MOST_BYTES, "TooLong")
        refuse_if(not context.granted(end.domain, lkey, address, length, "l", False), "BadKey")
        refuse_if(len(end.unused) >= end.receive_depth, "RqFull")
        self.reserve(context, end.receive_queue)
        return end

    def recv_verb(self, given, name, id_, lkey, address, length):
        end = self.may_receive(name, lkey, address, length)
        receive = Receive(id_, lkey, address, length)
        if end.ended:
            self.receive_done(end, receive, "recv", 5, 0)
        else:
            end.unused.append(receive)
        return ["ok"]

    def may_post(self, name, request):
        """Refuses a request where it has to be; else the end and its context."""
        end, context = self.thing("ends", name), self.contexts[name[0]]
        refuse_if(not end.peer, "BadState")
        refuse_if(request.length > MOST_BYTES, "TooLong")
        right = "l" if request.lands() else ""
        refuse_if(not context.granted(end.domain, request.lkey, request.address, request.length, right, False), "BadKey")
        refuse_if(len(end.untold()) >= end.send_depth, "SqFull")
        self.reserve(context, end.send_queue)
        return end, context

    def post(self, name, request):
        end, context = self.may_post(name, request)
        if end.ended:
            self.request_done(end, request, 5)
            return ["ok"]
        if not request.lands() and request.length:
            request.payload = context.region(request.lkey, False).cut(request.address, request.length)
        end.posted.append(request)
        return ["ok"]

    @staticmethod
    def reserve(context, queue):
        refuse_if(len(context.queues[queue].entries) + context.reserved(queue) >= context.queues[queue].capacity, "CqFull")

    def write_verb(self, given, name, id_, lkey, address, length, raddress, rkey, options):
        return self.post(name, Request("write", id_, lkey, address, length, raddress, rkey, (), *options))

    def read_verb(self, given, name, id_, lkey, address, length, raddress, rkey, options):
        return self.post(name, Request("read", id_, lkey, address, length, raddress, rkey, (), *options))

    def send_verb(self, given, name, id_, lkey, address, length, options):
        return self.post(name, Request("send", id_, lkey, address, length, 0, 0, (), *options))

    def cas_verb(self, given, name, id_, lkey, address, raddress, rkey, compare, swap, options):
        return self.post(name, Request("cas", id_, lkey, address, 8, raddress, rkey, (compare, swap), *options))

    def add_verb(self, given, name, id_, lkey, address, raddress, rkey, value, options):
        return self.post(name, Request("add", id_, lkey, address, 8, raddress, rkey, (value,), *options))

    # ---- completions

    def complete(self, end, queue, line):
        self.place(end).queues[queue].entries.append(line)

    def request_done(self, end, request, status):
        length = request.length if status == 0 else 0
        self.complete(end, end.send_queue, f"wc {end.number:06x} {request.id} {request.kind} {status} {length}")

    def receive_done(self, end, receive, kind, status, length, immediate=None):
        more = "" if immediate is None else f" imm {immediate:08x}"
        self.complete(end, end.receive_queue, f"wc {end.number:06x} {receive.id} {kind} {status} {length}{more}")

    def fail(self, end, first=5):
        """The end has ended: what is left of it is flushed, where its first request gets that status."""
        for place, request in enumerate(end.untold()):
            self.request_done(end, request, 5 if place else first)
        for receive in end.receives():
            self.receive_done(end, receive, "recv", 5, 0)
        end.ended, end.told, end.unused, end.in_use = True, len(end.posted), [], None

    # ---- inner steps; each says whether it is enabled

    def current(self, end):
        """The request that has its turn at the peer."""
        if not end or not end.peer or end.acted >= len(end.posted) or self.end(end.peer).ended:
            return None
        request = end.posted[end.acted]
        waits = request.fenced and any(earlier.lands() for earlier in end.posted[end.told:end.acted])
        return None if waits else request

    def is_granted(self, end, request):
        peer = self.end(end.peer)
        right = REMOTE.get(request.kind)
        return right is None or self.place(peer).granted(peer.domain, request.rkey, request.raddress, request.length, right, True)

    def act(self, end):
        end.acted, end.into = end.acted + 1, 0
        return True

    def run_step(self, end, n):
        request = self.current(end)
        if not request or request.lands() or (n < 1 and request.length) or end.into + n > request.length:
            return False
        return (self.run_write if request.kind == "write" else self.run_send)(end, self.end(end.peer), request, n)

    def run_write(self, end, peer, request, n):
        whole = end.into + n == request.length
        uses = whole and request.immediate is not None
        if not self.is_granted(end, request) or (uses and not peer.unused):
            return False
        if n:
            region = self.place(peer).region(request.rkey, True)
            region.put(request.raddress + end.into, request.payload[end.into:end.into + n])
        end.into += n
        if uses:
            self.receive_done(peer, peer.unused.pop(0), "recvimm", 0, request.length, request.immediate)
        return self.act(end) if whole else True

    def run_send(self, end, peer, request, n):
        if not peer.receives() or end.into + n > peer.receives()[0].length:
            return False
        if not peer.in_use:
            peer.in_use = peer.unused.pop(0)
        receive = peer.in_use
        if n:
            region = self.place(peer).region(receive.lkey, False)
            region.put(receive.address + end.into, request.payload[end.into:end.into + n])
        end.into += n
        if end.into < request.length:
            return True
        peer.in_use = None
        self.receive_done(peer, receive, "recv", 0, request.length, request.immediate)
        return self.act(end)

    def atom_step(self, end):
        request = self.current(end)
        if not request or request.kind not in ATOMICS or request.raddress % 8 or not self.is_granted(end, request):
            return False
        region = self.place(self.end(end.peer)).region(request.rkey, True)
        old = int.from_bytes(region.cut(request.raddress, 8), "big")
        if request.kind == "add":
            new = (old + request.operands[0]) % 2**64
        else:
            new = request.operands[1] if old == request.operands[0] else old
        region.put(request.raddress, new.to_bytes(8, "big"))
        end.old[end.acted] = old
        return self.act(end)

    def turn_step(self, end):
        request = self.current(end)
        return bool(request) and request.kind == "read" and self.is_granted(end, request) and self.act(end)

    def refuse_step(self, end, why):
        request = self.current(end)
        if not request or self.why_refused(end, request) != why:
            return False
        peer = self.end(end.peer)
        if why == "length":
            receive = peer.in_use or peer.unused[0]
            peer.unused, peer.in_use = (peer.unused if peer.in_use else peer.unused[1:]), None
            self.receive_done(peer, receive, "recv", 1, 0)
        end.refused = why
        self.fail(peer)
        return True

    def why_refused(self, end, request):
        if request.kind in ATOMICS and request.raddress % 8:
            return "invalid"
        if not self.is_granted(end, request):
            return "access"
        receives = self.end(end.peer).receives()
        return "length" if request.kind == "send" and receives and request.length > receives[0].length else None

    def dry_step(self, end):
        request = self.current(end)
        if not request or self.end(end.peer).unused:
            return False
        if request.kind == "send":
            meets_none = end.into == 0
        else:
            meets_none = request.kind == "write" and request.immediate is not None and self.is_granted(end, request)
        if meets_none:
            end.dry.add(end.acted)
        return meets_none

    def offer_step(self, end, i, offset, n):
        if not end or i >= end.acted or end.posted[i].kind != "read" or offset + n > end.posted[i].length:
            return False
        peer, request = self.end(end.peer), end.posted[i]
        address = request.raddress + offset
        if peer.ended or not self.place(peer).granted(peer.domain, request.rkey, address, n, "r", True):
            return False
        region = self.place(peer).region(request.rkey, True)
        end.offers.append((i, offset, region.cut(address, n) if n else b""))
        return True

    def land_step(self, end, o):
        if not end or end.ended or o >= len(end.offers):
            return False
        i, offset, data = end.offers[o]
        if i != end.told or offset != end.known or not data:
            return False
        request = end.posted[i]
        self.place(end).region(request.lkey, False).put(request.address + offset, data)
        end.known, end.spent, end.waits = end.known + len(data), 0, 0
        return True

    def first_untold(self, end):
        return end.untold()[0] if end and end.untold() else None

    def known_step(self, end, m):
        request = self.first_untold(end)
        if not request or request.lands():
            return False
        in_place = request.length if end.told < end.acted else end.into
        if not end.known < m <= in_place:
            return False
        end.known, end.spent, end.waits = m, 0, 0
        return True

    def tell_step(self, end):
        request = self.first_untold(end)
        if not request or end.told >= end.acted or (request.kind == "read" and end.known != request.length):
            return False
        if request.kind in ATOMICS:
            old = end.old[end.told].to_bytes(8, "big")
            self.place(end).region(request.lkey, False).put(request.address, old)
        if request.signaled:
            self.request_done(end, request, 0)
        end.told, end.known, end.spent, end.waits = end.told + 1, 0, 0, 0
        return True

    def expire_step(self, end):
        if not self.first_untold(end):
            return False
        end.spent += 1
        if end.spent == end.retry + 1:
            self.fail(end, 12)
        return True

    def wait_step(self, end):
        if not self.first_untold(end) or end.told not in end.dry:
            return False
        end.waits += end.rnr != 7
        if end.waits == end.rnr + 1:
            self.fail(end, 13)
        return True

    def bounce_step(self, end):
        if not self.first_untold(end) or end.told != end.acted or not end.refused:
            return False
        self.fail(end, 10 if end.refused == "access" else 9)
        return True

    # ---- lines

    def speak(self, line, verb, fields, answers):
        """Does a verb, and holds its answer against that of the trace."""

        def given(used, word, may):
            """The key or number that the answer gives."""
            first = answers[0].split()
            if first[0] != word:
                raise Illegal(line + 1, "answer")
            it = int(first[1], 16)
            if it in used or not may(it):
                raise Illegal(line + 1, "step")
            used.add(it)
            return it

        try:
            right = getattr(self, verb + "_verb")(given, *fields)
        except Refused as refused:
            right = [f"refused {refused}"]
        if right != answers:
            same = next((at for at, pair in enumerate(zip(right, answers)) if pair[0] != pair[1]), min(len(right), len(answers)))
            raise Illegal(line + 1 + same, "answer")

    def make(self, line, step, fields):
        """Makes an inner step."""
        name, *rest = fields
        if not getattr(self, step + "_step")(self.end(name), *rest):
            raise Illegal(line, "step")


def judged(text):
    """The line that an audit writes of a trace, and its status."""
    try:
        steps = grammar.read(text)
    except grammar.BadLine as bad:
        return f"bad line {bad.line} column {bad.column} {bad.why}", 3
    machine, verbs = Machine(), 0
    try:
        for line, word, fields, answers in steps:
            if answers is None:
                machine.make(line, word, fields)
            else:
                machine.speak(line, word, fields, answers)
                verbs += 1
    except Illegal as illegal:
        return f"illegal {illegal.line} {illegal.why}", 13
    return f"legal {verbs} {len(steps) - verbs}", 0

"""Random schedules of nodes: lines that are made while they are done, since what a node answers says what may come next."""
import random

from jichurpa.errors import JichurpaError
from run_parts.nodes import Nodes
from run_parts.record import Disagreement
from trace_parts.machine import judged

# By what a schedule is refused: the machine cannot follow, or the library says what it may not, such as that its dump is none.
FAULTS = (Disagreement, JichurpaError)
KINDS = ("write", "write", "imm", "send", "send", "read", "read", "cas", "add")
PAGE = 4096
# Ends of a schedule, so that no context reaches its limit of queue pairs.
MOST_ENDS = 60


class Temper:
    """How a schedule is disposed: what its network does and how its ends are made. Drawn once for each."""

    def __init__(self, draw):
        rough = draw.choice((False, False, True))
        self.loss = draw.choice((0, 0.02, 0.1, 0.2))
        self.repeat = draw.choice((0, 0.05, 0.2))
        self.disorder = draw.choice((0, 0.2, 0.8))
        self.moves = draw.choice((0, 1, 1, 4))
        self.receives = draw.choice((1, 2, 4))
        self.sizes = draw.choice(((1, 40), (0, 300), (200, 900), (0, 2500)))
        self.impatience = draw.choice((0.1, 0.5, 3))
        # What makes ends fail: wrong places, few expiries and waits, short receives, regions that are dropped.
        self.wrong = draw.choice((0, 0.01, 0.1)) if rough else 0
        self.patience = draw.choice((7, 2, 0)) if rough else 7
        self.short = draw.choice((0, 0.02, 0.2)) if rough else 0
        self.drops = 0.2 * rough


class Schedule:
    """A schedule of so many events, and a fair end of it in which all that may finish does."""

    def __init__(self, seed, nodes, events):
        self.draw = random.Random(seed)
        self.temper, self.count, self.events = Temper(self.draw), nodes, events
        self.nodes = Nodes(nodes)
        self.lines = []
        self.contexts, self.regions, self.queues, self.ends = [], {}, {}, []
        self.pairs, self.pending, self.ids, self.seen, self.moves = [], [], 0, 0, 0

    # ---- what is said

    def say(self, *words):
        """Does a line, and gives its answer; what it sent is pending then."""
        line = " ".join(map(str, words))
        self.lines.append(line)
        answer = self.nodes.do(line)
        self.pending += range(self.seen + 1, self.nodes.network.count + 1)
        self.seen = self.nodes.network.count
        return answer

    def chance(self, share):
        return self.draw.random() < share

    def next_id(self):
        self.ids += 1
        return self.ids

    # ---- making things

    def open(self):
        """Contexts with their things, and pairs of ends that are to be connected."""
        for name in "abcd"[: self.draw.randint(2, 4)]:
            self.make_context(name)
        for _ in range(self.draw.randint(1, 4)):
            self.make_pair()
        while self.pairs and self.chance(0.95):
            self.link()

    def make_context(self, name):
        self.say("context", name, self.draw.randint(1, self.count))
        self.contexts.append(name)
        self.say("domain", f"{name}.p")
        self.queues[name] = []
        for queue in ("c", "r")[: self.draw.randint(1, 2)]:
            self.say("cq", f"{name}.{queue}", self.draw.choice((8, 64, 256, 256, 256)))
            self.queues[name].append(queue)
        self.regions[name] = []
        for _ in range(self.draw.randint(1, 2)):
            self.make_region(name)

    def make_region(self, name):
        """A region with some bytes in it."""
        region = f"{name}.m{self.next_id()}"
        base, length = PAGE * self.draw.randint(0, 40), self.draw.choice((64, 600, 3000, 6000))
        rights = "lwra" if self.chance(0.93) else self.draw.choice(("-", "l", "lw", "lr", "wra"))
        answer = self.say("region", region, f"{name}.p", base, length, rights) or ""
        if answer.startswith("region "):
            self.regions[name].append((region, base, length, *answer.split()[1:]))
            self.store(self.regions[name][-1])

    def make_pair(self):
        """Two ends of different contexts."""
        one, two = self.draw.sample(self.contexts, 2)
        names = [f"{name}.q{self.next_id()}" for name in (one, two)]
        for name, end in zip((one, two), names):
            queues = [f"{name}.{self.draw.choice(self.queues[name])}" for _ in range(2)]
            answer = self.say("qp", end, f"{name}.p", *queues, self.draw.choice((2, 8, 16)), self.draw.choice((2, 8, 16))) or ""
            if not answer.startswith("qp "):
                return
        psn = [self.draw.choice((0, 77, 2**24 - 3)) for _ in range(2)]
        patience = self.temper.patience
        terms = "mtu {} psn {} {} retry {} rnr {} reads {}"
        own = (self.draw.choice((256, 256, 512, 1024)), patience, self.draw.choice((patience, 7)), self.draw.choice((1, 4, 16)))
        for at in (0, 1):
            self.pairs.append((names[at], names[1 - at], terms.format(own[0], psn[at], psn[1 - at], *own[1:])))

    def link(self):
        """Connects an end, of which the partner is perhaps not connected yet."""
        if self.pairs:
            one, two, terms = self.draw.choice(self.pairs)
            if self.say("link", one, two, terms) == "ok":
                self.pairs.remove((one, two, terms))
                self.ends.append((one, two))

    # ---- what applications ask

    def store(self, region=None):
        region = region or self.some_region(self.draw.choice(self.contexts))
        if region:
            length = self.draw.randint(1, min(64, region[2]))
            self.say("store", region[0], region[1] + self.draw.randint(0, region[2] - length), self.draw.randbytes(length).hex())

    def load(self):
        region = self.some_region(self.draw.choice(self.contexts))
        if region:
            length = self.draw.randint(1, min(PAGE, region[2]))
            self.say("load", region[0], region[1] + self.draw.randint(0, region[2] - length), length)

    def some_region(self, context):
        return self.draw.choice(self.regions[context]) if self.regions[context] else None

    def place(self, context, remote, aligned=False):
        """A key, an address and the bytes from it to the end of a region; seldom one that is not granted."""
        region = self.some_region(context) or ("", 0, 64, "00000000", "00000001")
        _, base, length, *keys = region
        if aligned:
            offset = 8 * self.draw.randint(0, length // 8 - 1)
        else:
            offset = self.draw.randint(0, min(length - 1, 200))
        if self.chance(self.temper.wrong):
            return self.draw.choice((("00c0ffee", base, 64), (keys[remote], base + 1, 64), (keys[remote], base + length - 4, 64)))
        return keys[remote], base + offset, length - offset

    def post(self):
        """A request of some kind; in the place of a pair of which an end failed may come a new one."""
        found = self.some_end()
        if found is None:
            return
        end, partner = found
        if self.has_failed(end) and len(self.ends) < MOST_ENDS:
            self.make_pair()
            self.link()
            self.link()
            return
        kind = self.draw.choice(KINDS)
        is_atomic = kind in ("cas", "add")
        lkey, address, room = self.place(end.split(".")[0], 0)
        rkey, raddress, rroom = self.place(partner.split(".")[0], 1, is_atomic and not self.chance(self.temper.wrong))
        length = min(self.draw.randint(*self.temper.sizes), room, rroom)
        options = [f"imm {self.draw.getrandbits(32):08x}"] * (kind == "imm" or kind == "send" and self.chance(0.3))
        options += ["fence"] * self.chance(0.15) + ["quiet"] * self.chance(0.15)
        self.say(*self.request(kind, end, lkey, address, length, raddress, rkey), *options)

    def some_end(self):
        """An end and its partner; most times of a pair that has not failed. None where there is no end."""
        found = self.draw.choice(self.ends) if self.ends else None
        for _ in range(8):
            if found is None or not self.has_failed(found[0]) or self.chance(0.1):
                break
            found = self.draw.choice(self.ends)
        return found

    def has_failed(self, end):
        """The machine has the end, or its partner, in Error."""
        it = self.nodes.record.machine.end(tuple(end.split(".")))
        return it.ended or self.nodes.record.machine.end(it.peer).ended

    def request(self, kind, end, lkey, address, length, raddress, rkey):
        """The words of a request without its options."""
        head = (end, self.next_id(), lkey, address)
        if kind == "send":
            return "send", *head, length
        if kind == "cas":
            return "cas", *head, raddress, rkey, self.draw.choice((0, 1)), self.draw.choice((1, 2**64 - 1))
        if kind == "add":
            return "add", *head, raddress, rkey, self.draw.choice((1, 2**63, 2**64 - 1))
        return "read" if kind == "read" else "write", *head, length, raddress, rkey

    def receive(self):
        """A receive, which is seldom too short; mostly where few are unused."""
        end, _ = self.some_end() or (None, None)
        if end is None:
            return
        if len(self.nodes.record.machine.end(tuple(end.split("."))).unused) > 3 and self.chance(0.9):
            return
        lkey, address, room = self.place(end.split(".")[0], 0)
        length = min(self.draw.randint(0, 40) if self.chance(self.temper.short) else self.temper.sizes[1], room)
        self.say("recv", end, self.next_id(), lkey, address, length)

    def poll(self):
        context = self.draw.choice(self.contexts)
        self.say("poll", f"{context}.{self.draw.choice(self.queues[context])}", self.draw.choice((1, 4, 64)))

    def odd(self):
        """A verb that is often refused, or that changes what is granted."""
        context = self.draw.choice(self.contexts)
        region = self.some_region(context)
        turn = self.draw.randrange(6)
        if turn == 0 and region and self.chance(self.temper.drops):
            if self.say("drop", region[0]) == "ok":
                self.regions[context].remove(region)
        elif turn == 1:
            self.make_region(context)
        elif turn == 2:
            self.say("load", f"{context}.none", 4096, 4)
        elif turn == 3:
            self.say("domain", f"{context}.p")
        elif turn == 4 and region:
            self.say("load", region[0], region[1] + region[2] - 2, 4)
        elif self.chance(0.3) and len(self.ends) < 12:
            self.make_pair()

    # ---- the network, the timers and moves

    def go(self):
        if self.ends:
            self.say("go", self.some_end()[0])

    def deliver(self):
        """A datagram is delivered or lost; of those that wait, or a second time."""
        if self.seen and self.chance(self.temper.repeat):
            self.say("deliver", max(1, self.seen - self.draw.randrange(60)))
        elif self.pending:
            at = self.draw.randrange(len(self.pending)) if self.chance(self.temper.disorder) else 0
            k = self.pending.pop(at)
            if not self.chance(self.temper.loss):
                self.say("deliver", k)

    def timer(self):
        if self.ends:
            self.say("expire" if self.chance(0.6) else "rnr", self.some_end()[0])

    def stop(self):
        self.say("stop", self.draw.choice(self.contexts))

    def restore(self):
        """A carried context goes on, on any node; sometimes the node says no."""
        carried = list(self.nodes.carried)
        context = self.draw.choice(carried if carried and not self.chance(0.05) else self.contexts)
        there = self.draw.randint(1, self.count)
        answer = self.say("restore", context, there)
        self.moves += answer == "ok"
        if answer == "refused NumberTaken" and self.chance(0.5):
            self.say("release", context, there)

    def release(self):
        self.say("release", self.draw.choice(self.contexts), self.draw.randint(1, self.count))

    # ---- a whole schedule

    def run(self):
        """Does it all. Raises Disagreement."""
        self.open()
        temper = self.temper
        table = {
            self.deliver: 30, self.go: 18, self.post: 10, self.receive: 4 * temper.receives, self.poll: 6, self.load: 3, self.store: 3,
            self.timer: 1 + 2 * temper.impatience, self.odd: 0.7, self.stop: temper.moves, self.release: 0.5 * temper.moves, self.link: 1,
            self.restore: 0,
        }
        while len(self.lines) < self.events:
            table[self.restore] = 8 * temper.moves if self.nodes.carried else 0.1
            self.draw.choices(list(table), list(table.values()))[0]()
        self.finish()

    def finish(self):
        """Contexts are restored, ends connected, and datagrams delivered in order, as long as that changes much; then all is looked at."""
        for context in list(self.nodes.carried):
            self.say("release", context, 1)
            self.say("restore", context, 1)
        for one, two, terms in list(self.pairs):
            if self.say("link", one, two, terms) == "ok":
                self.ends.append((one, two))
        for turn in range(6):
            self.flush()
            for end, _ in self.ends:
                if turn:
                    self.say("rnr", end)
                    self.say("expire", end)
                while (self.say("go", end) or "").startswith("sent ") and len(self.pending) < 64:
                    pass
            self.look()

    def flush(self):
        while self.pending:
            self.say("deliver", self.pending.pop(0))

    def look(self):
        """Polls every queue, and loads the beginning of every region."""
        for context in self.contexts:
            for queue in self.queues[context]:
                self.say("poll", f"{context}.{queue}", 64)
        for regions in self.regions.values():
            for region, base, length, *_ in regions:
                self.say("load", region, base, min(length, PAGE))


def played(lines, count):
    """The trace of these lines at new nodes, and why it is refused, or None. Lines that fit no more are passed over."""
    with Nodes(count) as nodes:
        try:
            for line in lines:
                nodes.do(line)
        except FAULTS as why:
            return nodes.record.text(), str(why)
        text = nodes.record.text()
    verdict, status = judged(text)
    return text, verdict if status else None


def shrunk(lines, count, most=400):
    """Fewer lines that are refused too: pieces are left out, ever smaller ones, in at most so many runs."""
    runs, size = 0, len(lines) // 2
    while size and runs < most:
        at = len(lines)
        while at > 0 and runs < most:
            begin = max(0, at - size)
            fewer = lines[:begin] + lines[at:]
            runs += 1
            if played(fewer, count)[1]:
                lines = fewer
            at = begin
        size //= 2
    return lines

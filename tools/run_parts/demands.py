"""Steps of the packetless machine that are demanded, with all that has to come before them.

Each is made as late as possible: a request acts where something needs its bytes, its completion or its place. `Choices` say which way
is gone where there are several.
"""
import re
from contextlib import contextmanager

from run_parts.numbers import ATOMICS
from run_parts.states import Mismatch, State

OK, LENGTH, FLUSH, INVALID, ACCESS, RETRY, NOT_READY = 0, 1, 5, 9, 10, 12, 13
FAILED = re.compile("wc [0-9a-f]{6} [0-9]+ [a-z]+ [1-9]")
# How many demands may be under way, each for another.
DEPTH = 60


class Fail(Exception):
    """What was chosen so far leads nowhere."""


class Choices:
    """Choices that are made while a verb is served: first those of a script, then the first of each."""

    def __init__(self, script):
        self.script, self.taken = script, []

    def choose(self, count):
        """A number below this one."""
        at = len(self.taken)
        chosen = self.script[at] if at < len(self.script) else 0
        self.taken.append((chosen, count))
        return chosen

    def others(self):
        """The scripts that choose another way once, behind what the script had chosen."""
        for at in range(len(self.script), len(self.taken)):
            before = [chosen for chosen, _ in self.taken[:at]]
            yield from ([*before, other] for other in range(1, self.taken[at][1]))


class Demands:
    """Demands of a state, with the choices of a script. `failing_numbers` are the queue pairs of which something does not succeed."""

    def __init__(self, sequences, source):
        self.state = State(sequences, source)
        self.failing_numbers = {int(line.split()[1], 16) for lines in sequences.values() for line in lines if FAILED.match(line)}
        self.begin([])

    def begin(self, script):
        """Begins with a script. Nothing is demanded."""
        self.choices, self.active = Choices(script), []

    def one_of(self, steps):
        """Makes one of some steps."""
        steps = list(steps)
        if not steps:
            raise Fail
        make, *given = steps[self.choices.choose(len(steps)) if len(steps) > 1 else 0]
        made = self.state.made
        make(*given)
        if self.state.made == made:
            raise Fail

    # ---- both orders of what touches the same bytes

    def maybe(self, stream, spans):
        """What touches the same bytes may come first."""
        while True:
            steps = list(self.conflicts(stream, spans))
            chosen = self.choices.choose(len(steps) + 1) if steps else 0
            if not chosen:
                return
            self.one_of(steps[chosen - 1 : chosen])

    def conflicts(self, stream, spans):
        """The steps that are due at other ends and touch these bytes, each with what leads up to it."""
        return map(self.leading, self.due(stream, spans))

    def due(self, stream, spans):
        """The steps that are due at other ends and touch these bytes: the end, which, the request, the piece."""
        for span in spans:
            for step in self.state.pending(span):
                if step[:2] != stream and (step[1], step[0]) not in self.active:
                    yield step

    def leading(self, step):
        """What makes a step that is due."""
        name, kind, place, piece = step
        return getattr(self, "up_to_" + kind), name, place, piece

    def up_to_act(self, name, place, piece):
        """The request acts up to that piece."""
        with self.guard("act", name):
            while (self.end(name).acted, self.end(name).into) < (place, (piece + 1) * self.end(name).mtu) and self.end(name).acted <= place:
                self.act(name)

    def up_to_offer(self, name, place, piece):
        """The READ has its turn, and that piece of it is offered."""
        with self.guard("offer", name):
            while self.end(name).acted <= place:
                self.act(name)
            self.offer(name, place, piece)

    def up_to_land(self, name, place, piece):
        """All before is told, and the READ landed up to that piece, or the atomic is told."""
        with self.guard("land", name):
            while self.end(name).told < place:
                self.tell(name)
            is_read = self.end(name).posted[place].kind == "read"
            while self.end(name).told == place and not (is_read and self.end(name).known > piece * self.end(name).mtu):
                (self.land if is_read else self.tell)(name)

    @contextmanager
    def guard(self, *what):
        """While this is under way it is not begun again."""
        if what in self.active or len(self.active) > DEPTH:
            raise Fail
        self.active.append(what)
        try:
            yield
        finally:
            self.active.pop()

    # ---- steps of an end

    def end(self, name):
        """An end as it is now."""
        return self.state.machine.end(name)

    def progress(self, name):
        """How far an end is."""
        end = self.end(name)
        return end.acted, end.into, end.told, end.known, end.refused, end.ended

    def act(self, name):
        """The next piece of the current request of an end acts at its peer, or the request is refused there."""
        if name is None:
            raise Fail
        while self.state.is_fenced(name):
            self.tell(name)
        end, request = self.end(name), self.state.current(name)
        if request is None:
            raise Fail
        why = self.state.why_refused(name)
        if why:
            self.refuse(name, why)
        elif request.kind == "read":
            self.must("turn", name)
        else:
            self.change(name, request)

    def change(self, name, request):
        """The next piece of a request changes the memory at the peer."""
        end, before = self.end(name), self.progress(name)
        piece = 8 if request.kind in ATOMICS else min(end.mtu, request.length - end.into)
        self.maybe((name, "act"), self.state.act_spans(name, piece))
        if self.progress(name) == before and request.kind not in ATOMICS and self.state.current(name):
            peer = self.end(end.peer)
            self.completing(end.peer, peer.receive_queue, self.state.receive_line(name, piece))
        if self.progress(name) != before:
            return
        if request.kind in ATOMICS:
            self.must("atom", name)
        else:
            self.must("run", name, piece)

    def offer(self, name, place, piece):
        """A piece of a READ is offered, unless it was before. The number of the offer."""
        end = self.end(name)
        begin = piece * end.mtu
        length = min(end.mtu, end.posted[place].length - begin)
        if self.state.offer_of(end, place, piece) is None:
            self.maybe((name, "offer"), self.state.offer_spans(name, place, begin, length))
            if self.state.offer_of(self.end(name), place, piece) is None:
                self.must("offer", name, place, begin, length)
        return self.state.offer_of(self.end(name), place, piece)

    def land(self, name):
        """The next piece of a READ lands."""
        before = self.progress(name)
        while self.end(name).acted <= self.end(name).told and not self.end(name).ended:
            self.act(name)
        end = self.end(name)
        if not end.untold():
            raise Fail
        offer = self.offer(name, end.told, end.known // end.mtu)
        if self.progress(name)[2:4] == before[2:4]:
            self.maybe((name, "land"), self.state.land_spans(name))
        if self.progress(name)[2:4] == before[2:4]:
            self.must("land", name, offer)

    def tell(self, name):
        """The first untold request of an end is told."""
        if not self.end(name) or not self.end(name).untold():
            raise Fail
        place, request = self.end(name).told, self.end(name).untold()[0]
        while self.end(name).acted <= place:
            self.act(name)
            if self.end(name).refused:
                raise Fail
        while request.kind == "read" and self.end(name).told == place and self.end(name).known < request.length:
            self.land(name)
        if request.kind in ATOMICS and self.end(name).told == place:
            self.maybe((name, "land"), self.state.land_spans(name))
        if request.signaled and self.end(name).told == place:
            end = self.end(name)
            self.completing(name, end.send_queue, self.state.request_line(end, request, 0))
        if self.end(name).told == place:
            self.must("tell", name)

    def must(self, step, name, *fields):
        if not self.state.step(step, name, *fields):
            raise Fail

    def act_or_offer(self, name):
        """What comes next at the peer: an offer of a READ that had its turn, or the next piece of the current request."""
        due = self.state.due_offer(name)
        if due:
            self.offer(name, *due)
        else:
            self.act(name)

    # ---- completions

    def completing(self, name, queue, line):
        """Completions that the queue hands out before this one come before it."""
        if line is None:
            return
        key = name[0], queue
        while self.state.next_line(key) not in (None, line):
            self.demand(key)

    def demand(self, key):
        """The next completion that a queue hands out is made."""
        line, before = self.state.next_line(key), self.state.pushed(key)
        if line is None:
            raise Fail
        with self.guard("line", key):
            self.complete(line.split())
        if self.state.pushed(key) <= before:
            raise Fail

    def complete(self, words):
        """Makes the completion of a line."""
        name, kind, status = self.state.numbered(int(words[1], 16)), words[3], int(words[4])
        if name is None or not self.end(name).peer:
            raise Fail
        if kind.startswith("recv") and status == OK:
            self.received(name)
        elif kind.startswith("recv") and status == LENGTH:
            self.until_refused(self.end(name).peer)
        elif status == OK:
            self.told_until(name)
        else:
            self.ended(name, status)

    def received(self, name):
        """A message comes to a receive."""
        key = name[0], self.end(name).receive_queue
        before = self.state.pushed(key)
        while self.state.pushed(key) == before:
            self.act(self.end(name).peer)

    def told_until(self, name):
        """Requests are told up to the first that completes."""
        is_signaled = False
        while not is_signaled:
            if not self.end(name).untold():
                raise Fail
            is_signaled = self.end(name).untold()[0].signaled
            self.tell(name)

    # ---- ends that fail

    def refuse(self, name, why):
        """The current request of an end is refused; its peer fails."""
        before = self.progress(name)
        with self.guard("refuse", name):
            self.before_end(self.end(name).peer)
            if self.progress(name) == before:
                self.failing("refuse", name, why)

    def until_refused(self, name):
        """The requests of an end act until one is refused."""
        while self.end(name).refused is None:
            self.act(name)

    def ended(self, name, status):
        """An end fails, and its first untold request gets that status, or is flushed."""
        if self.end(name).ended or not self.end(name).peer:
            raise Fail
        if status == FLUSH:
            status = self.state.first_error(name)
        if status in (FLUSH, None):
            self.ended_by_peer(name, status)
            return
        while self.end(name).untold() and self.state.error_id(name) not in (None, self.end(name).untold()[0].id):
            self.tell(name)
        if status in (INVALID, ACCESS):
            self.until_refused(name)
            while self.end(name).told < self.end(name).acted:
                self.tell(name)
        with self.guard("end", name):
            self.before_end(name)
            self.last_steps(name, status)

    def ended_by_peer(self, name, status):
        """A queue pair fails because it refuses a request of its partner; or for a reason that no answer shows."""
        if status == FLUSH or not self.end(name).untold() or not self.choices.choose(2):
            self.until_refused(self.end(name).peer)
            return
        with self.guard("end", name):
            self.before_end(name)
            self.last_steps(name, RETRY)

    def last_steps(self, name, status):
        """The step by which an end fails, after those that only count."""
        end = self.end(name)
        if status in (INVALID, ACCESS):
            self.failing("bounce", name)
            return
        step, count = ("expire", end.retry - end.spent) if status == RETRY else ("wait", end.rnr - end.waits)
        if step == "wait" and end.told not in end.dry:
            while self.end(name).acted < self.end(name).told:
                self.act(name)
            self.must("dry", name)
        for _ in range(count):
            self.must(step, name)
        self.failing(step, name)

    def before_end(self, name):
        """What must act at an end before it fails: all that succeeds later. More may act."""
        peer = self.end(name).peer
        while self.state.due_successes(peer, name):
            self.act_or_offer(peer)
        if self.meets_none(name) and self.state.current(peer) and not self.choices.choose(2):
            self.until_dry(peer)
        while self.state.current(peer) and not self.state.why_refused(peer):
            if not self.choices.choose(2):
                return
            self.act(peer)

    def failing(self, step, name, *given):
        """Makes a step by which an end fails. What its queues hand out before comes before."""
        for _ in range(64):
            saved = self.state.saved()
            try:
                self.must(step, name, *given)
                return
            except Mismatch as mismatch:
                self.state.restore(saved)
                self.demand(mismatch.key)
        raise Fail

    def until_dry(self, name):
        """The requests of an end act until one meets no receive."""
        while not self.state.step("dry", name):
            self.act(name)

    def meets_none(self, name):
        """An end has no unused receive, and its partner fails since it met none."""
        end = self.end(name)
        return bool(end and end.peer) and not end.unused and not end.ended and self.end(end.peer).number in self.failing_numbers and \
            self.state.will_end(end.peer, NOT_READY)

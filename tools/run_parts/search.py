"""Finds inner steps that make verbs and answers a run of the packetless machine, or says at which answer none do.

A search over the due steps of each connection. A step is made as late as possible: where an answer asks for it. Three things keep the
search small. What a completion queue hands out later says in which order completions may come. Steps that touch no common bytes need
no order. And a state is not entered twice. Where two things touch the same bytes, both orders are tried. Of what is open, that with the
fewest departures from the first choice is taken up first.

The steps that are tried are those of a device: a message acts in pieces of the MTU, and so do the offers of a READ. So a refusal says
that no run with such steps has these answers, as far as the search goes.
"""
import heapq

from run_parts.demands import FLUSH, Demands, Fail
from run_parts.states import POSTED, Mismatch
from trace_parts import grammar


class NoRun(Exception):
    """No inner steps fit the verbs and answers up to a line, that of the first line of an answer."""

    def __init__(self, line):
        super().__init__(f"illegal {line} answer")
        self.line = line


class Limit(Exception):
    """The search was given up."""


class Search(Demands):
    """The search for one list of verbs and answers."""

    def __init__(self, verbs, source, limit):
        super().__init__(sequences_of(verbs), source)
        self.verbs, self.limit, self.tries, self.served = verbs, limit, 0, 0
        self.open, self.seen, self.furthest, self.strays = [], set(), 0, 0

    # ---- the tree of choices

    def run(self):
        """Makes all verbs. Raises NoRun and Limit."""
        at, script, saved = 0, [], None
        while at < len(self.verbs):
            if self.serve(at, script, saved):
                at, script, saved = at + 1, [], None
            else:
                at, script, saved = self.back()
        return self.state.lines()

    def serve(self, at, script, saved):
        """Makes a verb, after the inner steps that its answer asks for. Whether that led on."""
        self.furthest = max(self.furthest, at)
        if saved is None and self.is_plain(at):
            return self.state.speak(*self.verbs[at])
        saved = saved or self.state.saved()
        self.begin(script)
        try:
            self.make(at)
            made = True
        except (Fail, Mismatch):
            made = False
        self.served += 1
        for other in self.choices.others():
            heapq.heappush(self.open, (self.strays + 1, -at, self.served, other, saved))
        return made and self.is_new(at)

    def is_new(self, at):
        """The state was not entered before at this verb's end. Only asked where something was tried in vain before."""
        if not self.tries:
            return True
        mark = at, self.state.mark()
        if mark in self.seen:
            return False
        self.seen.add(mark)
        return True

    def back(self):
        """Takes up the open choice with the fewest strays from the first of each; of those the last."""
        if not self.open:
            raise NoRun(self.verbs[self.furthest][0] + 1)
        self.tries += 1
        if self.tries > self.limit:
            raise Limit(f"given up after {self.limit} tries, at line {self.verbs[self.furthest][0]}")
        self.strays, at, _, script, saved = heapq.heappop(self.open)
        self.state.restore(saved)
        return -at, script, saved

    # ---- a verb

    def is_plain(self, at):
        """The machine gives the answer as it is, and nothing that may come before the verb touches its bytes."""
        _, word, fields, answers = self.verbs[at]
        if word == "poll":
            return self.state.polled(fields) == answers
        if word == "load":
            return self.state.answer(word, fields) == answers
        if answers[0].startswith("refused") or word == "drop":
            return False
        if word == "recv" and self.meets_none(fields[0]):
            return False
        if self.may_have_ended(word, fields) or self.state.flushed(word, fields)[1]:
            return False
        if word == "region" and any(self.asking(fields[0], answers)):
            return False
        return self.state.refusal(word, fields) is None and not any(self.conflicts(None, self.state.touched(word, fields)))

    def make(self, at):
        """Makes a verb."""
        line, word, fields, answers = self.verbs[at]
        getattr(self, "before_" + word, self.before_others)(word, fields, answers)
        if not self.state.speak(line, word, fields, answers):
            raise Fail

    def before_poll(self, word, fields, answers):
        """Completions are made until the queue has what it hands out."""
        queue, wanted = fields[0], [] if answers == ["none"] else answers
        if answers[0].startswith("refused"):
            return
        if not all(line.startswith("wc ") for line in wanted):
            raise Fail
        while len(self.state.entries(queue)) < len(wanted):
            self.demand(queue)

    def before_load(self, word, fields, answers):
        """Steps that touch the bytes are made until they are those of the answer; first those that do not spoil them."""
        span = self.state.span(*fields, False)
        while (found := self.state.answer(word, fields)) != answers:
            if not (found[0].startswith("bytes") and answers[0].startswith("bytes")):
                raise Fail
            wanted = bytes.fromhex(answers[0].split()[1])
            if len(wanted) != fields[2] or not self.state.may_become(span, wanted):
                raise Fail
            steps = sorted(self.due(None, [span]), key=lambda step: self.state.spoils(step, span, wanted))
            self.one_of(map(self.leading, steps))

    def before_others(self, word, fields, answers):
        """Room is made where there is none; then comes what may come before and touches the same bytes."""
        wanted = answers[0].removeprefix("refused ") if answers[0].startswith("refused") else None
        while (refusal := self.state.refusal(word, fields)) != wanted and (refusal or wanted == "InUse"):
            if refusal:
                self.room(refusal, word, fields)
            else:
                self.one_of([(self.act, name) for name in self.state.ends_towards(fields[0])])
        if refusal != wanted:
            raise Fail
        if wanted is None:
            self.maybe(None, self.state.touched(word, fields))
            if self.may_have_ended(word, fields) and self.choices.choose(2):
                self.ended(fields[0], FLUSH)
            queue, line = self.state.flushed(word, fields)
            self.completing(fields[0], queue, line)

    def may_have_ended(self, word, fields):
        """Something is posted to an end that fails, as far as is known, and has not failed yet."""
        end = self.end(fields[0]) if word == "recv" or word in POSTED else None
        return bool(end) and not end.ended and end.number in self.failing_numbers and self.state.will_fail(end.name)

    def before_recv(self, word, fields, answers):
        """A wait for a receive is noted before the receive comes."""
        self.before_others(word, fields, answers)
        if self.meets_none(fields[0]) and not self.choices.choose(2):
            self.until_dry(self.end(fields[0]).peer)

    def before_drop(self, word, fields, answers):
        """What needs the region may come before it is dropped."""
        self.before_others(word, fields, answers)
        if answers[0] != "ok":
            return
        for name in self.state.ends_towards(fields[0]):
            while self.state.needs_region(name, fields[0]) and not self.choices.choose(2):
                self.act_or_offer(name)

    def before_region(self, word, fields, answers):
        """Requests that name the region may be refused before it is made."""
        self.before_others(word, fields, answers)
        for name in list(self.asking(fields[0], answers)):
            if self.choices.choose(2):
                self.until_refused(name)

    def asking(self, region, answers):
        """The ends that have posted requests which name a region that is not made yet."""
        key = int(answers[0].split()[2], 16) if answers[0].startswith("region ") else None
        for name in self.state.ends_towards(region):
            end = self.end(name)
            if any(request.rkey == key for request in end.posted[end.acted:]):
                yield name

    # ---- room for work

    def room(self, refusal, word, fields):
        """Makes a step that may take a refusal away."""
        state, name = self.state, fields[0]
        if refusal == "SqFull":
            self.one_of([(self.tell, name), (self.ended, name, FLUSH)])
        elif refusal == "RqFull":
            self.one_of([(self.act, self.end(name).peer), (self.ended, name, FLUSH)])
        elif refusal == "CqFull":
            self.one_of([(self.tell, quiet) for quiet in state.quiet_ends(name, word == "recv")])
        elif refusal == "InUse":
            self.one_of([(self.tell, own) for own in state.untold_ends(name[0])] + [(self.act, other) for other in state.acting_on(name[0])])
        else:
            raise Fail

def sequences_of(verbs):
    """What each completion queue hands out, in order."""
    sequences = {}
    for _, word, fields, answers in verbs:
        if word == "poll" and all(line.startswith("wc ") for line in answers):
            sequences.setdefault(fields[0], []).extend(answers)
    return sequences


def find(lines, limit=20000):
    """The lines of a trace with inner steps, of lines of verbs and answers. Raises NoRun and Limit."""
    text = "".join(line + "\n" for line in [*lines, "end"])
    return [*Search(grammar.read(text), lines, limit).run(), "end"]

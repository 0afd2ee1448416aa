"""look unfold: a script in which lines `go`, `deliver`, `rnr` and `expire` stand in the place of each `settle`.

By docs/proof.md settling delivers what is pending, least number first, and an end sends only where nothing is pending.
So the numbers of the datagrams give the order of sending and delivering. What they do not give is where timers were
stepped. Where an end is to send datagram N by `go` and does not, a round ended without a change, and the timers were
stepped: RNR timers where the end waits, and else the expiries of all ends. After the last datagram all timers are tried
once, unless `settle` left the end waiting for a receive. Timers that changed nothing are left out.

What comes out is played, and counts only where the program confirms it: every other line of the script has the same
answers, and the datagrams are the same byte for byte.
"""
from dataclasses import dataclass, field

from .answers import play
from .datagrams import RESUME_OPCODE
from .early import refuse_node
from .errors import LookError
from .evacuation import script_asked
from .flights import Story
from .pcap import write_output
from .script import lines_of

MOST_RUNS = 2000
WAITING = "waiting"
CHANGED = ("over", "expired", "spent")
MOST_TRIES = 2


@dataclass
class Step:
    """A line of the new script."""
    words: str
    settle: int = 0  # the line of the `settle` in whose place it stands, or 0
    answers: list = field(default_factory=list)  # the answers that it must have; none: any
    ends: list = field(default_factory=list)  # for `go`: the ends whose timers may be stepped before it
    tries: int = 0  # .. and how often that was tried
    is_tried: bool = False  # a timer that is kept only where it changed something


class Visits:
    """The connected ends in the order in which settling visits them: by devices, contexts and queue pairs."""

    def __init__(self):
        self.homes = {}  # a device -> its contexts, in the order in which they came
        self.ends = {}  # a context -> its queue pairs
        self.patient = {}  # a connected end -> whether it waits for a receive without limit (rnr 7)

    def apply(self, answered):
        verb, rest = answered.line.verb, answered.line.rest
        if answered.is_refused:
            return
        if verb == "device":
            self.homes[rest[0]] = []
        elif verb in ("context", "restore"):
            self.homes[rest[1]].append(rest[0])
        elif verb == "stop":
            for names in self.homes.values():
                if rest[0] in names:
                    names.remove(rest[0])
        elif verb == "qp":
            self.ends.setdefault(rest[0].partition(".")[0], []).append(rest[0])
        elif verb == "connect":
            self.patient |= dict.fromkeys(rest[:2], rest[10] == "7")

    def order(self):
        return [end for names in self.homes.values() for name in names for end in self.ends.get(name, []) if end in self.patient]


def is_transmitted(flight):
    """The datagram is sent by `go`, and not in answer to another."""
    return flight.packet.is_request or flight.packet.opcode == RESUME_OPCODE


def timers(kind, ends, line):
    return [Step(f"{kind} {end}", line, is_tried=True) for end in ends]


def unfolded(story, answered, ends):
    """The lines in the place of a `settle`, without timers before them and with all that may be stepped behind them."""
    line = answered.line.number
    for flight in story.settled.get(line, []):
        if flight.packet is None:
            raise LookError(f"the settle of line {line} sent datagrams that the network keeps no more, so it cannot be unfolded")
        if flight.line == line and is_transmitted(flight):
            yield Step(f"go {flight.sender.name}", line, [f"sent {flight.number}"], ends)
        yield Step(f"deliver {flight.number}", line)
    waiting = {answer.split()[1] for answer in answered.answers[1:] if answer.endswith(" noreceive")}
    rest = [end for end in ends if end not in waiting]
    yield from timers("rnr", rest, line) + timers("expire", rest, line)


def first_steps(story, visits):
    """The new script without timers before datagrams."""
    steps = []
    for answered in story.played.answered:
        visits.apply(answered)
        if answered.line.verb == "settle":
            steps.append(Step(f"# The settle of line {answered.line.number} answered: {', '.join(answered.answers)}"))
            steps += unfolded(story, answered, visits.order())
        else:
            steps.append(Step(answered.line.raw.decode("latin-1"), answers=answered.answers))
    return steps


def script_of(steps):
    return "".join(step.words + "\n" for step in steps).encode("latin-1")


def has_effect(step, answered):
    return not step.is_tried or answered.words[0] in CHANGED


def missing_timers(step, answer, patient):
    """The timers that are stepped before a `go` that did not send what it has to."""
    end = step.words.removeprefix("go ")
    if answer != WAITING:
        return timers("expire", step.ends, step.settle)
    return timers("rnr", [other for other in step.ends if other == end or not patient[other]], step.settle)


def step_timers(program, steps, patient):
    """Puts in the timers, one round with each run, until every line answers as it has to."""
    for _ in range(MOST_RUNS):
        script = script_of(steps)
        played = play(program, lines_of(script), script)
        wrong = next((i for i, (step, a) in enumerate(zip(steps, played.answered)) if step.answers and step.answers != a.answers), len(steps))
        kept = [step for step, a in zip(steps[:wrong], played.answered) if has_effect(step, a)]
        if wrong == len(steps):
            return kept
        step, answer = steps[wrong], played.answered[wrong].first
        step.tries += 1
        if not step.settle or step.tries > MOST_TRIES:
            raise LookError(f"no lines are found for a settle: {step.words!r} answers {answer!r}, and must answer {step.answers[0]!r}")
        steps = kept + missing_timers(step, answer, patient) + steps[wrong:]
    raise LookError(f"the script cannot be unfolded in {MOST_RUNS} runs of the program")


def confirm(story, steps, other):
    """The new script sent the same datagrams, and the other lines have the same answers."""
    if [f.data for f in story.flights.values()] != [f.data for f in other.flights.values()]:
        raise LookError("the unfolded script sends other datagrams, so it is not shown")
    for step, answered in zip(steps, other.played.answered, strict=True):
        if step.answers and step.answers != answered.answers:
            raise LookError(f"line {answered.line.number} of the unfolded script answers {answered.first!r}, so it is not shown")


def unfold_script(program, script, name="-"):
    """The script with its settlings in lines, as bytes."""
    story, visits = Story(program, script), Visits()
    if story.played.ending:
        refuse_node(story.played, name)
        raise LookError(f"the script ends early, so it is not unfolded: {story.played.ending.text}", story.played.status)
    steps = step_timers(program, first_steps(story, visits), visits.patient)
    new = script_of(steps)
    confirm(story, steps, Story(program, new))
    return new


def script_to_show(program, asked):
    """The script of a subcommand, unfolded where that is asked for."""
    script = script_asked(program, asked)
    return unfold_script(program, script, asked.script) if asked.unfold else script


def unfold(program, asked):
    """The subcommand."""
    new = unfold_script(program, script_asked(program, asked), asked.script)
    write_output(asked.file, new, f"{len(lines_of(new))} lines")
    return 0

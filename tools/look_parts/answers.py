"""Which answers belong to which line, of a script that is played or of one that a node answered.

Each line that is not blank has one answer of one line, with two exceptions. `settle` answers `quiet n` and n lines `left`.
`poll` answers `none`, or a line `wc` for each completion. Where polls follow each other, the lines `wc` are cut by what
they say: a poll hands out entries of its own completion queue alone, at most as many as it asks for. The queue is that of
the queue pair which the line names, for receives or for requests by its kind. So the cut is exact, and takes one pass.
Only a node has queue pairs that no line made: those of a dump that came from elsewhere. Their entries go to the first poll.
"""
from dataclasses import dataclass, field

from .errors import LookError
from .script import Line

RECEIVE_KINDS = ("recv", "recvimm")
# Last lines that name no line; those behind the first are a node's, as are `missing NAME` and `bad dump P why`.
LAST_LINES = ("out of memory", "depot fault", "link fault")
LOG_ENDS = "the log ends here"


@dataclass
class Answered:
    """A line and its answers."""
    line: Line
    answers: list = field(default_factory=list)

    @property
    def first(self):
        return self.answers[0] if self.answers else ""

    @property
    def words(self):
        return self.first.split()

    @property
    def is_refused(self):
        return self.first.startswith("refused ")


@dataclass
class Ending:
    """The last line of a run that was not played to its end."""
    line: Line  # the line that was not played, or None where the run ended elsewhere
    text: str
    column: int = 0
    why: str = ""


@dataclass
class Played:
    """A script as it was played: lines with answers, then the ending and the lines that were not played."""
    answered: list
    ending: Ending
    unplayed: list
    status: int


def ending_of(text, line):
    """The ending that a line of answers tells, or None."""
    words = text.split()
    if words[:2] == ["bad", "line"] and len(words) == 6:
        return Ending(line, text, int(words[4]), words[5])
    if text in LAST_LINES or words[:1] == ["missing"] or words[:2] == ["bad", "dump"]:
        return Ending(line, text)
    return None


class Pairing:
    """A pass over the lines of answers."""

    def __init__(self, answers):
        self.answers = answers
        self.at = 0
        self.queues = {}  # the number of a queue pair -> its queues for requests and for receives

    def next(self):
        return self.answers[self.at] if self.at < len(self.answers) else None

    def take(self):
        self.at += 1
        return self.answers[self.at - 1]

    def may_be_of(self, queue, text):
        """Whether a line of answers may be an entry of the completion queue."""
        if not (text or "").startswith("wc "):
            return False
        words = text.split()
        queues = self.queues.get(words[1])
        return queues is None or queues[words[3] in RECEIVE_KINDS] == queue

    def polled(self, queue, most):
        found = [self.take()]
        if found[0].startswith("wc "):
            while len(found) < most and self.may_be_of(queue, self.next()):
                found.append(self.take())
        return found

    def settled(self):
        found = [self.take()]
        words = found[0].split()
        if words[0] == "quiet":
            found += [self.take() for _ in range(int(words[1]))]
        return found

    def answers_to(self, line):
        """The answers of the next line."""
        if line.verb == "poll":
            return self.polled(line.rest[0], int(line.rest[1]))
        if line.verb == "settle":
            return self.settled()
        answer = self.take()
        if line.verb == "qp" and answer.startswith("qp "):
            self.queues[answer.split()[1]] = (line.rest[2], line.rest[3])
        return [answer]


def pair(lines, status, answers, is_log=False):
    """The lines of a script with their answers. Those of a log may end early."""
    pairing, answered = Pairing(answers), []
    for at, line in enumerate(lines):
        text = pairing.next()
        # A blank line is bad where it has a byte that no line may have.
        ending = ending_of(text, line) if text is not None and pairing.at == len(answers) - 1 else None
        if ending and (ending.why == "" or text.split()[2] == str(line.number)):
            if not (ending.why == "" and line.is_blank):
                return Played(answered, ending, lines[at:], status)
        if line.is_blank:
            answered.append(Answered(line))
            continue
        if text is None and is_log:
            return Played(answered, Ending(line, LOG_ENDS), lines[at:], status)
        if text is None:
            raise LookError(f"line {line.number} has no answer: the program wrote {len(answers)} lines and then ended with status {status}")
        try:
            answered.append(Answered(line, pairing.answers_to(line)))
        except (IndexError, ValueError):
            raise LookError(f"line {line.number}: {text!r} is no answer to {line.text!r}") from None
    if is_log and pairing.at == len(answers) - 1 and ending_of(answers[-1], None):
        return Played(answered, ending_of(answers[-1], None), [], status)
    if pairing.at != len(answers):
        raise LookError(f"the program wrote {len(answers)} lines, and {pairing.at} belong to the lines of the script")
    return Played(answered, None, [], status)


def play(program, script_lines, script):
    """The script played whole."""
    status, answers = program.play(script)
    return pair(script_lines, status, answers)

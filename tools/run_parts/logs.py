"""Logs of nodes: lines that were asked and answers that were heard, with their moments; and one list of the verbs in them.

docs/traces.md has the format. A line of a log is `> MOMENT LINE` or `< MOMENT ANSWER`.
"""
import heapq
import re
from dataclasses import dataclass, field
from pathlib import Path

from trace_parts import grammar

FORM = re.compile("([<>]) (0|[1-9][0-9]*) ?(.*)")
AT_THE_END = ("kept ", "left ")
UNMADE = ("refused Stopped", "refused TooMany", "refused NoPage", "refused Memory")
NOT_HERE = ("refused NoSuch", "refused Stopped")
MAKERS = ("context", "domain", "cq", "qp")
LATER = float("inf")


class LogError(Exception):
    """What is wrong with a log, in one line."""


@dataclass
class Asked:
    """A line that was asked of a node, when, and what was heard, when its last line came."""
    log: str
    line: int
    text: str
    asked: int
    heard: float = LATER
    answers: list = field(default_factory=list)
    is_closed: bool = False

    @property
    def words(self):
        return self.text.split()

    @property
    def most(self):
        """How many lines its answer may have."""
        words = self.words
        return int(words[2]) if words[0] == "poll" and len(words) > 2 and words[2].isdecimal() else 1


class Log:
    """Reads the log of one node."""

    def __init__(self, name):
        self.name, self.entries, self.waiting, self.last = name, [], 0, 0

    def wrong(self, line, why):
        return LogError(f"{self.name} line {line}: {why}")

    def read(self, text):
        """The lines that were asked, with their answers, in order."""
        for at, line in enumerate(text.splitlines(), 1):
            said = FORM.fullmatch(line)
            if not said:
                raise self.wrong(at, "neither `> MOMENT LINE` nor `< MOMENT ANSWER`")
            sign, moment, rest = said[1], int(said[2]), said[3]
            if moment < self.last:
                raise self.wrong(at, "its moment is before that of the line before")
            self.last = moment
            if sign == "<":
                self.hear(at, moment, rest)
            elif rest.split() and not rest.lstrip().startswith("#"):
                self.ask(at, moment, rest)
        return self.entries

    def ask(self, at, moment, rest):
        if self.waiting == len(self.entries) and self.entries:
            self.entries[-1].is_closed = True
        self.entries.append(Asked(self.name, at, rest, moment))

    def hear(self, at, moment, answer):
        """A line of an answer is of the last answered `poll`, where it may be, and else of the first line without an answer."""
        before = self.entries[self.waiting - 1] if self.waiting else None
        following = self.entries[self.waiting] if self.waiting < len(self.entries) else None
        is_more = answer.startswith("wc ") and before and not before.is_closed and before.words[0] == "poll" and len(before.answers) < before.most
        if is_more and before.answers[0].startswith("wc "):
            if following and following.words[0] == "poll":
                raise self.wrong(at, "it may be of either of two `poll`; put another line between them")
            entry = before
        elif following:
            entry, self.waiting = following, self.waiting + 1
        elif answer.startswith(AT_THE_END):
            return
        else:
            raise self.wrong(at, "an answer to no line")
        entry.answers.append(answer)
        entry.heard = moment


def merged(logs):
    """All lines with an answer, in an order that respects each node's own and the moments: as their answers were heard."""
    answered = [[entry for entry in entries if entry.answers] for entries in logs]
    return list(heapq.merge(*answered, key=lambda entry: (entry.heard, entry.asked)))


def overlaps(entries):
    """How many verbs were asked of a node before the one before them here, of another node, was answered."""
    return sum(one.heard > two.asked and one.log != two.log for one, two in zip(entries, entries[1:]))


class Listing:
    """The verbs and answers of merged lines, as a trace without inner steps. `links` of two ends become one `connect`."""

    def __init__(self, entries):
        self.lines, self.sources = [], []
        self.where, self.files, self.links, self.places = {}, {}, {}, {}
        self.names = {entry.answers[0].split()[1]: entry.words[1] for entry in entries
                      if entry.words[0] == "qp" and entry.answers[0].startswith("qp ") and len(entry.words) > 1}
        self.makers = {(entry.words[0], entry.words[1]): entry for entry in entries if entry.words[0] in MAKERS and not entry.answers[0].startswith("refused")
                       and len(entry.words) > 1}
        self.taken = set()
        for entry in entries:
            try:
                self.take(entry)
            except (IndexError, ValueError):
                raise LogError(f"{entry.log} line {entry.line}: no node answers such a line by `{entry.answers[0]}`") from None

    def take(self, entry):
        """Puts a line down, where it is a verb that counts as made and is not there yet."""
        if id(entry) in self.taken:
            return
        self.taken.add(id(entry))
        words, answer = entry.words, entry.answers[0]
        if answer.startswith("bad line") or answer in UNMADE:
            return
        if words[0] == "stop" and answer == "stopped":
            self.files[words[2]] = words[1]
            self.where.pop(words[1], None)
        elif words[0] == "restore" and answer == "ok":
            self.where[self.files.get(words[1], words[1])] = entry.log
        elif words[0] == "context":
            self.context(entry)
        elif words[0] == "link":
            self.link(entry)
        elif words[0] in grammar.VERBS and words[0] != "connect":
            self.verb(entry)

    def put(self, entry, line, at=None):
        """Writes a verb and its answer; at the end where no place is named."""
        at = len(self.lines) if at is None else at
        new = ["v " + line.lower(), *("= " + answer for answer in entry.answers)]
        self.lines[at:at] = new
        self.sources[at:at] = [entry] * len(new)
        if at + len(new) < len(self.lines):
            self.places = {pair: place + len(new) * (place >= at) for pair, place in self.places.items()}

    def context(self, entry):
        name = entry.words[1]
        if entry.answers[0] == "ok":
            if name in self.where or name in self.files.values():
                raise LogError(f"{entry.log} line {entry.line}: two contexts have the name {name}")
            self.where[name] = entry.log
        self.put(entry, f"context {name} made")

    def verb(self, entry):
        """A verb of an application. One that is asked where its context does not live is left out, if it was refused for that."""
        name = entry.words[1]
        context = name.split(".")[0]
        is_known = context in self.where or context in self.files.values()
        if is_known and self.where.get(context) != entry.log and entry.answers[0] in NOT_HERE:
            return
        pair = next((pair for pair in self.places if name in pair), None)
        is_early = entry.answers[0] == "refused BadState" and pair and name not in self.links
        self.put(entry, " ".join(entry.words), self.places[pair] if is_early else None)

    def make(self, name):
        """Puts down what makes a queue pair, where it is not there yet: it touches nothing else, so it may come earlier."""
        qp = self.makers["qp", name]
        _, _, domain, *queues = qp.words[:5]
        for kind, it in ("context", name.split(".")[0]), ("domain", domain), *(("cq", queue) for queue in queues):
            if (kind, it) in self.makers:
                self.take(self.makers[kind, it])
        self.take(qp)

    def link(self, entry):
        """The first of two lines that connect two ends becomes the connection. What makes the other end comes before it."""
        if entry.answers[0] != "ok":
            return
        _, name, number, _, *terms = entry.words
        partner = self.names.get(number.lower())
        if partner is None:
            raise LogError(f"{entry.log} line {entry.line}: no log has the queue pair {number}")
        expected = self.links.get(partner)
        if expected and (expected[0] != name or expected[1] != turned(terms)):
            raise LogError(f"{entry.log} line {entry.line}: it does not go with how {partner} was linked")
        self.links[name] = partner, terms
        if not expected:
            self.make(partner)
            self.places[frozenset((name, partner))] = len(self.lines)
            self.put(entry, " ".join(["connect", name, partner, *terms]))


def turned(terms):
    """The terms for the other end: its packet numbers stand first."""
    return [*terms[:3], terms[4], terms[3], *terms[5:]]


def read_log(path):
    """The entries of the log in a file."""
    try:
        text = Path(path).read_text(encoding="ascii")
    except (OSError, ValueError) as error:
        raise LogError(f"{path}: {getattr(error, 'strerror', None) or 'not ASCII'}") from None
    return text if text.startswith("v ") else Log(str(path)).read(text)

"""The trace of a run of nodes: verbs and answers in the order in which the nodes made them, and the inner steps between them."""
from look_parts.datagrams import read_datagram
from run_parts.naming import Naming
from trace_parts import grammar
from trace_parts.machine import Illegal, Machine

UNMADE = ("refused Stopped", "refused TooMany", "refused NoPage")


class Disagreement(Exception):
    """The machine cannot do what the devices did; the line of the trace, and why."""


class Record:
    """Writes a trace, and makes its steps in a machine as it goes."""

    def __init__(self):
        self.machine, self.lines, self.made = Machine(), [], {}
        self.naming = Naming(self.machine, self.make)
        self.connects = {}

    @staticmethod
    def written(name):
        """A name as a trace writes it."""
        return ".".join(name)

    # ---- verbs

    @staticmethod
    def plain(line):
        """A line with one space between words, and hexadecimal digits in lower case."""
        return " ".join(line.split()).lower()

    def verb(self, line, answer):
        """A verb and the lines of its answer. Verbs that are refused for a reason that the machine does not know do not count."""
        line, answers = self.plain(line), answer.split("\n")
        if answers[0] in UNMADE:
            return
        self.lines.append(f"v {line}")
        at = len(self.lines)
        self.lines += [f"= {told}" for told in answers]
        _, verb, fields = grammar.said(grammar.Words(f"v {line}"))
        try:
            self.machine.speak(at, verb, fields, answers)
        except Illegal as illegal:
            raise Disagreement(f"line {illegal.line}: {self.lines[min(illegal.line, len(self.lines)) - 1]}: {illegal.why}") from None

    def linked(self, one, two, terms):
        """One end was connected. The machine connects both as the first of them is."""
        pair = frozenset((one, two))
        if pair not in self.connects:
            self.connects[pair] = len(self.lines)
            self.verb(f"connect {self.written(one)} {self.written(two)} {terms}", "ok")

    def early(self, line, answer, pair):
        """A request was refused at an end that is not connected yet, while its partner is: it stands before the connection.

        It changed nothing, and the machine knows no connection of one end."""
        at = self.connects[pair]
        before = ["v " + self.plain(line), "= " + answer]
        self.lines[at:at] = before
        self.connects = {key: place + len(before) * (place > at) for key, place in self.connects.items()}
        self.connects[pair] = at + len(before)

    # ---- inner steps

    def make(self, step, q, *fields, always=False):
        """Makes an inner step where it is enabled, and says whether it was."""
        if not getattr(self.machine, step + "_step")(self.machine.end(q), *fields):
            if always:
                raise Disagreement(f"line {len(self.lines) + 1}: i {' '.join(map(str, (step, self.written(q), *fields)))}: step")
            return False
        self.made[step] = self.made.get(step, 0) + 1
        self.lines.append(" ".join(map(str, ("i", step, self.written(q), *fields))))
        return True

    def arrival(self, info, number, data, took, is_rnr):
        """A datagram was taken; `info` tells of the queue pair that it is for as it was before, or is None."""
        if info is None or info.state.name not in ("RUNNING", "PAUSED", "RESUMING"):
            return
        q = info.context, info.name
        self.naming.arrival(q, info.state.name == "PAUSED", number, read_datagram(data), took, is_rnr)

    def expiry(self, q, is_counted):
        """A retransmission timer expired."""
        self.naming.expiry(q, is_counted)

    def text(self):
        """The whole trace."""
        return "".join(line + "\n" for line in [*self.lines, "end"])

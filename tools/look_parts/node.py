"""The log of a node: its script with the answers that it wrote, and what they tell.

A node runs over a real link, so look does not run it: it lays the answers beside the lines. Of datagrams they tell only
how many were sent and taken. A capture of the link, as tcpdump writes it, tells their kinds.
"""
from collections import Counter
from dataclasses import dataclass
from pathlib import Path

from .answers import pair
from .captures import packets_of
from .datagrams import Offence, read_datagram, shown_address
from .dump_reader import Fault, read_dump
from .dump_writer import to_json
from .errors import LookError
from .explain import refusal
from .script import SHARED, lines_of, read_bytes
from .world import PAGE, Context, World

HERE = 0  # the one device of a node
STATUSES = {"bad": 3, "link": 6, "depot": 7, "out": 8, "missing": 12}

# What to look at where a line is refused: lines that a node alone has, and what is said otherwise of lines that `play` has too.
OF_A_NODE = {
    "BadState": "`{0}` is not linked; a `link` line comes first.",
    "NoPage": "The device has 8,192 pages of 4,096 bytes, and too few are free: drop regions, or let posted messages finish.",
}
SENTENCES = {
    ("link", "BadState"): "`{0}` is linked already.",
    ("link", "NoSuch"): "There is no queue pair `{0}` here.",
    ("context", "NumberTaken"): "A context or a husk has the name `{0}` already.",
    ("stop", "NoSuch"): "No context `{0}` lives here.",
    ("stop", "PeerMoving"): "The partner of a queue pair of `{0}` moves, or was not heard since its own move: `serve` until it runs.",
    ("restore", "NumberTaken"): "The context of the dump `{0}`, its husk, or a number or key of it is here: `release` its name first.",
    ("restore", "NoPage"): "The device has 8,192 pages of 4,096 bytes, and too few are free for the dump `{0}`.",
    ("release", "NoSuch"): "No husk of `{0}` is here.",
}


class NodeWorld(World):
    """The device of a node, as far as its answers tell it."""

    def __init__(self):
        super().__init__()
        self.files = {}  # the name of a dump -> the context that was stopped into it

    def do_context(self, line, rest, answer):
        self.contexts[rest[0]] = Context(rest[0], line.number, HERE)

    def do_link(self, line, rest, answer):
        if end := self.end(rest[0]):
            end.connected = line.number

    def do_stop(self, line, rest, answer):
        self.files[rest[1]] = rest[0]
        if context := self.contexts.get(rest[0]):
            context.device, context.stopped = None, line.number

    def do_restore(self, line, rest, answer):
        if context := self.contexts.get(self.files.get(rest[0])):
            context.device, context.restored = HERE, line.number

    def do_release(self, line, rest, answer):
        pass

    # A context that came from elsewhere by a dump is not known: no line says what it has.

    def apply(self, answered):
        if answered.line.verb not in SHARED or self.context(answered.line.rest[0]):
            super().apply(answered)

    def refusal(self, answered):
        """What to look at where a line was refused; this is the world before the line."""
        verb, rest, cause = answered.line.verb, answered.line.rest, answered.words[1]
        context = self.context(rest[0])
        if cause == "Stopped" and context:
            return f"Line {context.stopped} stopped context `{context.name}`; restore its dump first."
        sentence = SENTENCES.get((verb, cause)) or (OF_A_NODE.get(cause) if verb in SHARED else None)
        if sentence:
            return sentence.format(rest[0])
        if verb in SHARED and context:
            return refusal(self, answered)
        return f"docs/scripts.md says when a line is refused with {cause}."


def read_log(script_name, log_name):
    """The lines of a node's script with the answers of its log."""
    lines = lines_of(read_bytes(script_name))
    answers = read_bytes(log_name).decode("ascii", "replace").splitlines()
    if next((line.verb for line in lines if not line.is_blank), None) == "device":
        raise LookError(f"{script_name} is a script of `play`: a node has no line `device`")
    played = pair(lines, 0, answers, is_log=True)
    if played.ending:
        played.status = STATUSES.get(played.ending.text.split()[0], 0)
    return played


# ---- statistics

@dataclass
class Move:
    """A context that was stopped into a file, or restored from one, or both."""
    file: str
    context: str = None
    stop: int = None
    restore: int = None


def moves_of(answered):
    """What went into the depot and came out of it, in the order of the lines."""
    moves = []
    for a in answered:
        if a.is_refused or a.line.verb not in ("stop", "restore"):
            continue
        file = a.line.rest[-1]
        waiting = next((m for m in reversed(moves) if m.file == file and m.restore is None), None)
        if a.line.verb == "stop":
            moves.append(Move(file, a.line.rest[0], a.line.number))
        elif waiting:
            waiting.restore = a.line.number
        else:
            moves.append(Move(file, restore=a.line.number))
    return moves


def weighed(path):
    """The bytes of a dump and the pages of its regions; None where there is no such file, or no dump in it."""
    try:
        data = path.read_bytes()
    except OSError:
        return None, None
    try:
        image, _ = read_dump(data)
    except Fault:
        return len(data), None
    return len(data), sum(-(-region["length"] // PAGE) for region in to_json(image)["regions"])


def move_row(move, depot):
    size, pages = weighed(Path(depot) / move.file) if depot and move.restore is None else (None, None)
    return {
        "file": move.file, "context": move.context, "stop": move.stop, "restore": move.restore,
        "lines": move.restore - move.stop + 1 if move.stop and move.restore else None,
        "dump bytes": size, "pages of regions": pages,
    }


def counts_of(answered):
    """How many datagrams the lines tell."""
    sent = [int(a.words[1]) for a in answered if a.line.verb == "go" and a.words[0] == "sent"]
    return {
        "sent by lines `go`": len(sent),
        "sent in all up to the last of them": max(sent, default=0),
        "taken by lines `serve`": sum(int(a.words[1]) for a in answered if a.words[0] == "served"),
    }


def timers_of(answered):
    told = Counter()
    for a in answered:
        if a.line.verb == "expire" and not a.is_refused:
            told["expiries counted" if a.words[0] == "expired" else a.first] += 1
        elif a.line.verb == "rnr" and not a.is_refused:
            told[f"RNR timer {a.first}"] += 1
    return dict(told)


def captured(name):
    """The datagrams of a capture by kind and sender, and how many of each came with the same bytes before."""
    rows, seen = {}, set()
    for start, end, data in packets_of(read_bytes(name), name):
        packet = read_datagram(data)
        kind = "no datagram" if isinstance(packet, Offence) else packet.kind
        row = rows.setdefault((kind, shown_address(start, always=True)), Counter())
        row["datagrams"] += 1
        row["with the same bytes as one before"] += (start, end, data) in seen
        seen.add((start, end, data))
    return [{"kind": kind, "from": start, **row} for (kind, start), row in sorted(rows.items())]


def cannot_tell(has_capture):
    told = ["The expiries and RNR timers of `serve`, and what the datagrams that it took did, are told by no answer."]
    if has_capture:
        told.append("Which datagrams were lost is told by no capture of one side: one with the same bytes as an earlier one was sent again, or came twice.")
    else:
        told.append("The kinds of datagrams are told by no answer; a capture of the link tells them (--capture).")
    told.append("When the ends of a restored context run again is told by no answer of a node, nor is what a dump held that lies in the depot no more.")
    return told


def statistics(played, asked):
    """All that a log tells, as a value for JSON."""
    answered = [a for a in played.answered if not a.line.is_blank]
    entries = [answer.split() for a in answered for answer in a.answers if answer.startswith("wc ")]
    return {
        "lines": len(answered),
        "ending": played.ending.text if played.ending else None,
        "counts": counts_of(answered),
        "captured": captured(asked.capture) if asked.capture else [],
        "timers": timers_of(answered),
        "completions": dict(sorted(Counter(f"{words[3]}, status {words[4]}" for words in entries).items())),
        "refusals": dict(Counter(a.words[1] for a in answered if a.is_refused)),
        "moves": [move_row(move, asked.depot) for move in moves_of(answered)],
        "not told": cannot_tell(asked.capture),
    }

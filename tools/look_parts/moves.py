"""The moves of a script: from `stop` to the line after which each end of the context runs again."""
from dataclasses import dataclass

from .datagrams import RESUME_ACK_OPCODE, RESUME_OPCODE
from .world import PAGE

LARGEST = 4096  # pages of the largest region


@dataclass
class Move:
    context: str
    stop: int  # the line
    left: int  # the device
    restore: int = None
    reached: int = None
    running: int = None  # the line after which each end that sent RESUME runs
    ends: int = 0  # connected ends
    resumed: int = 0  # those that sent RESUME
    ran: int = 0  # .. and run again
    datagrams: int = None  # sent from the stop on, up to the one by which the last end runs
    dump_bytes: int = None
    pages: int = None

    @property
    def lines(self):
        """How many lines there are from the stop to running, both counted."""
        return None if self.running is None else self.running - self.stop + 1


def moves_of(story):
    """The moves, with what the story tells of them."""
    moves, homes = [], {}
    for answered in story.copy.answered:
        rest = answered.line.rest
        if answered.is_refused:
            continue
        if answered.line.verb == "context":
            homes[rest[0]] = int(rest[1])
        elif answered.line.verb == "stop":
            moves.append(Move(rest[0], answered.line.number, homes[rest[0]]))
        elif answered.line.verb == "restore":
            move = next(m for m in reversed(moves) if m.context == rest[0])
            move.restore, move.reached = answered.line.number, int(rest[1])
            homes[rest[0]] = int(rest[1])
    for move in moves:
        follow(story, move, next_stop(moves, move))
    return moves


def next_stop(moves, move):
    """The line of the next stop of the same context, or None."""
    return next((m.stop for m in moves if m.context == move.context and m.stop > move.stop), None)


def follow(story, move, end_line):
    """When the ends of a moved context run again."""
    ends = [e for e in story.world.contexts[move.context].ends.values() if e.partner and e.connected < move.stop]
    move.ends = len(ends)
    if move.restore is None:
        return
    moved = [f for f in story.flights.values() if f.packet and move.restore < f.line and (end_line is None or f.line < end_line)]
    resuming = {f.sender.number for f in moved if f.packet.opcode == RESUME_OPCODE and f.sender.context.name == move.context}
    acknowledged = {}  # an end -> the line and the number of the datagram by which it runs
    for flight in moved:
        if flight.packet.opcode == RESUME_ACK_OPCODE and flight.packet.dest in resuming and flight.packet.dest not in acknowledged:
            line = next((d.line for d in flight.deliveries if d.did in (None, "running")), None)
            if line is not None and (end_line is None or line < end_line):
                acknowledged[flight.packet.dest] = line, flight
    move.resumed, move.ran = len(resuming), len(acknowledged)
    if resuming and len(acknowledged) == len(resuming):
        move.running, last = max(acknowledged.values(), key=lambda pair: (pair[0], pair[1].number))
        move.datagrams = sum(was_sent_by(f, move.running, last) for f in story.flights.values() if f.line > move.stop)
    elif not ends:
        move.running, move.datagrams = move.restore, 0


def was_sent_by(flight, line, last):
    """The datagram was sent before a line, or by it: by a `settle` only as far as the last one that counts."""
    return flight.line < line or flight.line == line and (last.line != line or flight.number <= last.number)


# ---- what the moved context weighs

def weigh(story, moves):
    """The bytes of the dumps and the pages of the images."""
    answers = story.copy.ask_in_parts([(m.stop, f"dump {m.context}") for m in moves], "dumps")
    for move, answer in zip(moves, answers):
        if answer.startswith("dump "):
            move.dump_bytes = int(answer.split()[1])
        before = free_pages(story, move.stop - 1, move.left)
        after = free_pages(story, move.stop, move.left)
        if before is not None and after is not None:
            move.pages = after - before


def free_pages(story, last, device):
    """The free pages of a device after a line: a new context there takes what it gets. None where there is no room for one."""
    name = next(n for n in (f"look{i}" for i in range(10_000)) if n not in story.world.contexts)
    sizes, size = [LARGEST], LARGEST
    while size:
        sizes.append(size)
        size //= 2
    lines = [f"context {name} {device}", f"domain {name}.p"]
    lines += [f"region {name}.m{i} {name}.p 0 {pages * PAGE} -" for i, pages in enumerate(sizes)]
    before = [a for a in story.copy.answered if a.line.number <= last]
    script = b"".join(a.line.raw + b"\n" for a in before) + "\n".join(lines).encode() + b"\n"
    _, answers = story.program.play(script)
    answers = answers[-len(lines):]
    if answers[:2] != ["ok", "ok"] or any(a.startswith("refused ") and a != "refused NoPage" for a in answers):
        return None
    return sum(pages for pages, answer in zip(sizes, answers[2:]) if answer.startswith("region "))

"""tools/shrink: the fewest lines of a script that still show a given answer, by delta debugging.

Lines are left out in ever smaller pieces, from the end to the beginning, since what stands later depends on what stands
earlier; then all lines of one name, single lines, and lines two by two. What is left is played, and kept only where it
still shows the answer. Where a line is left out, later datagrams and keys get other numbers. So a piece is first tried with
the numbers that its lines should then name, and, where that does not show the answer, as it is.
"""
import argparse
import itertools
from fnmatch import fnmatchcase

from .answers import pair
from .errors import LookError, warn
from .flights import sent_numbers
from .pcap import write_output
from .program import Program
from .progress import Progress
from .script import FORMS, Line, lines_of, read_bytes, words_of

NAMES_DATAGRAM = ("deliver", "lose", "wire")
MAKES_NAME = ("context", "domain", "region", "cq", "qp")
MOST_PAIRED = 60  # of longer scripts lines are not left out two by two
MOST_RUNS = 20_000

WORDS = (
    "WORDS are the first words of the answer. A star in a word stands for any characters, so '*' is any word: "
    "--answer 'wc * 3 write 12', --last 'bad line * column * name'.")


def shows(wanted, answer):
    """The answer begins with the words that are wanted."""
    words = answer.split()
    return len(wanted) <= len(words) and all(map(fnmatchcase, words, wanted))


class Wanted:
    """What a script has to show: an answer of any line, an answer of one line, or the last line of all."""

    def __init__(self, words, is_last=False, line=None):
        self.words = words.split()
        self.is_last = is_last
        self.line = line  # the number of a line that stays, and whose answer it has to be

    def is_shown(self, played):
        if self.is_last:
            answers = [answer for a in played.answered for answer in a.answers]
            last = played.ending.text if played.ending else answers[-1] if answers else ""
            return shows(self.words, last)
        return any(shows(self.words, answer) for a in played.answered for answer in a.answers if self.line is None or a.line.number == self.line)


# ---- numbers that depend on earlier lines

def sent_by(answered):
    """Which line sent which datagrams, by the answers. What a `settle` sent is told by the number that follows; of several in a
    row the first takes them all, which may be wrong: then a candidate does not show the answer, and nothing is lost."""
    sent, last, settle = {}, 0, None
    for at, a in enumerate(answered):
        numbers = sent_numbers(a.words) if a.line.verb in ("go", "deliver") else None
        if numbers:
            if settle is not None and numbers[0] > last + 1:
                sent[settle] = range(last + 1, numbers[0])
            sent[at], last, settle = range(numbers[0], numbers[1] + 1), numbers[1], None
        elif a.line.verb == "settle" and settle is None:
            settle = at
    return sent


def keys_of(answered):
    """The two keys that a line `region` was answered with, by its place."""
    return {at: a.words[1:] for at, a in enumerate(answered) if a.line.verb == "region" and a.words[:1] == ["region"]}


def new_datagrams(answered, kept):
    """Old number -> new number, or None where the line that sent it is left out."""
    new, following = {}, 1
    for at, numbers in sent_by(answered).items():
        for number in numbers:
            new[number] = following if at in kept else None
            following += at in kept
    return new


def new_keys(answered, kept):
    """Old key -> new key: a device counts the keys that it gives."""
    new, given = {}, {}
    for at, keys in keys_of(answered).items():
        given.setdefault(keys[0][:2], []).append(keys)
        if at in kept:
            count = sum(key[:2] == keys[0][:2] for key in new) // 2
            new |= dict(zip(keys, given[keys[0][:2]][count]))
    return new


def renumbered(line, datagrams, keys):
    """The line with its new numbers, or None where the datagram that it names is left out."""
    words = [word.text for word in line.words]
    if line.verb in NAMES_DATAGRAM and len(words) == 2 and words[1].isdigit():
        new = datagrams.get(int(words[1]), int(words[1]))
        if new is None:
            return None
        words[1] = str(new)
    for at, (_, kind) in enumerate(FORMS.get(line.verb, ()), 1):
        if kind == "key" and at < len(words):
            words[at] = keys.get(words[at].lower(), words[at])
    if words == [word.text for word in line.words]:
        return line
    raw = " ".join(words).encode("latin-1")
    return Line(line.number, raw, words_of(raw))


class Shrinker:
    """A script that shows what is wanted, and gets smaller."""

    def __init__(self, program, lines, wanted, most_runs=MOST_RUNS):
        self.program, self.wanted, self.most_runs = program, wanted, most_runs
        self.progress = Progress("shrink")
        self.runs = 0
        self.lines, self.played = lines, self.play(lines)

    @property
    def is_spent(self):
        return self.runs >= self.most_runs

    def play(self, lines):
        """Plays lines. Each keeps the number that it has in the whole script; only a bad one is told by its place here."""
        self.runs += 1
        status, answers = self.program.play(b"".join(line.raw + b"\n" for line in lines))
        played = pair([Line(at, line.raw, line.words) for at, line in enumerate(lines, 1)], status, answers)
        for answered, line in zip(played.answered, lines):
            answered.line = line
        return played

    def try_lines(self, lines):
        """Takes the lines where they show what is wanted."""
        if self.is_spent:
            return False
        played = self.play(lines)
        if not self.wanted.is_shown(played):
            return False
        self.lines, self.played = lines, played
        self.progress.show(f"{len(lines)} lines after {self.runs} runs of the program")
        return True

    def leave_out(self, places):
        """Leaves out the lines at these places, where what is wanted is still shown."""
        kept = [at for at in range(len(self.lines)) if at not in places]
        answered = self.played.answered
        datagrams, keys = new_datagrams(answered, set(kept)), new_keys(answered, set(kept))
        old = [self.lines[at] for at in kept]
        new = [line for line in (renumbered(line, datagrams, keys) for line in old) if line]
        return self.try_lines(new) or new != old and self.try_lines(old)

    # ---- passes, each of which says whether it left anything out

    def leave_out_pieces(self, size):
        at, count = len(self.lines), len(self.lines)
        while at > 0:
            start = max(0, at - size)
            self.leave_out(set(range(start, at)))
            at = min(start, len(self.lines))
        return len(self.lines) < count

    def leave_out_names(self):
        """Leaves out all lines of a context, or of one thing of a context."""
        count = len(self.lines)
        for name in [line.rest[0] for line in self.lines if line.verb in MAKES_NAME and line.rest]:
            self.leave_out({at for at, line in enumerate(self.lines) if any(f"{word}.".startswith(f"{name}.") for word in line.rest)})
        return len(self.lines) < count

    def leave_out_pairs(self):
        """Leaves out two lines where one alone cannot go, such as a posting and its `go`."""
        if len(self.lines) > MOST_PAIRED:
            return False
        return any(self.leave_out(set(places)) for places in itertools.combinations(range(len(self.lines)), 2))

    def shrink(self):
        size = len(self.lines) // 2
        while size > 1:
            self.leave_out_pieces(size)
            size //= 2
        self.leave_out_names()
        while self.leave_out_pieces(1) or self.leave_out_names() or self.leave_out_pairs():
            pass
        self.progress.clear()


def parser():
    words = argparse.ArgumentParser(prog="shrink", description=__doc__.split("\n\n")[0].partition(": ")[2].capitalize(), epilog=WORDS)
    words.add_argument("script", help="the script's file, or - for standard input")
    wanted = words.add_mutually_exclusive_group(required=True)
    wanted.add_argument("--answer", metavar="WORDS", help="what some line of the script answers")
    wanted.add_argument("--last", metavar="WORDS", help="the last line of all answers, such as `bad line ..`")
    words.add_argument("--line", metavar="N", type=int, help="with --answer: the answer is that of line N, and this line stays")
    words.add_argument("--out", metavar="FILE", default="-", help="the file to write (else standard output)")
    words.add_argument("--runs", metavar="MOST", type=int, default=MOST_RUNS, help=f"how often the program may be run (else {MOST_RUNS:,})")
    words.add_argument("--program", metavar="PATH", help="the program to run, as for tools/look")
    return words


def wanted_of(asked, lines):
    """What is asked for, of these lines."""
    if asked.line is None:
        return Wanted(asked.answer or asked.last, is_last=asked.last is not None)
    if asked.last is not None:
        raise LookError("--line goes with --answer")
    if not 1 <= asked.line <= len(lines) or lines[asked.line - 1].is_blank:
        raise LookError(f"--line {asked.line} is no line that has an answer: the script has {len(lines)} lines")
    return Wanted(asked.answer, line=asked.line)


def shrunk(program, asked):
    """The lines that are left, and how it went, in one sentence."""
    lines = lines_of(read_bytes(asked.script))
    wanted = wanted_of(asked, lines)
    shrinker = Shrinker(program, lines, wanted, asked.runs)
    if not wanted.is_shown(shrinker.played):
        raise LookError(f"{asked.script} does not show {' '.join(wanted.words)!r}, so there is nothing to shrink")
    shrinker.shrink()
    told = f"{len(lines)} lines became {len(shrinker.lines)} in {shrinker.runs} runs of the program"
    if shrinker.is_spent:
        told += "; these were all runs that it may take (--runs), so more lines may go"
    return shrinker.lines, told


def main(words):
    asked = parser().parse_args(words)
    try:
        lines, told = shrunk(Program(asked.program), asked)
        write_output(asked.out, b"".join(line.raw + b"\n" for line in lines), f"{len(lines)} lines")
        warn(told, "shrink")
    except LookError as fault:
        warn(fault, "shrink")
        return fault.status
    except KeyboardInterrupt:
        return 130
    return 0

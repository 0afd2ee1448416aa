"""look generate: the generated script of a seed as lines, and the same over a network that is hostile.

The hostile network is lines before each `settle` of the script. All ends send, and each datagram that is in flight is delivered, lost,
delivered twice, delivered behind all others, or delivered after an expiry. What these deliveries sent has the same fate, twice
over, and what is left then is left to the `settle`. Which datagrams there are is told by the answers of the program, which plays the
lines so far. The choices are those of a stream of the generator, so the same words give the same script.
"""
import re

from .answers import play
from .errors import LookError
from .generated import generated_script, words_of
from .pcap import write_output
from .progress import Progress
from .script import lines_of

STREAM = 2  # the script itself is made by stream 1
ROUNDS = 3
SENT = re.compile(r"\bsent (\d+)(?: to (\d+))?$")
DELIVER, LOSE, TWICE, LATE, EXPIRE = range(5)


def told_by(answers):
    """The numbers of the datagrams that answers say were sent."""
    for answer in answers:
        if found := SENT.search(answer):
            yield from range(int(found[1]), int(found[2] or found[1]) + 1)


def fate_of(word, percent):
    """What becomes of a datagram, by a word of the generator."""
    return DELIVER if word % 100 >= percent else (LOSE, TWICE, LATE, EXPIRE)[word // 128 % 4]


class Network:
    """The hostile network of a script: the lines so far, and what is known of the datagrams since the last `settle`."""

    def __init__(self, program, seed, connections, percent):
        self.program, self.percent, self.words = program, percent, words_of(seed, STREAM)
        self.connections, self.lines, self.begun, self.decided = connections, [], 0, set()
        self.progress = Progress("look")

    def add(self, line):
        """A line of the generated script, after what the network does before it."""
        if line == "settle":
            for _ in range(ROUNDS):
                self.lines += [f"go {context}.q{i}" for i in range(1, self.connections + 1) for context in "ab"]
                self.lines += self.fates(self.fresh())
            self.begun, self.decided = len(self.lines) + 1, set()
        self.lines.append(line)

    def fresh(self):
        """The datagrams that were sent since the last `settle`, and whose fate is open."""
        self.progress.show(f"{len(self.lines)} lines")
        script = "".join(line + "\n" for line in self.lines).encode()
        played = play(self.program, lines_of(script), script)
        if played.ending:
            raise LookError(f"the script with its network ends early: {played.ending.text}", played.status)
        told = {number for answered in played.answered[self.begun:] for number in told_by(answered.answers)}
        return sorted(told - self.decided)

    def fates(self, numbers):
        """The lines by which these datagrams meet their fates. An end's timer expires once in them at most, so no retries run out."""
        now, late, expired = [], [], set()
        for number in numbers:
            word = next(self.words)
            fate, end = fate_of(word, self.percent), f"a.q{word // 512 % self.connections + 1}"
            if fate == EXPIRE and end not in expired:
                expired.add(end)
                now.append(f"expire {end}")
            if fate == LOSE:
                now.append(f"lose {number}")
            else:
                (late if fate == LATE else now).append(f"deliver {number}")
            if fate == TWICE:
                late.append(f"deliver {number}")
        self.decided.update(numbers)
        return now + late


def hostile_script(program, numbers, percent):
    """The generated script over a hostile network, as bytes."""
    if not 1 <= percent <= 100:
        raise LookError(f"--hostile is {percent}, and its range is 1 to 100")
    seed, connections, *_ = numbers
    network = Network(program, seed, connections, percent)
    for line in generated_script(*numbers).decode().splitlines():
        network.add(line)
    network.progress.clear()
    return "".join(line + "\n" for line in network.lines).encode()


def generate(program, asked):
    """The subcommand."""
    numbers = asked.seed, asked.connections, asked.messages, asked.moves
    script = generated_script(*numbers) if asked.hostile is None else hostile_script(program, numbers, asked.hostile)
    write_output(asked.file, script, f"{len(lines_of(script))} lines")
    return 0

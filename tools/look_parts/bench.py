"""tools/bench: bandwidth, rate and latency of WRITEs between two nodes over loopback, in the columns of perftest.

Two processes of the command `node` write to each other. Their scripts are written beforehand, so they say when a packet goes
(`go`) and when an acknowledgement is taken (`serve`): a packet asks for one where it is the last of its message, or where
its number mod 8 is 7 (docs/wire.md). A time is taken as an answer is read. A bare loop sends datagrams of the same lengths over
two UDP sockets, as many at a time, and takes 20 bytes for each that asks for an answer.
"""
import argparse
import json
import math
import os
import signal
import socket
import struct
import subprocess
import tempfile
import time
from pathlib import Path

from .errors import LookError, warn
from .program import find_program
from .progress import Progress
from .stats import table

HOST = "127.0.0.1"
SIZES = (2, 64, 256, 1024, 4096, 16_384, 65_536)
MOST_SIZE, MTUS = 1_048_576, (256, 512, 1024, 2048, 4096)
LEAST_DEPTH, MOST_DEPTH = 8, 64  # of eight packets in a row one asks for an acknowledgement; 64 is the window
BATCH, BATCH_BYTES = 100, 8 << 20  # writes that are posted together: the queue holds 256, and their bytes take pages
RUN, RUN_PACKETS = 1000, 90_000  # writes and packets of one run of the nodes: a script has at most 1 MiB, of which a packet takes 8 bytes
LATE_TURNS = 300  # turns of 10 ms for what came late
TRIES = 3
MEGABYTE = 1 << 20  # as perftest counts
HEAD, RETH, CRC = 12, 16, 4
ACKNOWLEDGEMENT = bytes(20)
PERCENTS = (50, 99, 99.9)
COLUMNS = ("#bytes", "#iterations", "BW average[MB/s]", "MsgRate[Mpps]", *(f"{p}%[usec]" for p in PERCENTS))


class Disturbed(Exception):
    """A run that does not count, since what it waited for did not come in time."""


class Terms:
    """What is measured: the bytes of a message, the MTU, and how many packets may be unacknowledged."""

    def __init__(self, size, mtu, depth):
        self.size, self.mtu, self.depth = size, mtu, depth

    @property
    def packets(self):
        """Packets of a message."""
        return max(1, -(-self.size // self.mtu))

    @property
    def batch(self):
        return max(1, min(BATCH, BATCH_BYTES // self.size))

    @property
    def writes_of_a_run(self):
        return max(1, min(RUN, RUN_PACKETS // self.packets))

    def asks(self, number):
        """Whether a packet, counted from 0 on, asks for an acknowledgement. The packet numbers begin with 0."""
        return number % self.packets == self.packets - 1 or number % 8 == 7

    def bytes_of(self, number):
        """The bytes of a datagram."""
        place = number % self.packets
        payload = min(self.mtu, self.size - place * self.mtu)
        return HEAD + (RETH if place == 0 else 0) + -(-payload // 4) * 4 + CRC

    def steps(self, first, count):
        """Packets of whole messages: True where one is sent, and False where the next acknowledgement is waited for."""
        sent = taken = first
        while taken < first + count:
            if sent < first + count and sent - taken < self.depth:
                yield True
                sent += 1
            else:
                yield False
                taken = next(number for number in range(taken, sent) if self.asks(number)) + 1


# ---- nodes

def opening(name, port, number, terms):
    """The lines that make one end of the connection."""
    return [f"context {name}", f"domain {name}.p", f"region {name}.m {name}.p 4096 {terms.size} lw", f"cq {name}.c 256",
            f"qp {name}.q {name}.p {name}.c {name}.c 256 1",
            f"link {name}.q {number} {HOST}:{port} mtu {terms.mtu} psn 0 0 retry 7 rnr 7 reads 1"]


def batch(terms, first, count, name):
    """The lines of some writes, from packet `first` on, of which the last one completes. A turn of `serve` takes an acknowledgement
    and sends a packet if there is one, so a packet that is sent right behind it has no line."""
    write = f"write a.q {name} 01000002 4096 {terms.size} 4096 02000003"
    lines = [f"{write} quiet"] * (count - 1) + [write]
    turns, behind_turn = 0, False
    for is_sent in terms.steps(first, count * terms.packets):
        if not is_sent:
            turns, behind_turn = turns + 1, True
        elif behind_turn:
            behind_turn = False
        else:
            lines += [f"serve {turns}"] * (turns > 0) + ["go a.q"]
            turns = 0
    return [*lines, f"serve {turns}", "poll a.c 256"]


def script(terms, port, counts):
    """The script of the node that writes: batches of so many writes, and turns for what came late."""
    lines, first = opening("a", port, "020001", terms), 0
    for name, count in enumerate(counts, 1):
        lines += batch(terms, first, count, name)
        first += count * terms.packets
    return [*lines, *["serve 1", "poll a.c 256"] * LATE_TURNS]


def free_ports():
    """Two ports of loopback at which nobody listens."""
    try:
        with socket.socket(type=socket.SOCK_DGRAM) as one, socket.socket(type=socket.SOCK_DGRAM) as two:
            one.bind((HOST, 0))
            two.bind((HOST, 0))
            return one.getsockname()[1], two.getsockname()[1]
    except OSError as fault:
        raise LookError(f"there is no UDP socket at {HOST}: {fault.strerror}") from None


class Node:
    """A process of the command `node`."""

    def __init__(self, program, id_, port, lines, folder):
        given = Path(folder) / f"{id_}.script"
        given.write_text("".join(line + "\n" for line in lines))
        with given.open("rb") as source:
            self.process = subprocess.Popen(
                [program, "node", str(id_), f"{HOST}:{port}"], stdin=source, stdout=subprocess.PIPE, stderr=subprocess.DEVNULL, cwd=folder)

    def answer(self):
        """The next answer, and when it was read."""
        line = self.process.stdout.readline().decode("ascii", "replace").strip()
        if not line or line.startswith(("link fault", "usage", "bad line")):
            raise LookError(f"a node ended early: {line or 'no answer'} (status {self.process.wait()})")
        if line.startswith("refused"):
            raise Disturbed(line)
        return line, time.perf_counter()

    def opened(self):
        """When the last line of the opening is answered."""
        while True:
            line, _ = self.answer()
            if line.startswith("qp "):
                return self.answer()[1]

    def end(self):
        self.process.kill()
        self.process.wait()
        self.process.stdout.close()


def completions(program, terms, counts):
    """When the connection stood, and then when each batch of writes was completed, and whether an earlier poll found nothing."""
    ports = free_ports()
    with tempfile.TemporaryDirectory() as folder:
        nodes = [Node(program, 2, ports[1], opening("b", ports[0], "010001", terms) + ["serve 100000"] * 10, folder)]
        try:
            nodes[0].opened()
            nodes.append(Node(program, 1, ports[0], script(terms, ports[1], counts), folder))
            yield nodes[1].opened(), False
            for name in range(1, len(counts) + 1):
                line, is_late = "", False
                while not line.startswith("wc "):
                    line, moment = nodes[1].answer()
                    is_late = is_late or line == "none"
                if line != f"wc 010001 {name} write 0 {terms.size}":
                    raise Disturbed(line)
                yield moment, is_late
        finally:
            for node in nodes:
                node.end()


def in_parts(count, most):
    return [most] * (count // most) + [count % most] * (count % most > 0)


def node_seconds(program, terms, count):
    """How long so many writes take, with as many packets in flight as may be."""
    total = 0
    for part in in_parts(count, terms.writes_of_a_run):
        moments = [moment for moment, _ in completions(program, terms, in_parts(part, terms.batch))]
        total += moments[-1] - moments[0]
    return total


def node_latencies(program, terms, count):
    """The seconds of each of so many writes, one after the other. A late one is completed by a poll of the next one, and so would
    all that follow it: so it ends its run, and a new one goes on."""
    told = []
    while len(told) < count:
        before = None
        for moment, is_late in completions(program, terms, [1] * min(terms.writes_of_a_run, count - len(told))):
            if before is not None:
                told.append(moment - before)
            if is_late:
                break
            before = moment
    return told


# ---- the bare loop

def echo(own):
    """Answers each datagram whose first byte asks for it, for ever."""
    buffer = bytearray(1 << 16)
    take, send = own.recv_into, own.send
    while True:
        take(buffer)
        if buffer[0]:
            send(ACKNOWLEDGEMENT)


class Loop:
    """Two sockets, and a process that answers at the other one."""

    def __enter__(self):
        self.its, self.mine = socket.socket(type=socket.SOCK_DGRAM), socket.socket(type=socket.SOCK_DGRAM)
        self.its.bind((HOST, 0))
        self.mine.bind((HOST, 0))
        self.mine.connect(self.its.getsockname())
        self.its.connect(self.mine.getsockname())
        # What does not come within a second was lost. The system waits for it, and not Python's own timeout, which asks twice.
        self.mine.setsockopt(socket.SOL_SOCKET, socket.SO_RCVTIMEO, struct.pack("ll", 1, 0))
        self.child = os.fork()
        if self.child == 0:
            echo(self.its)
        return self

    def __exit__(self, *_):
        os.kill(self.child, signal.SIGKILL)
        os.waitpid(self.child, 0)
        self.its.close()
        self.mine.close()

    def run(self, plan):
        """Sends datagrams and takes answers, as planned."""
        send, take = self.mine.send, self.mine.recv
        try:
            for data in plan:
                if data is None:
                    take(64)
                else:
                    send(data)
        except BlockingIOError:
            raise Disturbed("a datagram of the bare loop was lost") from None


def plan_of(terms, first, count):
    """The datagrams of so many messages in order, and None where an answer is taken. It is made before the time is taken."""
    number, kept = first * terms.packets, {}
    for is_sent in terms.steps(number, count * terms.packets):
        if not is_sent:
            yield None
            continue
        form = terms.asks(number), terms.bytes_of(number)
        yield kept.setdefault(form, bytes([form[0]]) + bytes(form[1] - 1))
        number += 1


def bare_seconds(terms, count):
    plan = list(plan_of(terms, 1, count))
    with Loop() as loop:
        loop.run(plan_of(terms, 0, 1))
        begun = time.perf_counter()
        loop.run(plan)
        return time.perf_counter() - begun


def bare_latencies(terms, count):
    told, plans = [], [list(plan_of(terms, number, 1)) for number in range(1, count + 1)]
    with Loop() as loop:
        loop.run(plan_of(terms, 0, 1))
        before = time.perf_counter()
        for plan in plans:
            loop.run(plan)
            moment = time.perf_counter()
            told.append(moment - before)
            before = moment
    return told


# ---- rows

def percentile(times, percent):
    """The least time that so many percent of all times do not exceed."""
    ordered = sorted(times)
    return ordered[max(0, math.ceil(percent * len(ordered) / 100) - 1)]


def row(terms, count, seconds, times):
    """A row of the table, with the seconds that it was made from."""
    told = dict(zip(COLUMNS, (terms.size, count, count * terms.size / MEGABYTE / seconds, count / seconds / 1e6)))
    told |= {f"{percent}%[usec]": percentile(times, percent) * 1e6 for percent in PERCENTS}
    return told | {"seconds": seconds, "seconds one by one": sum(times)}


def undisturbed(measure, *words):
    """Measures again where a run was disturbed."""
    for _ in range(TRIES):
        try:
            return measure(*words)
        except Disturbed as fault:
            told = fault
    raise LookError(f"each of {TRIES} runs was disturbed ({told}): the machine is too busy, or --depth too large for its buffers")


def measured(program, asked, progress):
    """The rows of the nodes and of the bare loop."""
    rows = {"nodes": [], "bare UDP loop": []}
    for size in asked.size or SIZES:
        terms, count = Terms(size, asked.mtu, asked.depth), asked.iterations
        for name, seconds, latencies in [
            ("nodes", lambda *w: node_seconds(program, *w), lambda *w: node_latencies(program, *w)),
            ("bare UDP loop", bare_seconds, bare_latencies),
        ]:
            progress.show(f"{name}, {size} bytes")
            rows[name].append(row(terms, count, undisturbed(seconds, terms, count), undisturbed(latencies, terms, count)))
    progress.clear()
    return rows


def shown(told):
    return [told["#bytes"], told["#iterations"], f"{told['BW average[MB/s]']:.2f}", f"{told['MsgRate[Mpps]']:.6f}",
            *(f"{told[f'{percent}%[usec]']:.1f}" for percent in PERCENTS)]


def parser():
    words = argparse.ArgumentParser(
        prog="bench", description="Measures WRITEs between two nodes over loopback: bandwidth and rate with many packets in flight, "
        "latency one by one. Beside them stands a bare UDP loop of datagrams of the same lengths.")
    words.add_argument("-n", "--iterations", type=int, default=5000, metavar="N", help="writes of each row (else 5,000)")
    words.add_argument("-s", "--size", type=int, nargs="+", action="extend", metavar="BYTES", help=f"bytes of a write, of one or several rows (else {', '.join(map(str, SIZES))})")
    words.add_argument("-m", "--mtu", type=int, default=4096, choices=MTUS, help="payload bytes of a packet (else 4096)")
    words.add_argument("--depth", type=int, default=16, metavar="PACKETS", help=f"unacknowledged packets, {LEAST_DEPTH} to {MOST_DEPTH} (else 16)")
    words.add_argument("--json", action="store_true", help="the same as JSON")
    words.add_argument("--program", metavar="PATH", help="the program to run, as for tools/look")
    return words


def check(asked):
    for size in asked.size or ():
        if not 1 <= size <= MOST_SIZE:
            raise LookError(f"--size is {size}, and its range is 1 to {MOST_SIZE}")
    if not LEAST_DEPTH <= asked.depth <= MOST_DEPTH:
        raise LookError(f"--depth is {asked.depth}, and its range is {LEAST_DEPTH} to {MOST_DEPTH}")
    if not 1 <= asked.iterations <= 1_000_000:
        raise LookError(f"--iterations is {asked.iterations}, and its range is 1 to 1,000,000")


def bench(asked):
    """All of it, printed."""
    check(asked)
    program, load = find_program(asked.program), os.getloadavg()
    rows = measured(program, asked, Progress("bench"))
    if asked.json:
        machine = {"processors": os.cpu_count(), "load": load}
        print(json.dumps({"program": program, "machine": machine, "mtu": asked.mtu, "depth": asked.depth, **rows}, indent=1))
        return
    print(f"WRITE over loopback, MTU {asked.mtu}, at most {asked.depth} packets in flight; {os.cpu_count()} processors, load {load[0]:.1f}")
    for name, told in rows.items():
        print(f"{name}:")
        table(COLUMNS, [shown(one) for one in told])


def main(words):
    asked = parser().parse_args(words)
    try:
        bench(asked)
    except LookError as fault:
        warn(fault, "bench")
        return fault.status
    except KeyboardInterrupt:
        return 130
    return 0

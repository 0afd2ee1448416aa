"""look check: datagrams put together by hand, of which the last one breaks a rule of the documents; and captures of whole runs."""
import json
import random
import re
import socket
import struct
import subprocess
import threading
import time

from look_parts import bench
from look_parts.datagrams import Packet, shown_address, write_datagram
from look_parts.flights import Story
from look_parts.generated import generated_script
from look_parts.pcap import capture
from look_parts.program import TOP, Program
from look_parts.wire_rules import RULES
from look_parts.world import World, address_of

from .running import EXAMPLES, SCRIPTS, LookTest, found, need, played_cases
from .test_node import capture_of

# Two ends: a at 10.0.0.1 counts from 100, b at 10.0.0.2 from 200. The MTU is 256, and two Reads and atomics may be in flight.
TERMS = "010001 10.0.0.1 020001 10.0.0.2 mtu 256 psn 100 200 reads 2".split()
A, B, C = "10.0.0.1", "10.0.0.2", "10.0.0.3"
NUMBERS = {A: 0x010001, B: 0x020001, C: 0x020001}


def datagram(opcode, psn, fields=None, size=0, asks=False, way=(A, B), byte=0):
    """A datagram from one address to another, for the end that lives there."""
    packet = Packet(opcode, NUMBERS[way[1]], asks, psn, fields or {}, bytes([byte]) * size)
    return way, write_datagram(packet)


def reth(length):
    return {"address": 8192, "rkey": 0x02000003, "length": length}


def write(psn, size=4, **more):
    return datagram(0x0A, psn, reth(size), size, True, **more)


def first(psn, length, size=256, asks=None):
    """A WRITE First, which asks for an acknowledgement where its number mod 8 is 7."""
    return datagram(0x06, psn, reth(length), size, psn % 8 == 7 if asks is None else asks)


def middle(psn):
    return datagram(0x07, psn, None, 256, psn % 8 == 7)


def last(psn, size):
    return datagram(0x08, psn, None, size, True)


def send(psn, size=4, **more):
    return datagram(0x04, psn, None, size, True, **more)


def read(psn, length):
    return datagram(0x0C, psn, reth(length), 0, True)


def add(psn):
    return datagram(0x14, psn, {"address": 8192, "rkey": 0x02000003, "swap_add": 1, "compare": 0}, 0, True)


def answer(syndrome, psn, msn, way=(B, A)):
    return datagram(0x11, psn, {"syndrome": syndrome, "msn": msn}, way=way)


def ack(psn, msn, **more):
    return answer(0x1F, psn, msn, **more)


def response(opcode, psn, msn, size):
    return datagram(opcode, psn, {"syndrome": 0x1F, "msn": msn} if opcode != 0x0E else None, size, way=(B, A))


def old(psn, msn, value):
    return datagram(0x12, psn, {"syndrome": 0x1F, "msn": msn, "old": value}, way=(B, A))


def moving(opcode, count, place, way):
    ip, port = address_of(place)
    return datagram(opcode, 0, {"count": count, "ip": ip, "port": port, "zero": 0}, way=way)


def resume(count=1, place=C, way=(C, A)):
    return moving(0x1E, count, place, way)


def resume_ack(count=1, place=C, way=(A, C)):
    return moving(0x1F, count, place, way)


NOT_READY, SEQUENCE, INVALID, ACCESS, OPERATIONAL, STOPPED = 0x20, 0x60, 0x61, 0x62, 0x63, 0x65
MOVED = [resume(), resume_ack()]

# By rule: datagrams of which the last one breaks it.
BROKEN = [
    ("datagram", [write(100), ((A, B), bytes.fromhex("15" + write(101)[1].hex()[2:]))]),
    ("datagram", [write(100), ((A, B), write(101)[1][:-2])]),
    ("datagram", [((A, B), bytes(7))]),
    ("Error", [write(100), answer(ACCESS, 100, 0), write(200, way=(B, A))]),
    ("Error", [send(100), answer(INVALID, 100, 0), answer(STOPPED, 100, 0)]),
    ("address", [write(100), ack(100, 1, way=(C, A))]),
    ("address", [write(100), *MOVED, write(100, way=(A, B))]),
    ("address", [write(100), resume(), write(100, way=(A, C))]),
    ("address", [*MOVED, write(200, way=(B, A))]),
    ("next number", [write(100), write(102)]),
    ("next number", [write(100), write(101), write(102), ack(100, 1), write(102)]),
    ("next number", [write(100), write(101), ack(100, 1), write(101), write(100)]),
    ("next number", [write(100), write(101), write(101)]),
    ("next number", [write(101)]),
    ("same packet", [write(100), write(101), write(100, byte=1)]),
    ("same packet", [write(100), write(101), send(100)]),
    ("same packet", [read(100, 600), response(0x0D, 100, 1, 256), read(101, 300)]),
    ("window full", [write(100 + number) for number in range(65)]),
    ("window full", [write(100), *[write(101 + number) for number in range(63)], ack(100, 1), write(164), write(165)]),
    ("reads full", [read(100, 4), add(101), read(102, 4)]),
    ("reads full", [read(100, 600), response(0x0D, 100, 1, 256), add(103), add(104)]),
    ("Resuming", [resume(), write(200, way=(C, A))]),
    ("Resuming", [*MOVED, resume(2, B, (B, A)), write(200, way=(B, A))]),
    ("message", [middle(100)]),
    ("message", [first(100, 300), write(101)]),
    ("message", [first(100, 300), read(101, 4)]),
    ("message", [first(100, 300, size=200)]),
    ("message", [first(100, 600), last(101, 4)]),
    ("message", [first(100, 300), last(101, 48)]),
    ("message", [first(100, 300), datagram(0x02, 101, None, 44, True)]),
    ("message", [first(100, 1_048_577)]),
    ("message", [read(100, 1_048_577)]),
    ("ack request", [datagram(0x0A, 100, reth(4), 4)]),
    ("ack request", [first(100, 300, asks=True)]),
    ("ack request", [write(100), datagram(0x11, 100, {"syndrome": 0x1F, "msn": 1}, asks=True, way=(B, A))]),
    ("acknowledge", [write(100), ack(101, 1)]),
    ("acknowledge", [read(100, 4), ack(100, 1)]),
    ("expected number", [write(100), write(101), ack(101, 2), ack(100, 1)]),
    ("expected number", [write(100), read(101, 600), ack(101, 1)]),
    ("expected number", [read(100, 4), response(0x10, 100, 1, 4), write(101), answer(SEQUENCE, 100, 0)]),
    ("message number", [write(100), ack(100, 2)]),
    ("message number", [first(100, 300), last(101, 44), ack(101, 2)]),
    ("message number", [read(100, 4), response(0x10, 100, 2, 4)]),
    ("sequence error", [write(100), answer(SEQUENCE, 100, 0)]),
    ("sequence error", [write(100), write(101), answer(SEQUENCE, 100, 0), answer(SEQUENCE, 100, 0)]),
    ("not ready", [write(100), answer(NOT_READY, 100, 0)]),
    ("not ready", [datagram(0x00, 100, None, 256), datagram(0x02, 101, None, 4, True), answer(NOT_READY, 101, 0)]),
    ("not ready", [send(100), answer(NOT_READY, 101, 0)]),
    ("invalid request", [write(100), answer(INVALID, 100, 0)]),
    ("remote access error", [first(100, 300), last(101, 44), answer(ACCESS, 101, 0)]),
    ("remote access error", [send(100), answer(ACCESS, 100, 0)]),
    ("remote access error", [write(100, 0), answer(ACCESS, 100, 0)]),
    ("operational error", [write(100), answer(OPERATIONAL, 100, 0)]),
    ("READ response", [write(100), response(0x10, 100, 1, 4)]),
    ("READ response", [read(100, 300), response(0x10, 100, 1, 4)]),
    ("READ response", [read(100, 300), response(0x0D, 100, 1, 252)]),
    ("READ response", [read(100, 600), response(0x0F, 101, 1, 256)]),
    ("atomic reply", [add(100), old(100, 1, 5), old(100, 1, 6)]),
    ("atomic reply", [write(100), old(100, 1, 5)]),
    ("RESUME", [resume(place=B)]),
    ("RESUME", [resume(0, B, (B, A))]),
    ("RESUME", [*MOVED, write(200, way=(C, A)), resume()]),
    ("RESUME", [*MOVED, resume(1, B, (B, A))]),
    ("RESUME", [write(100), answer(STOPPED, 100, 0), resume(), resume_ack(), write(100, way=(A, C)), answer(STOPPED, 100, 1, (C, A)), resume()]),
    ("RESUME_ACK", [resume_ack()]),
    ("RESUME_ACK", [resume(), resume_ack(2)]),
    ("RESUME_ACK", [resume(), resume_ack(place=B, way=(A, B))]),
    ("RESUME_ACK", [*MOVED, resume(2, B, (B, A)), resume_ack(2, B, (A, B)), resume_ack(1, C, (A, B))]),
    ("husk", [write(100), answer(STOPPED, 101, 0)]),
    ("husk", [write(100), answer(STOPPED, 100, 65_536)]),
    ("husk", [write(100), answer(STOPPED, 100, 0), write(200, way=(B, A))]),
    ("husk", [resume(), answer(STOPPED, 0, 0)]),
    ("husk", [write(100), *MOVED, answer(STOPPED, 100, 1)]),
]

# Datagrams that an end may send, though they look odd.
ALLOWED = [
    ("a repeat is acknowledged again", [write(100), ack(100, 1), ack(100, 1)]),
    ("the oldest unacknowledged one again, and on from there", [write(100), write(101), write(102), ack(100, 1), write(101), write(102), write(103)]),
    ("all of them again, since the acknowledgement was lost", [write(100), write(101), ack(101, 2), write(100), write(101), ack(101, 2)]),
    ("a sequence error for each expected number", [
        write(100), write(101), write(102), answer(SEQUENCE, 100, 0), write(100), ack(100, 1), answer(SEQUENCE, 101, 1), write(101)]),
    ("a READ asks for the rest", [read(100, 600), response(0x0D, 100, 1, 256), response(0x0E, 101, 1, 256), datagram(
        0x0C, 102, {"address": 8192 + 512, "rkey": 0x02000003, "length": 88}, 0, True), response(0x10, 102, 1, 88)]),
    ("64 packets, and one more for each acknowledgement", [*[write(100 + number) for number in range(64)], ack(100, 1), write(164)]),
    ("an RNR NAK, and the SEND again", [send(100), answer(NOT_READY, 100, 0), send(100), ack(100, 1)]),
    ("a WRITE of no bytes, a READ of none", [write(100, 0), read(101, 0), response(0x10, 101, 2, 0)]),
    ("RESUME and its acknowledgement are repeated", [*MOVED, *MOVED, write(100, way=(A, C)), ack(100, 1, way=(C, A)), write(200, way=(C, A))]),
    ("a husk answers late, and the context is back where it was", [
        write(100), answer(STOPPED, 100, 0), *MOVED, answer(STOPPED, 100, 0), resume(2, B, (B, A)), resume_ack(2, B, (A, B)), write(100), ack(100, 1)]),
    ("an end that moves twice before it runs", [resume(2, C)]),
]

HOSTILE = """\
device 1 10.0.0.1
device 2 10.0.0.2
device 3 10.0.0.3
context a 1
context b 2
domain a.p
domain b.p
region a.m a.p 4096 16384 lwra
region b.n b.p 4096 16384 lwra
cq a.c 1024
cq b.c 1024
qp a.q a.p a.c a.c 64 64
qp b.q b.p b.c b.c 64 64
"""
KEYS = {"a": "01000002", "b": "02000002"}
REMOTE = {"a": "02000003", "b": "01000003"}


def posting(chance, own, number):
    """A request of any kind, seldom of a key that is not granted."""
    key, remote = KEYS[own], REMOTE[own] if chance.random() < 0.99 else "00000000"
    place, size = 4096 + 8 * chance.randrange(500), chance.choice([0, 4, 256, 257, 1500, 4000])
    begin = f"{own}.q {number} {key} {place}"
    return chance.choice([
        f"write {begin} {size} {place} {remote}", f"write {begin} {size} {place} {remote} imm 0000002a", f"send {begin} {size}",
        f"read {begin} {size} {place} {remote}", f"add {begin} {place + (chance.random() < 0.02)} {remote} 3", f"cas {begin} {place} {remote} 0 1",
        f"recv {begin} 4096", f"recv {begin} 4096"])


def hostile_script(seed):
    """A script whose network loses, repeats and reorders, and whose contexts move at any time."""
    chance, top = random.Random(seed), 1
    starts = [chance.choice([0, 100, 2**24 - 5]) for _ in range(2)]
    lines = [HOSTILE + f"connect a.q b.q mtu 256 psn {starts[0]} {starts[1]} retry 7 rnr {chance.choice([1, 7])} reads {chance.choice([1, 2, 16])}"]
    for number in range(150):
        own, near = chance.choice("ab"), max(1, top - chance.randrange(8))
        kind = chance.random()
        if kind < 0.25:
            lines.append(posting(chance, own, number))
        elif kind < 0.5:
            lines += chance.randrange(1, 5) * [f"go {own}.q"]
            top += 2
        elif kind < 0.85:
            lines += [f"deliver {near + step}" for step in range(chance.randrange(1, 4))]
        else:
            lines.append(chance.choice([
                f"lose {near}", f"expire {own}.q", f"rnr {own}.q", "settle", "settle", f"stop {own}", f"stop {own}",
                f"restore {own} {chance.randrange(1, 4)}", f"restore {own} {chance.randrange(1, 4)}", f"release {own} {chance.randrange(1, 4)}"]))
    return ("\n".join([*lines, "restore a 1", "restore b 3", "settle"]) + "\n").encode()


def terms_of(played):
    """The terms of a script's connections, by its lines `connect` and the answers before them."""
    world = World()
    for answered in played.answered:
        world.apply(answered)
        if answered.line.verb == "connect" and not answered.is_refused:
            rest = answered.line.rest
            ends = [(f"{end.number:06x}", shown_address(world.home(end))) for end in (world.end(rest[0]), world.end(rest[1]))]
            yield ["--connection", *ends[0], *ends[1], "mtu", rest[3], "psn", rest[5], rest[6], "reads", rest[12]]


class Rules(LookTest):
    def check(self, datagrams, *more, status=0):
        hexed = [("".join(f"{int(part):02x}" for part in source.split(".")), "".join(f"{int(part):02x}" for part in target.split(".")), data.hex())
                 for (source, target), data in datagrams]
        path = self.file("hand.pcap", capture_of(hexed, 1, "00" * 12 + "0800"))
        return self.look("check", path, "--connection", *TERMS, *more, status=status)

    def test_each_rule(self):
        """All datagrams but the last one are as they should be, and the last one breaks the rule."""
        for at, (rule, datagrams) in enumerate(BROKEN):
            with self.subTest(f"{at}: {rule}"):
                before = json.loads(self.check(datagrams[:-1], "--json"))
                self.assertEqual((before["datagrams"], before["others"], before["broken"]), (len(datagrams) - 1, 0, None))
                told = json.loads(self.check(datagrams, "--json", status=13))["broken"]
                self.assertEqual((told["rule"], told["frame"]), (rule, len(datagrams)), told)
        self.assertEqual({rule for rule, _ in BROKEN}, set(RULES))

    def test_what_is_allowed(self):
        for name, datagrams in ALLOWED:
            with self.subTest(name):
                self.assertEqual(self.check(datagrams), f"datagrams: {len(datagrams)}, each as the protocol sends it\n")

    def test_a_fault_is_told_with_its_rule(self):
        self.assertEqual(self.check([write(100), ack(100, 2)], status=13).splitlines(), [
            "frame 2: 10.0.0.2:4791 to 10.0.0.1:4791: ACK, PSN 100",
            "  breaks the rule `message number`: it tells 2 finished messages, and there are 1",
            "  docs/wire.md, acknowledge; Responder.response"])

    def test_each_rule_is_in_the_pages_and_definitions(self):
        for rule, (page, definitions) in RULES.items():
            name, _, heading = page.partition(", ")
            headings = [line.lstrip("# ").lower() for line in (TOP / name).read_text().splitlines() if line.startswith("#")]
            self.assertTrue(not heading or heading in headings, (rule, page))
            for file, definition in re.findall(r"(\w+)\.(\w+)", definitions):
                text = (TOP / "crates" / "protocol" / "specs" / f"{file}.antt").read_text()
                self.assertRegex(text, rf"(?m)^(unfoldable|abbrev) pub {definition} ", rule)

    def test_datagrams_of_others_are_left_out(self):
        """An end that no connection has, a congestion notification (opcode 81), and the ICRC of a card."""
        others = [((A, B), bytes.fromhex("0a00ffff00030003") + bytes(40)), ((B, A), bytes.fromhex("8100ffff00010001") + bytes(24))]
        carded = [(way, data[:-4] + b"\x12\x34\x56\x78") for way, data in (write(100), ack(100, 1))]
        self.assertEqual(self.check([*others, *carded]), "datagrams: 2, each as the protocol sends it; datagrams of others: 2\n")

    def test_what_the_standard_leaves_open(self):
        """A card may ask for acknowledgements elsewhere, and have more packets in flight."""
        datagrams = [datagram(0x0A, 100 + number, reth(4), 4) for number in range(80)]
        self.check(datagrams, status=13)
        self.assertEqual(self.check(datagrams, "--standard"), "datagrams: 80, each as the protocol sends it\n")

    def test_terms_that_are_none(self):
        path = self.file("empty.pcap", capture_of([], 1, ""))
        for words, told in [
            (TERMS[:5], "--connection takes NUMBER ADDRESS NUMBER ADDRESS mtu M psn X Y [reads N], and not 010001 10.0.0.1 020001 10.0.0.2 mtu"),
            (["1", *TERMS[1:]], "--connection: '1' is no number of a queue pair, which has six hexadecimal digits"),
            ([TERMS[0], "10.0.0", *TERMS[2:]], "--connection: '10.0.0' is no address"),
            ([*TERMS[:5], "300", *TERMS[6:]], "--connection: mtu is 300, and may be 256, 512, 1024, 2048, 4096"),
            ([*TERMS[:7], "x", *TERMS[8:]], "--connection: psn is 'x', and its range is 0 to 16777215"),
            ([*TERMS[:10], "0"], "--connection: reads is '0', and its range is 1 to 16"),
            (["020001", *TERMS[1:]], "--connection: two ends have the number 020001"),
        ]:
            self.assertEqual(self.one_line("check", path, "--connection", *words), told)


class Runs(LookTest):
    """Whatever the network does in a script, each datagram keeps the rules."""

    def keeps_the_rules(self, name, script):
        story = Story(Program(found["program"]), script)
        words = [word for terms in terms_of(story.played) for word in terms]
        known = [flight for flight in story.flights.values() if flight.data is not None]
        if words:
            path = self.file("run.pcap", capture(known))
            with self.subTest(name):
                self.assertEqual(self.look("check", path, *words), f"datagrams: {len(known)}, each as the protocol sends it\n")
        return len(known)

    @need("program")
    def test_worked_scripts(self):
        for path in [*SCRIPTS, *played_cases()]:
            self.keeps_the_rules(path.name, path.read_bytes())

    @need("program")
    def test_generated_scripts(self):
        self.assertGreater(self.keeps_the_rules("generated", generated_script(5, 4, 200, 6)), 500)

    @need("program")
    def test_hostile_networks(self):
        self.assertGreater(sum(self.keeps_the_rules(seed, hostile_script(seed)) for seed in range(25)), 1000)


class Tap:
    """What goes over the loopback between some ports, as the frames of a capture."""

    def __init__(self, ports):
        self.socket = socket.socket(socket.AF_PACKET, socket.SOCK_RAW, socket.htons(3))
        self.socket.setsockopt(socket.SOL_SOCKET, socket.SO_RCVBUF, 1 << 22)
        self.socket.bind(("lo", 0))
        self.socket.settimeout(0.1)
        self.ports, self.parts, self.is_on = ports, [capture([])], True
        self.thread = threading.Thread(target=self.listen)
        self.thread.start()

    def listen(self):
        while self.is_on:
            try:
                data, told = self.socket.recvfrom(1 << 16)
            except socket.timeout:
                continue
            # Loopback shows each frame twice: as it goes and as it comes. IPv4 and UDP have their ports behind 14 and 20 bytes.
            if told[2] == socket.PACKET_OUTGOING and data[23:24] == b"\x11" and struct.unpack("!H", data[34:36])[0] in self.ports:
                self.parts.append(struct.pack("<IIII", 0, 0, len(data), len(data)) + data)

    def end(self):
        time.sleep(0.1)
        self.is_on = False
        self.thread.join()
        self.socket.close()
        return b"".join(self.parts)


class Live(LookTest):
    def nodes_script(self, name, ports):
        text = (EXAMPLES / "live_move" / f"{name}.script").read_text()
        for number, port in ports.items():
            text = re.sub(rf" 127\.0\.0\.{number} ", f" {bench.HOST}:{port} ", text)
        return text.splitlines()

    @need("program")
    @need("tap")
    def test_a_live_move(self):
        """The three nodes of examples/live_move, at ports of their own."""
        one, two = bench.free_ports()
        three, _ = bench.free_ports()
        ports = {1: one, 2: two, 3: three}
        tap, nodes = Tap(ports.values()), []
        try:
            for number, name, awaited in ((1, "partner", "qp 010001"), (2, "source", "stopped"), (3, "target", None)):
                nodes.append(bench.Node(found["program"], number, ports[number], self.nodes_script(name, ports), self.folder))
                while awaited and nodes[-1].answer()[0] != awaited:
                    pass
            answers = subprocess.run(["cat"], stdin=nodes[0].process.stdout, stdout=subprocess.PIPE, check=True).stdout.decode()
        finally:
            for node in nodes:
                node.end()
            path = self.file("live.pcap", tap.end())
        expected = (EXAMPLES / "live_move" / "partner.expected").read_text().splitlines()
        self.assertEqual(answers.splitlines()[-2:], expected[-2:])
        told = self.look("check", path, "--connection", "010001", f"{bench.HOST}:{one}", "020001", f"{bench.HOST}:{two}", *TERMS[4:9], "reads", "4")
        self.assertRegex(told, r"^datagrams: \d+, each as the protocol sends it\n$")
        self.assertGreater(int(re.search(r"\d+", told)[0]), 25)

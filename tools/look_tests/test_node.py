"""The log of a node: worked scripts of the crate example_nodes, whose answers come from two other descriptions of a node."""
import json
import struct

from look_parts.captures import packets_of

from .running import LookTest
from .test_dumps import BUSY, joined

OPENING = """\
context b
domain b.p
region b.n b.p 8192 4 lwra
cq b.c 16
qp b.q b.p b.c b.c 8 8
link b.q 010001 10.0.0.1 mtu 256 psn 200 100 retry 7 rnr 7 reads 4
"""
OPENED = "ok\nok\nregion 02000002 02000003\nok\nqp 020001\nok\n"

# A context goes into the file f, comes back from it once its husk is released, and its partner's write arrives. Then f is gone.
MOVING = OPENING + """\
store b.n 8192 cafe
stop b f
load b.n 8192 4
restore f
release b
restore f
load b.n 8192 4
go b.q
serve 1
restore f
"""
MOVED = OPENED + """\
ok
stopped
refused Stopped
refused NumberTaken
ok
ok
bytes cafe0000
sent 1
served 1
missing f
"""

# An end that hears nothing expires in a turn after 100 ticks; then a line says so. The last line is bad.
WAITING = OPENING + "write b.q 1 02000002 8192 4 8192 01000003\nserve 3\nserve 1\ngo b.q\nexpire b.q\ngo b.q\nfly\n"
WAITED = OPENED + "ok\nserved 0\nserved 0\nidle\nexpired 2\nsent 3\nbad line 13 column 1 word\n"

# The RNR timer is over in a turn: a line finds the end waiting no more.
TIMER = OPENING + "send b.q 1 02000002 8192 4\ngo b.q\nserve 3\ngo b.q\nrnr b.q\n"
TIMED = OPENED + "ok\nsent 1\nserved 1\nidle\nnotwaiting\n"

# The partner is known to move.
PAUSED = OPENING + "serve 1\nstop b f\nrestore f\n"
PAUSED_ANSWERS = OPENED + "served 1\nrefused PeerMoving\nmissing f\n"

# What MOVING sends and takes, as the example has it: RESUME, the acknowledgement of the write, RESUME again; and the write.
RESUME = "1e00ffff0001000100000000000000010a00000212b7000000000000"
ACK = "1100ffff00010001000000641f00000100000000"
WRITE = "0a00ffff000200018000006400000000000020000200000300000004deadbeef00000000"
ONE, TWO = "0a000001", "0a000002"


def capture_of(packets, kind, before, order="<"):
    """A capture in pcap form, by its published layout: of each packet its two addresses and its payload, in digits."""
    data = struct.pack(order + "IHHiIII", 0xA1B2C3D4, 2, 4, 0, 0, 65535, kind)
    for start, end, payload in packets:
        udp = "12b712b7" + f"{8 + len(payload) // 2:04x}" + "0000" + payload
        ip = "4500" + f"{20 + len(udp) // 2:04x}" + "00004000" + "4011" + "0000" + start + end
        frame = bytes.fromhex(before + ip + udp)
        data += struct.pack(order + "IIII", 0, 0, len(frame), len(frame)) + frame
    return data


class Node(LookTest):
    def log(self, script, answers):
        return self.file("node.script", script), "--node", self.file("node.log", answers)

    def statistics(self, script, answers, *more):
        ends = {"missing": 12, "bad": 3}.get(answers.splitlines()[-1].split()[0], 0)
        return json.loads(self.look("stats", *self.log(script, answers), *more, "--json", status=ends))

    def test_lines_stand_beside_their_answers(self):
        told = json.loads(self.look("side", *self.log(MOVING, MOVED), "--json", status=12))
        self.assertEqual([row["answers"][0] for row in told["lines"]], MOVED.splitlines()[:-1])
        notes = {row["line"]: row["note"] for row in told["lines"] if row["note"]}
        self.assertEqual(notes, {
            9: "Line 8 stopped context `b`; restore its dump first.",
            10: "The context of the dump `f`, its husk, or a number or key of it is here: `release` its name first."})
        self.assertEqual((told["ending"]["line"], told["ending"]["text"]), (16, "missing f"))

    def test_refusals_of_a_node(self):
        opening, answers = OPENING.splitlines(True)[:5], OPENED.splitlines(True)[:5]
        for line, cause, note in [
            ("go b.q", "BadState", "`b.q` is not linked; a `link` line comes first."),
            ("go b.z", "NoSuch", "Context `b` has no queue pair `b.z`; it has: b.q."),
            ("load b.n 8192 5", "BadKey", "Region `b.n` holds 8192 to 8195, and the line names 8192 to 8196."),
            ("region b.k b.p 0 16777216 -", "NoPage",
             "The device has 8,192 pages of 4,096 bytes, and too few are free: drop regions, or let posted messages finish."),
            ("link b.z 010001 10.0.0.1 mtu 256 psn 1 2 retry 7 rnr 7 reads 4", "NoSuch", "There is no queue pair `b.z` here."),
            ("release b", "NoSuch", "No husk of `b` is here."),
            ("context b", "NumberTaken", "A context or a husk has the name `b` already."),
        ]:
            with self.subTest(line):
                log = self.log("".join([*opening, line, "\n"]), "".join([*answers, f"refused {cause}\n"]))
                self.assertEqual(json.loads(self.look("side", *log, "--json"))["lines"][-1]["note"], note)

    def test_a_bad_line_of_a_node(self):
        for line, column, why, part in [
            ("fly", 1, "word", "No line begins with `fly`"),
            ("settle", 1, "word", "No line begins with `settle`"),
            ("serve 0", 7, "number", "`turns`, a decimal number without leading zero, 1 to 100,000"),
            ("stop b", 7, "missing", "Here must stand `file`, a name"),
            ("link b.q 1", 10, "hex", "`number`, a queue pair number of six hexadecimal digits"),
        ]:
            with self.subTest(line):
                log = self.log(f"context b\n{line}\n", f"ok\nbad line 2 column {column} {why}\n")
                self.assertIn(part, json.loads(self.look("side", *log, "--json", status=3))["ending"]["note"])

    def test_a_log_may_end_early(self):
        told = json.loads(self.look("side", *self.log(MOVING, "".join(MOVED.splitlines(True)[:7])), "--json"))
        self.assertEqual((told["ending"]["line"], told["ending"]["text"]), (8, "the log ends here"))
        told = json.loads(self.look("side", *self.log("context b\n", "link fault\n"), "--json", status=6))
        self.assertEqual((told["lines"], told["ending"]["text"]), ([], "link fault"))

    def test_completions_of_a_context_from_elsewhere(self):
        """No line made the queue pair, so its completions go to the poll that they follow."""
        script, log = "restore f\npoll b.c 2\npoll b.c 2\n", "ok\nwc 010001 1 write 0 4\nwc 010001 2 write 0 4\nnone\n"
        told = json.loads(self.look("side", *self.log(script, log), "--json"))
        self.assertEqual([len(row["answers"]) for row in told["lines"]], [1, 2, 1])
        self.assertEqual(self.statistics(script, log)["completions"], {"write, status 0": 2})

    def test_statistics_of_a_move(self):
        told = self.statistics(MOVING, MOVED)
        self.assertIn("node.log ended early: missing f. The node's depot holds nothing under this name", self.told)
        self.assertEqual((told["lines"], told["ending"]), (15, "missing f"))
        self.assertEqual(list(told["counts"].values()), [1, 1, 1])
        self.assertEqual(told["refusals"], {"Stopped": 1, "NumberTaken": 1})
        self.assertEqual(told["moves"], [{"file": "f", "context": "b", "stop": 8, "restore": 12, "lines": 5, "dump bytes": None, "pages of regions": None}])

    def test_a_dump_that_lies_in_the_depot(self):
        """The log ends behind the stop. The depot has a dump with a region of 288 bytes; then 19 bytes that are none."""
        (self.folder / "depot").mkdir()
        move = {"file": "f", "context": "b", "stop": 8, "restore": None, "lines": None}
        for data, pages in ((joined(BUSY), 1), (bytes(19), None)):
            self.file("depot/f", data)
            told = self.statistics(MOVING, "".join(MOVED.splitlines(True)[:8]), "--depot", self.folder / "depot")
            self.assertEqual(told["moves"], [{**move, "dump bytes": len(data), "pages of regions": pages}])

    def test_expiries_and_waits(self):
        told = self.statistics(WAITING, WAITED)
        self.assertEqual((told["timers"], list(told["counts"].values())), ({"expiries counted": 1}, [1, 3, 0]))
        self.assertEqual(self.statistics(TIMER, TIMED)["timers"], {"RNR timer notwaiting": 1})
        told = self.statistics(PAUSED, PAUSED_ANSWERS)
        self.assertEqual((told["refusals"], told["moves"], list(told["counts"].values())), ({"PeerMoving": 1}, [], [0, 0, 1]))

    def test_datagrams_of_a_capture(self):
        packets = [(ONE, TWO, WRITE), (TWO, ONE, RESUME), (TWO, ONE, ACK), (TWO, ONE, RESUME)]
        again = "with the same bytes as one before"
        wanted = [
            {"kind": "ACK", "from": "10.0.0.2:4791", "datagrams": 1, again: 0},
            {"kind": "RESUME", "from": "10.0.0.2:4791", "datagrams": 2, again: 1},
            {"kind": "WRITE Only", "from": "10.0.0.1:4791", "datagrams": 1, again: 0}]
        # Ethernet, the loopback of BSD, Linux "any" in both versions, and no frame at all.
        for kind, before, order in [(1, "00" * 12 + "0800", "<"), (0, "02000000", "<"), (113, "00" * 14 + "0800", ">"),
                                    (276, "0800" + "00" * 18, "<"), (101, "", ">")]:
            with self.subTest(kind):
                path = self.file("node.pcap", capture_of(packets, kind, before, order))
                self.assertEqual(self.statistics(MOVING, MOVED, "--capture", path)["captured"], wanted)

    def test_other_frames_of_a_capture_are_left_out(self):
        """A frame of another protocol (ARP), one that is cut short, and a piece of a datagram that was cut up."""
        head = capture_of([], 1, "")
        frames = ["00" * 12 + "0806" + "00" * 40, "00" * 12 + "0800" + "45", "00" * 12 + "0800" + "4500001c00002001" + "4011" + "0000" + ONE + TWO + "00" * 8]
        for digits in frames:
            data = bytes.fromhex(digits)
            head += struct.pack("<IIII", 0, 0, len(data), len(data)) + data
        self.assertEqual(list(packets_of(head, "x")), [])
        told = self.one_line("stats", *self.log(MOVING, MOVED), "--capture", self.file("no.pcap", b"nothing"))
        self.assertIn("is no capture in pcap form", told)

    def test_words_that_do_not_go_together(self):
        self.assertEqual(self.one_line("stats", *self.log(MOVING, MOVED), "--unfold"), "--bulk, --unfold and --evacuate do not go with --node")
        self.assertEqual(self.one_line("stats", "x", "--depot", "y"), "--depot and --capture go with --node")
        self.assertIn("is a script of `play`", self.one_line("side", *self.log("# One.\ndevice 1 10.0.0.1\n", "ok\n")))

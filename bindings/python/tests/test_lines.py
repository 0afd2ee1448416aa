"""How lines are read, by docs/scripts.md."""

import unittest

from jichurpa import Address, Receive, Rights, Terms, WorkRequest
from jichurpa.play import BadLine, Line, parse_line, script_lines
from jichurpa.play.words import ObjectName

A_Q, B_Q = ObjectName("a", "q"), ObjectName("b", "q")

# A line, the column and the reason: first the table of docs/scripts.md.
BAD = [
    (b"x" * 8401, 8401, "long"),
    (b"\tgo a.q", 1, "ascii"),
    (b"go a.q\r", 7, "ascii"),
    (b"fly a.q", 1, "word"),
    (b"go ", 4, "missing"),
    (b"go A.q", 4, "name"),
    (b"deliver 01", 9, "number"),
    (b"store a.m 4096 dea", 16, "hex"),
    (b"region a.m a.p 0 1 wl", 20, "rights"),
    (b"device 1 10.0.0.256", 10, "address"),
    (b"connect a.q b.q psn 1 2", 17, "option"),
    (b"settle now", 8, "extra"),
    # .. and others
    (b"#" + b" " * 8400, 8401, "long"),
    (b"# \x7f", 3, "ascii"),
    (b"# \xc3\xa4", 3, "ascii"),
    (b"Go a.q", 1, "word"),
    (b"  go", 5, "missing"),
    (b"go a", 4, "name"),
    (b"go a.", 4, "name"),
    (b"go .q", 4, "name"),
    (b"go a.q.r", 4, "name"),
    (b"go abcdefghijklmnopq.q", 4, "name"),
    (b"stop 1a", 6, "name"),
    (b"stop a.b", 6, "name"),
    (b"context a 256", 11, "number"),
    (b"context a 0", 11, "number"),
    (b"context a", 10, "missing"),
    (b"device 1 10.0.0", 10, "address"),
    (b"device 1 10.0.0.1.1", 10, "address"),
    (b"device 1 10.0.0.01", 10, "address"),
    (b"device 1 10.0.0.1:", 10, "address"),
    (b"device 1 10.0.0.1:0", 10, "address"),
    (b"device 1 10.0.0.1:65536", 10, "address"),
    (b"deliver 18446744073709551616", 9, "number"),
    (b"deliver " + b"9" * 5000, 9, "number"),
    (b"deliver -1", 9, "number"),
    (b"deliver +1", 9, "number"),
    (b"deliver 1_0", 9, "number"),
    (b"region a.m a.p 9223372036854775809 1 l", 16, "number"),
    (b"region a.m a.p 0 16777217 l", 18, "number"),
    (b"region a.m a.p 0 0 l", 18, "number"),
    (b"region a.m a.p 0 1 ll", 20, "rights"),
    (b"region a.m a.p 0 1 -l", 20, "rights"),
    (b"cq a.c 16385", 8, "number"),
    (b"qp a.q a.p a.c a.c 257 1", 20, "number"),
    (b"qp a.q a.p a.c a.c 1 0", 22, "number"),
    (b"connect a.q b.q mtu 300 psn 0 0 retry 0 rnr 0 reads 1", 21, "number"),
    (b"connect a.q b.q mtu 256 psn 16777216 0 retry 0 rnr 0 reads 1", 29, "number"),
    (b"connect a.q b.q mtu 256 psn 0 0 retry 8 rnr 0 reads 1", 39, "number"),
    (b"connect a.q b.q mtu 256 psn 0 0 retry 0 rnr 8 reads 1", 45, "number"),
    (b"connect a.q b.q mtu 256 psn 0 0 retry 0 rnr 0 reads 0", 53, "number"),
    (b"connect a.q b.q mtu 256 psn 0 0 retry 0 rnr 0 reads 17", 53, "number"),
    (b"connect a.q b.q mtu 256 psn 0 0 retry 0 reads 1", 41, "option"),
    (b"load a.m 0 4097", 12, "number"),
    (b"poll a.c 257", 10, "number"),
    (b"store a.m 0 " + b"0" * 8194, 13, "hex"),
    (b"store a.m 0 0x", 13, "hex"),
    (b"write a.q 1 0100000 0 0 0 02000003", 13, "hex"),
    (b"write a.q 1 01000002 0 4294967296 0 02000003", 24, "number"),
    (b"write a.q 1 01000002 0 0 0 02000003 imm", 40, "missing"),
    (b"write a.q 1 01000002 0 0 0 02000003 imm 2a", 41, "hex"),
    (b"write a.q 1 01000002 0 0 0 02000003 quiet fence", 43, "extra"),
    (b"write a.q 1 01000002 0 0 0 02000003 fence imm 00000001", 43, "extra"),
    (b"read a.q 1 01000002 0 0 0 02000003 imm 00000001", 36, "extra"),
    (b"recv a.q 1 01000002 0 8 quiet", 25, "extra"),
]

TERMS = Terms(mtu=256, own_start=100, peer_start=200, retry=7, rnr=6, reads=4)

GOOD = [
    (b"  device   1  10.0.0.1 ", Line("device", (1, Address(0x0A000001, 4791)))),
    (b"device 255 127.0.0.1:4801", Line("device", (255, Address(0x7F000001, 4801)))),
    (b"context store_1 2", Line("context", ("store_1", 2))),
    (
        b"region a.m a.p 9223372036854775808 16777216 lwra",
        Line("region", (ObjectName("a", "m"), ObjectName("a", "p"), 2**63, 16777216, Rights(15))),
    ),
    (
        b"region a.m a.p 0 1 -",
        Line("region", (ObjectName("a", "m"), ObjectName("a", "p"), 0, 1, Rights.NONE)),
    ),
    (
        b"region a.m a.p 0 1 wa",
        Line("region", (ObjectName("a", "m"), ObjectName("a", "p"), 0, 1, Rights.REMOTE_WRITE | Rights.REMOTE_ATOMIC)),
    ),
    (
        b"connect a.q b.q mtu 256 psn 100 200 retry 7 rnr 6 reads 4",
        Line("connect", (A_Q, B_Q, TERMS)),
    ),
    (b"store a.m 4096 DEADbeef", Line("store", (ObjectName("a", "m"), 4096, b"\xde\xad\xbe\xef"))),
    (
        b"write a.q 1 01000002 4096 4 8192 02000003",
        Line("write", (A_Q, WorkRequest.write(1, 0x01000002, 4096, 4, 8192, 0x02000003))),
    ),
    (
        b"send a.q 2 01000002 4096 4 imm 0000002a fence quiet",
        Line("send", (A_Q, WorkRequest.send(2, 0x01000002, 4096, 4, 42, signaled=False, fence=True))),
    ),
    (
        b"read a.q 3 01000002 4096 4 8192 02000003 fence",
        Line("read", (A_Q, WorkRequest.read(3, 0x01000002, 4096, 4, 8192, 0x02000003, fence=True))),
    ),
    (
        b"cas a.q 4 01000002 4096 8192 02000003 5 6",
        Line("cas", (A_Q, WorkRequest.compare_swap(4, 0x01000002, 4096, 8192, 0x02000003, 5, 6))),
    ),
    (
        b"add a.q 5 01000002 4096 8192 02000003 18446744073709551615 quiet",
        Line("add", (A_Q, WorkRequest.fetch_add(5, 0x01000002, 4096, 8192, 0x02000003, 2**64 - 1, signaled=False))),
    ),
    (b"recv b.q 9 02000002 8192 8", Line("recv", (B_Q, Receive(9, 0x02000002, 8192, 8)))),
    (b"deliver 18446744073709551615", Line("deliver", (2**64 - 1,))),
    (b"settle", Line("settle", ())),
]


class Lines(unittest.TestCase):
    def test_bad(self) -> None:
        for line, column, why in BAD:
            with self.subTest(line=line[:60]):
                with self.assertRaises(BadLine) as caught:
                    parse_line(line)
                self.assertEqual((caught.exception.column, caught.exception.why), (column, why))

    def test_good(self) -> None:
        for line, said in GOOD:
            with self.subTest(line=line):
                self.assertEqual(parse_line(line), said)

    def test_blank(self) -> None:
        for line in (b"", b"    ", b"# go a.q", b"   #fly", b"#" * 8400):
            self.assertIsNone(parse_line(line))

    def test_ends(self) -> None:
        """A newline ends a line; a carriage return before it is dropped, and no other."""
        self.assertEqual(list(script_lines(b"")), [])
        self.assertEqual(list(script_lines(b"a\nb")), [b"a", b"b"])
        self.assertEqual(list(script_lines(b"a\r\n\nb\r\r\n")), [b"a", b"", b"b\r"])
        self.assertEqual(list(script_lines(b"a\rb\nc\r")), [b"a\rb", b"c\r"])

"""tools/shrink: what is left is worked out by hand, and no line of it can go."""
import contextlib
import io
import subprocess
import sys
from unittest import mock

from look_parts.program import TOP, VARIABLE
from look_parts.shrink import main, shows

from .running import EXAMPLES, LookTest, found, need, play

SHRINK = TOP / "tools" / "shrink"
# What a connection needs, without regions.
ENDS = """\
device 1 10.0.0.1
device 2 10.0.0.2
context a 1
context b 2
domain a.p
domain b.p
cq a.c 16
cq b.c 16
qp a.q a.p a.c a.c 8 8
qp b.q b.p b.c b.c 8 8
connect a.q b.q mtu 256 psn 100 200 retry 7 rnr 7 reads 4
"""
# Two regions of each context, two messages. The first is settled, so its datagrams 1 and 2 are told by no answer.
TWO_MESSAGES = ENDS + """\
region a.m a.p 4096 64 l
region a.n a.p 8192 64 l
region b.m b.p 4096 64 lw
region b.n b.p 8192 64 lw
write a.q 1 01000002 4096 4 4096 02000003
settle
write a.q 2 01000004 8192 8 8192 02000005
go a.q
deliver 3
deliver 4
poll a.c 2
"""
# By hand: a WRITE of eight bytes from the one region to the other, both of which are now the first of their devices.
ONE_MESSAGE = ENDS + """\
region a.n a.p 8192 64 l
region b.n b.p 8192 64 lw
write a.q 2 01000002 8192 8 8192 02000003
go a.q
deliver 1
deliver 2
poll a.c 2
"""


class Shrinking(LookTest):
    def shrink(self, script, *words, status=0):
        """The lines that are left; what is told beside them is in self.told."""
        out, err = io.TextIOWrapper(io.BytesIO(), write_through=True), io.StringIO()
        path = self.file("long.script", script)
        with mock.patch.dict("os.environ", {VARIABLE: found["program"]}), contextlib.redirect_stdout(out), contextlib.redirect_stderr(err):
            ended = main([str(path), *map(str, words)])
        self.told = err.getvalue()
        self.assertEqual(ended, status, self.told)
        return out.buffer.getvalue().decode()

    def test_the_first_words_of_an_answer(self):
        for wanted, answer, is_shown in [
            ("took seqnak", "took seqnak sent 3", True), ("took", "took", True), ("took seqnak sent 3", "took seqnak", False),
            ("wc * 3 write 1?", "wc 010001 3 write 12 8", True), ("wc * 3", "wc 010001 4 write 0 8", False), ("ok", "okay", False),
        ]:
            self.assertIs(shows(wanted.split(), answer), is_shown, (wanted, answer))

    @need("program")
    def test_an_answer_of_the_network(self):
        """A packet ahead of the expected one wants two packets and the region that they come from; where they go is never looked at."""
        left = self.shrink((EXAMPLES / "lost_packet.script").read_text(), "--answer", "took seqnak").splitlines()
        ends = ENDS.splitlines()
        region = ["region a.m a.p 4096 1024 lwra"]
        self.assertEqual(sorted(left), sorted([*ends, *region, "write a.q 1 01000002 4096 300 8192 02000003", "go a.q", "go a.q", "deliver 2"]))

    @need("program")
    def test_datagrams_and_keys_get_the_numbers_that_they_then_have(self):
        left = self.shrink(TWO_MESSAGES, "--answer", "wc 010001 2 write 0 8")
        self.assertEqual(sorted(left.splitlines()), sorted(ONE_MESSAGE.splitlines()))
        self.assertIn("wc 010001 2 write 0 8", play(left))
        self.assertRegex(self.told, r"^shrink: 22 lines became 18 in \d+ runs of the program\n$")

    @need("program")
    def test_no_line_of_what_is_left_can_go(self):
        """Here the program is run without shrink's own parts."""
        for name, answer in [("move_in_a_message", "took resumed"), ("read_and_atomic", "took old"), ("evicted_while_waiting", "left a.q noreceive")]:
            left = self.shrink((EXAMPLES / f"{name}.script").read_text(), "--answer", answer).splitlines(True)
            for at in range(len(left) + 1):
                answers = play("".join(left[:at] + left[at + 1:]))
                self.assertIs(any(told.startswith(answer) for told in answers), at == len(left), (name, at))

    @need("program")
    def test_the_last_line(self):
        """A bad line shows itself alone; lines behind it are not looked at."""
        script = TWO_MESSAGES + "poll A.c 2\nsettle\n"
        self.assertEqual(self.shrink(script, "--last", "bad line * column 6 name"), "poll A.c 2\n")
        self.assertEqual(self.shrink(TWO_MESSAGES, "--last", "wc 010001 2 write 0 8").count("\n"), 18)

    @need("program")
    def test_the_answer_of_one_line(self):
        """Without --line any `go` that has no end to send shows the answer; the last line of the script wants its own."""
        script = TWO_MESSAGES + "go b.z\ngo a.z\n"
        self.assertEqual(self.shrink(script, "--answer", "refused NoSuch").count("\n"), 1)
        last = script.count("\n")
        self.assertEqual(self.shrink(script, "--answer", "refused NoSuch", "--line", last), "go a.z\n")
        self.assertEqual(self.shrink(script, "--answer", "ok", "--line", 3), "device 1 10.0.0.1\ncontext a 1\n")

    @need("program")
    def test_what_cannot_be_done_is_told(self):
        for words, told in [
            (("--answer", "took running"), "does not show 'took running', so there is nothing to shrink"),
            (("--answer", "ok", "--line", 99), "--line 99 is no line that has an answer: the script has 22 lines"),
            (("--last", "ok", "--line", 1), "--line goes with --answer"),
        ]:
            self.assertEqual(self.shrink(TWO_MESSAGES, *words, status=1), "")
            self.assertIn(told, self.told)

    @need("program")
    def test_the_runs_are_limited(self):
        self.shrink(TWO_MESSAGES, "--answer", "wc 010001 2 write 0 8", "--runs", 3)
        self.assertIn("in 3 runs of the program; these were all runs that it may take (--runs), so more lines may go", self.told)

    @need("program")
    def test_it_runs_as_a_process(self):
        path, out = self.file("long.script", TWO_MESSAGES), self.folder / "short.script"
        words = [sys.executable, str(SHRINK), "--program", found["program"], str(path), "--answer", "took ack", "--out", str(out)]
        ended = subprocess.run(words, capture_output=True, check=False)
        self.assertEqual((ended.returncode, ended.stdout.decode()), (0, f"{out}: {out.read_text().count(chr(10))} lines\n"))
        self.assertIn("took ack sent 2", play(out.read_text()))

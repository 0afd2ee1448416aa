"""Lines and their answers, what is said of refusals and bad lines, the prompt, and the generated script."""
import json
import os
import unittest
from unittest import mock

from look_parts.answers import pair
from look_parts.generated import generated_script, words_of
from look_parts.script import lines_of

from .running import COUNTS, EXAMPLES, LookTest, found, need, play

BEGINNING = """\
device 1 10.0.0.1
device 2 10.0.0.2
context a 1
context b 2
domain a.p
domain b.p
region a.m a.p 4096 64 lwra
region b.n b.p 8192 64 lr
cq a.c 2
cq a.d 4
cq b.c 16
qp a.q a.p a.c a.d 2 1
qp b.q b.p b.c b.c 8 8
"""
CONNECT = "connect a.q b.q mtu 256 psn 100 200 retry 7 rnr 7 reads 4\n"


def answers_of(played):
    return [a.answers for a in played.answered]


class Pairing(unittest.TestCase):
    """Answers that are made up here, so that no program is needed."""

    def paired(self, script, answers):
        return answers_of(pair(lines_of(script.encode()), 0, answers))

    def test_polls_in_a_row_are_cut_by_queue_and_count(self):
        script = "qp a.q a.p a.c a.d 8 8\npoll a.c 2\npoll a.c 256\n\n# four lines of one queue pair\npoll a.d 256\npoll a.d 1\npoll a.c 1\n"
        kinds = ["1 write 0 4", "2 cas 0 8", "3 read 0 4", "9 recv 0 4", "10 recvimm 0 4 imm 0000002a"]
        entries = [f"wc 010001 {kind}" for kind in kinds]
        self.assertEqual(
            self.paired(script, ["qp 010001", *entries, "refused Stopped", "none"]),
            [["qp 010001"], entries[:2], entries[2:3], [], [], entries[3:], ["refused Stopped"], ["none"]])

    def test_settle_takes_its_lines_left(self):
        script = "settle\nsettle\n  \nwire 1\n"
        self.assertEqual(
            self.paired(script, ["quiet 2", "left a.q noreceive", "left b.q paused", "quiet 0", "gone"]),
            [["quiet 2", "left a.q noreceive", "left b.q paused"], ["quiet 0"], [], ["gone"]])

    def test_examples_are_paired_as_they_are_written(self):
        """In the examples only `poll` and `settle` answer in more or fewer lines than one, and that by hand here."""
        more = {("evicted_while_waiting", 25): 2}
        for path in [EXAMPLES / f"{name}.script" for name in COUNTS]:
            lines = lines_of(path.read_bytes())
            played = pair(lines, 0, path.with_suffix(".expected").read_text().splitlines())
            counts = {a.line.number: len(a.answers) for a in played.answered}
            for line in lines:
                wanted = 0 if line.text.startswith("#") else more.get((path.stem, line.number), 1)
                if not (path.stem == "read_in_two_moves" and line.number == 31):
                    self.assertEqual(counts[line.number], wanted, (path.stem, line.number))

    def test_a_bad_line_ends_the_run(self):
        played = pair(lines_of(b"go a.q\n\tgo\ngo a.q\n"), 3, ["waiting", "bad line 2 column 1 ascii"])
        self.assertEqual(answers_of(played), [["waiting"]])
        self.assertEqual((played.ending.why, played.ending.column, len(played.unplayed)), ("ascii", 1, 2))

    def test_a_carriage_return_goes_only_before_a_newline(self):
        self.assertEqual([line.raw for line in lines_of(b"go a.q\r\n\ngo b.q\r")], [b"go a.q", b"", b"go b.q\r"])


class Side(LookTest):
    def note(self, script, number):
        """The answers and the sentence of one line."""
        told = json.loads(self.look("side", "-", "--json", given=script))
        row = next(row for row in told["lines"] if row["line"] == number)
        return row["answers"][0], row["note"]

    @need("program")
    def test_a_refusal_says_what_to_look_at(self):
        key, other = "01000002", "02000002"
        for begin, line, refused, note in [
            ("", "domain c.p", "NoSuch", "There is no context `c` yet; there are: a, b."),
            ("", "go a.z", "NoSuch", "Context `a` has no queue pair `a.z`; it has: a.q."),
            ("", "region a.k b.p 0 8 l", "NoSuch", "`b.p` belongs to another context than `a`, whose line this is."),
            ("", "restore b 7", "NoSuch", "There is no device 7; there are: 1, 2."),
            ("", "restore b 1", "NoSuch", "Context `b` was never stopped; `stop b` comes first."),
            ("", "device 2 10.0.0.9", "NumberTaken", "Line 2 made device 2 already."),
            ("", "region a.m a.p 0 8 l", "NumberTaken", "Line 7 made a region `a.m` already."),
            ("", "go a.q", "BadState", "`a.q` is not connected; a `connect` line comes first."),
            (CONNECT, CONNECT.strip(), "BadState", "Line 14 connected `a.q` to `b.q` already."),
            (CONNECT, f"read a.q 1 {other} 4096 4 8192 02000003", "BadKey",
             f"No region of context `a` has the local key {other}; they have: a.m {key}."),
            (CONNECT, f"recv a.q 1 {key} 4100 64", "BadKey", "Region `a.m` holds 4096 to 4159, and the line names 4100 to 4163."),
            ("", "load b.n 8191 1", "BadKey", "Region `b.n` holds 8192 to 8255, and the line names 8191 to 8191."),
            (CONNECT, f"write a.q 1 {key} 4096 1048577 8192 02000003", "TooLong",
             "The message has 1,048,577 bytes; the most is 1,048,576."),
            (CONNECT + f"recv a.q 1 {key} 4096 8\n", f"recv a.q 1 {key} 4096 8", "RqFull",
             "The receive depth of `a.q` is 1, and so many receives are unused: see that one finishes first."),
            (CONNECT + f"send a.q 1 {key} 4096 8\n" * 2, f"send a.q 3 {key} 4096 8", "SqFull",
             "The send depth of `a.q` is 2, and so many requests are unfinished: see that one finishes first."),
            ("stop b\n", "load b.n 8192 1", "Stopped", "Line 14 stopped context `b`; `restore b ID` comes first."),
            (CONNECT + "stop b\n", "stop a", "PeerMoving",
             "The partner `b.q` is carried since line 15; restore it and let it run first."),
            ("stop b\n", "restore b 2", "NumberTaken", "Device 2 still has the husk that line 14 left; `release b 2` comes first."),
            ("stop b\nrestore b 1\n", "restore b 1", "Spent", "Line 15 restored the last image of `b` already; it lives on device 1."),
            ("", "release b 2", "NoSuch", "Device 2 has no husk of `b`; devices with one: none."),
        ]:
            with self.subTest(line):
                script = f"{BEGINNING}{begin}{line}\n"
                self.assertEqual(self.note(script, script.count("\n")), (f"refused {refused}", note))

    @need("program")
    def test_a_bad_line_says_what_to_look_at(self):
        for line, column, why, part in [
            ("fly a.q", 1, "word", "No line begins with `fly`"),
            ("delivr 1", 1, "word", "did you mean `deliver`?"),
            ("go ", 4, "missing", "Here must stand `O`, an object"),
            ("go A.q", 4, "name", "In the place of `A.q` must stand `O`, an object"),
            ("deliver 01", 9, "number", "`k`, a decimal number without leading zero, below 2^64"),
            ("store a.m 4096 dea", 16, "hex", "`bytes`, 2 to 8,192 hexadecimal digits"),
            ("region a.m a.p 0 1 wl", 20, "rights", "in this order"),
            ("device 1 10.0.0.256", 10, "address", "an IPv4 address"),
            ("connect a.q b.q psn 1 2", 17, "option", "In the place of `psn` must stand the word `mtu`"),
            ("settle now", 8, "extra", "`now` is one word too many: the form is `settle`."),
            ("go\ta.q", 3, "ascii", "The byte 09 (a tab) in column 3"),
            ("#" + " " * 8400, 8401, "long", "The line has 8,401 bytes, and the most is 8,400."),
        ]:
            with self.subTest(line[:40]):
                told = json.loads(self.look("side", "-", "--json", given=f"# first\n{line}\ngo a.q\n", status=3))
                self.assertEqual(told["ending"]["text"], f"bad line 2 column {column} {why}")
                self.assertIn(part, told["ending"]["note"])
                self.assertEqual((told["lines"][0]["answers"], told["ending"]["not_played"]), ([], [line.replace("\t", "\\x09"), "go a.q"]))

    @need("program")
    def test_lines_stand_beside_their_answers(self):
        script = "device 1 10.0.0.1\n\ncontext a 1\ncq a.c 1\npoll a.c 1\n"
        self.assertEqual(
            self.look("side", "-", given=script),
            "1  device 1 10.0.0.1  ok\n2\n3  context a 1        ok\n4  cq a.c 1           ok\n5  poll a.c 1         none\n")

    @need("program")
    def test_pairing_agrees_with_a_mark_behind_each_line(self):
        """A line `wire 0` answers `gone` and changes nothing: so marks cut the answers of a copy."""
        script = generated_script(3, 2, 60, 2).decode()
        told = json.loads(self.look("side", "-", "--json", given=script))
        answers = "\n".join(play("".join(f"{line}\nwire 0\n" for line in script.splitlines())))
        marked = [part.split("\n") for part in (answers + "\n").removesuffix("\ngone\n").split("\ngone\n")]
        self.assertEqual([row["answers"] for row in told["lines"]], marked)


class Errors(LookTest):
    def test_what_is_missing_is_told_in_one_line(self):
        self.assertIn("names /nowhere/program, which is no program", self.one_line("side", "-", program="/nowhere/program"))
        self.assertEqual(self.one_line("side", "nowhere.script", program=found["program"] or "true"), "nowhere.script: No such file or directory")
        self.assertEqual(self.one_line("stats"), "stats wants a script, or --bulk with four numbers")

    @need("program")
    def test_the_unproved_program_is_run_by_the_kit(self):
        """A stand-in for `rt`, which takes the words of the kit's `rt try` in the folder of the program's crate."""
        told = f'[ "$1 $2 ${{PWD##*/}}" = "try -- rdma_cli" ] || exit 9; shift 2; exec {found["program"]} "$@"'
        path = self.file("rt", f"#!/bin/sh\n{told}\n")
        path.chmod(0o755)
        with mock.patch.dict(os.environ, {"PATH": f"{self.folder}:/usr/bin:/bin"}):
            wrote = self.look("--try", "side", EXAMPLES / "dump.script", program="/nowhere")
        self.assertEqual(wrote, self.look("side", EXAMPLES / "dump.script"))

    def test_a_missing_kit_is_told(self):
        with mock.patch.dict(os.environ, {"PATH": str(self.folder)}):
            self.assertEqual(self.one_line("--try", "side", EXAMPLES / "dump.script", program="true"), "--try needs the Rattle kit: `rt` is not on the path")

    @need("program")
    def test_too_long_a_script_is_not_played(self):
        path = self.file("long.script", b"#\n" * 524_289)
        self.assertEqual(self.one_line("side", path), "the script has 1,048,578 bytes, and the program takes 1,048,576")

    def test_it_runs_as_a_process(self):
        self.assertEqual(self.look_alone("side", "nowhere.script"), (1, "", "look: nowhere.script: No such file or directory\n"))
        self.assertEqual(self.look_alone()[0], 2)

    def test_each_subcommand_has_help(self):
        for name in ("side", "ladder", "pcap", "stats", "check", "unfold", "generate", "dump"):
            self.assertIn("usage: look " + name, self.look(name, "--help"))


class Prompt(LookTest):
    @need("program")
    def test_lines_are_answered_and_bad_ones_not_kept(self):
        kept = self.folder / "kept"
        told = self.look("-i", given=f"device 1 10.0.0.1\nfly\ncontext a 2\n\n:undo\ncontext a 1\n:save {kept}\n:quit\n")
        self.assertEqual(told.splitlines(), [
            "ok",
            "bad line 2 column 1 word",
            "  -> No line begins with `fly`; docs/scripts.md has all lines. The line is not kept.",
            "refused NoSuch",
            "  -> There is no device 2; there are: 1.",
            "taken back: context a 2",
            "ok",
            f"{kept}: 2 lines"])
        self.assertEqual(kept.read_text(), "device 1 10.0.0.1\ncontext a 1\n")

    @need("program")
    def test_lines_that_were_not_saved_are_put_away(self):
        last = self.folder / "jichurpa" / "last.script"
        told = self.look("-i", EXAMPLES / "dump.script", given="dump e\n")
        self.assertEqual(told.splitlines()[-2:], ["dump 20 4d494744554d5000000201650000000000000000", f"6 lines were not saved; the script is in {last}"])
        self.assertEqual(last.read_text(), (EXAMPLES / "dump.script").read_text() + "dump e\n")
        self.assertTrue(self.look("-i", given="device 1 10.0.0.1\n").endswith(f"1 line was not saved; the script is in {last}\n"))


class Generated(LookTest):
    def test_words_are_those_of_the_published_demo(self):
        """The demonstration that comes with PCG: seed 42 and stream 54."""
        words = words_of(42, 54)
        self.assertEqual([next(words) for _ in range(6)], [0xA15C02B7, 0x7B47F409, 0xBA1D3330, 0x83D2F293, 0xBFA4784B, 0xCBED606E])

    @need("program")
    def test_the_program_sums_the_script_up_alike(self):
        for words in ("0 1 1 0", "7 4 1000 5", "18446744073709551615 8 40 16"):
            first = self.look("stats", "--bulk", *words.split()).splitlines()[0]
            self.assertTrue(first.startswith("bulk lines "), first)
        self.assertEqual(self.one_line("stats", "--bulk", 1, 9, 1, 0), "CONNECTIONS is 9, and its range is 1 to 8")

"""Scripts that end early, scripts of nodes, lines beyond the end, tall ladders, and the line of progress."""
import json
import os
import pty
import subprocess
import sys
import xml.etree.ElementTree

from .running import EXAMPLES, LOOK, LookTest, found, need

# The third line sends datagram 1 in a script that goes on; the line behind it is bad, and one more follows.
OPENED = (EXAMPLES / "one_write.script").read_text().splitlines()[:17]
EARLY = "\n".join([*OPENED, "delivr 1", "settle"]) + "\n"
# What stands in a file that was saved in other ways than as ASCII: a byte order mark, the mark of UTF-16, a tab, a no-break space,
# a typographic quotation mark.
SAVED_OTHERWISE = [
    (b"\xef\xbb\xbfdevice 1 10.0.0.1\n", 1, "The file begins with a byte order mark; save the file without it"),
    (b"\xff\xfed\0e\0", 1, "The file begins with the mark of UTF-16; save the file as ASCII or UTF-8"),
    (b"device\t1 10.0.0.1\n", 7, "Put spaces in its place; `expand FILE` does so for all tabs."),
    (b"device 1 10.0.0.1\xc2\xa0\n", 18, "The byte c2 (of the character U+00A0, no-break space) in column 18"),
    (b"context \xe2\x80\x9ca 1\n", 9, "The byte e2 (of the character U+201C, left double quotation mark) in column 9"),
]
CAPITALS = [
    ("Device 1 10.0.0.1", "word", "`device`"),
    ("context A 1", "name", "`a`"),
    ("region a.m a.p 0 8 LW", "rights", "`lw`"),
    ("connect a.q b.q MTU 256", "option", "`mtu`"),
    ("write a.q 1 01000002 4096 4 8192 02000003 QUIET", "extra", "`quiet`"),
]


class Early(LookTest):
    @need("program")
    def test_a_script_that_ends_early_is_told(self):
        """What was played is shown, a warning says where it ended, and the status is that of the program."""
        path = self.file("early.script", EARLY)
        told = (f"look: {path} ended early, and only its first 17 lines are shown: bad line 18 column 1 word. "
                "No line begins with `delivr`; did you mean `deliver`?\n")
        capture = self.folder / "early.pcap"
        for words, shown in [
            (("pcap", path, capture), f"{capture}: 1 datagrams\n"),
            (("ladder", path), "p1--)p2: 1 WRITE Only, PSN 100: never delivered\n"),
            (("stats", path), "The script ended early: bad line 18 column 1 word\n"),
        ]:
            with self.subTest(words[0]):
                self.assertIn(shown, self.look(*words, status=3))
                self.assertEqual(self.told, told)
        dumping = self.file("early.script", (EXAMPLES / "dump.script").read_text() + "fly\n")
        self.assertEqual(json.loads(self.look("dump", "--play", dumping, "--json", status=3))["name"], "e")
        self.assertIn("ended early, and only its first 5 lines are shown: bad line 6 column 1 word.", self.told)
        path = self.file("early.script", EARLY)
        self.assertEqual(self.look("unfold", path, status=3), "")
        self.assertEqual(self.told, "look: the script ends early, so it is not unfolded: bad line 18 column 1 word\n")
        # A whole script is told nothing of.
        self.look("pcap", EXAMPLES / "one_write.script", capture)
        self.assertEqual(self.told, "")

    @need("program")
    def test_the_script_of_a_node_is_named(self):
        for name in ("partner", "source", "target"):
            path, capture = EXAMPLES / "live_move" / f"{name}.script", self.folder / "node.pcap"
            for words in (("pcap", path, capture), ("ladder", path), ("stats", path), ("unfold", path), ("dump", "--play", path)):
                with self.subTest(f"{name} {words[0]}"):
                    self.assertEqual(self.look(*words, status=3), "")
                    self.assertIn(f"look: {path} is the script of a node, and `play` has no such lines", self.told)
                    self.assertFalse(capture.exists())
            self.look("side", path, status=3)
            self.assertIn("is the script of a node", self.told)
        for line in ("wait 10", "until a.q idle", "show"):
            self.assertEqual(self.look("stats", self.file("served.script", f"context a\n{line}\n"), status=3), "")
            self.assertIn("is the script of a node", self.told)

    @need("program")
    def test_lines_beyond_the_end(self):
        """one_write.script has 24 lines; 16 is its WRITE, 2 and 3 make devices."""
        path = EXAMPLES / "one_write.script"
        count = len(path.read_text().splitlines())
        self.assertEqual(self.one_line("ladder", path, "--first", count + 1), f"--first {count + 1} is beyond the end: the script has {count} lines")
        self.look("ladder", path, "--first", count)
        self.assertIn("lines 4 to 3 are none", self.one_line("ladder", path, "--first", 4, "--last", 3))
        self.assertIn("lines 0 to 3 are none", self.one_line("ladder", path, "--first", 0, "--last", 3))
        self.look("ladder", path, "--first", 2, "--last", 3)
        self.assertEqual(self.told, "look: nothing is drawn: these lines did nothing that a ladder shows\n")

    @need("program")
    def test_a_file_that_was_saved_otherwise(self):
        for data, column, part in SAVED_OTHERWISE:
            with self.subTest(data):
                told = self.look("side", self.file("saved.script", data), status=3)
                self.assertIn(f"bad line 1 column {column} ascii", told)
                self.assertIn(part, told)

    @need("program")
    def test_words_in_capitals(self):
        for line, why, small in CAPITALS:
            with self.subTest(line):
                told = self.look("side", "-", given=line + "\n", status=3)
                self.assertIn(f" {why}\n", told)
                self.assertIn(f"Write it in small letters: {small}.", told)
        self.assertNotIn("small letters", self.look("side", "-", given="go a.1\n", status=3))

    @need("program")
    @need("mscgen")
    def test_a_tall_ladder_is_cut_into_pages(self):
        """450 lines `go` of an end that has nothing to send are 450 notes, and the note on the connection is one: three pages."""
        path = self.folder / "tall.svg"
        script = "\n".join([*OPENED[:15], *450 * ["go a.q"]]) + "\n"
        self.look("ladder", "-", "--svg", path, given=script)
        second, third = self.folder / "tall-2.svg", self.folder / "tall-3.svg"
        self.assertEqual(self.told, f"look: the ladder has 451 steps, so it is cut into 3 pages: {path}, {second} to {third}\n")
        counts = []
        for number, name in enumerate((path, second, third), 1):
            top = xml.etree.ElementTree.parse(name).getroot()
            texts = [element.text.strip() for element in top.iter() if element.tag.endswith("text") and element.text]
            self.assertIn(f"page {number} of 3", texts)
            self.assertIn("context a", texts)
            self.assertLess(int(top.get("height").removesuffix("px")), 32_767)
            counts.append(texts.count("go a.q: idle"))
        self.assertEqual((counts, sorted(self.folder.glob("*.svg"))), ([199, 200, 51], sorted([path, second, third])))


class Progress(LookTest):
    def run_in(self, errors):
        """Runs look with this standard error."""
        words = [sys.executable, str(LOOK), "--program", found["program"], "pcap", str(EXAMPLES / "one_write.script"), str(self.folder / "x.pcap")]
        subprocess.run(words, stdout=subprocess.DEVNULL, stderr=errors, check=True)

    @need("program")
    def test_a_terminal_sees_what_is_under_way(self):
        """The script is run once for its answers, and once for the bytes of its two datagrams. Each line is cleared again."""
        mine, its = pty.openpty()
        self.run_in(its)
        os.close(its)
        told = os.read(mine, 10_000).decode()
        os.close(mine)
        clear = "\r\x1b[K"
        self.assertEqual(told, f"{clear}look: run 1 of the program{clear}{clear}look: run 2 of the program, for datagrams 1 to 2 of 2{clear}")

    @need("program")
    def test_a_pipe_sees_nothing(self):
        path = self.folder / "errors"
        with path.open("wb") as errors:
            self.run_in(errors)
        self.assertEqual(path.read_bytes(), b"")

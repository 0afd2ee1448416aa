"""What `evacuate` did, in lines: counted by hand by docs/evacuate.md and docs/proof.md."""
import json
import subprocess

from .running import EXAMPLES, LookTest, found, need

SCRIPT = EXAMPLES / "evacuate.script"


def lines_behind(whole, script):
    """The lines that stand behind those of a script, without comments."""
    lines = whole.splitlines()
    kept = script.splitlines()
    assert lines[:len(kept)] == kept
    return [line for line in lines[len(kept):] if not line.startswith("#")]


class Evacuation(LookTest):
    def rows(self, script, *words, status=0):
        """The lines that do what `evacuate` did, each with its first answer."""
        told = json.loads(self.look("side", self.file("script", script), "--json", "--evacuate", *words, status=status))
        return [(row["text"], row["answers"][0]) for row in told["lines"][script.count("\n"):] if row["answers"]]

    @need("program")
    def test_three_contexts(self):
        """All settles, and then each context moves; nothing is left."""
        rows = self.rows(SCRIPT.read_text(), 2, 3)
        moves = [[(f"stop {name}", "stopped"), (f"restore {name} 3", "ok"), ("settle", "quiet 0")] for name in "bdf"]
        self.assertEqual(rows, [("settle", "quiet 0"), *moves[0], *moves[1], *moves[2]])

    @need("program")
    def test_what_evacuate_wrote_stands_beside(self):
        told = self.look("side", SCRIPT, "--evacuate", 2, 3)
        for text in ("# evacuate 2 3", "# moved b 3", "# moved d 3", "# moved f 3", "# empty"):
            self.assertIn(f"  {text}\n", told)

    @need("program")
    def test_datagrams_and_moves(self):
        """The lost write is sent again after an expiry. Each move is RESUME and RESUME_ACK. A context has a region of 64 bytes.

        The dump: 12 bytes of head, 4 of the domain, 2 + 25 + 64 of the region, 12 of the queue, 2 + 17 + 15 + 13 + 35 + 13 of
        the queue pair, no message in progress 1, 1 + 2 + 2 of three empty lists."""
        told = json.loads(self.look("stats", SCRIPT, "--json", "--evacuate", 2, 3))
        sent = {kind: (row["sent"], row["sent again"], row["lost"]) for kind, row in told["datagrams"].items()}
        self.assertEqual(sent, {"WRITE Only": (4, 1, 1), "ACK": (3, 0, 0), "RESUME": (3, 0, 0), "RESUME_ACK": (3, 0, 0)})
        size = 12 + 4 + 2 + 25 + 64 + 12 + 2 + 17 + 15 + 13 + 35 + 13 + 1 + 1 + 2 + 2
        moves = [(m["context"], m["from"], m["to"], m["datagrams"], m["pages"], m["dump bytes"], m["run again"]) for m in told["moves"]]
        self.assertEqual(moves, [(name, 2, 3, 2, 1, size, 1) for name in "bdf"])

    @need("program")
    def test_the_ladder(self):
        last = SCRIPT.read_text().count("\n")
        told = self.look("ladder", SCRIPT, "--first", last + 1, "--evacuate", 2, 3).split("    end\n")[-1].splitlines()
        # The lifelines: a, c, e on device 1; b, d, f on device 2; b, d, f on device 3.
        self.assertEqual(told[:6], [
            "    Note over p1,p6: settle: quiet 0, 3 delivered (dotted below)", "    p5-->>p2: 5 ACK, PSN 300",
            "    p3-->>p6: 6 WRITE Only, PSN 500, sent again", "    p6-->>p3: 7 ACK, PSN 500",
            "    Note over p4: stop b: its image is carried, a husk stays", "    Note over p7: restore b on device 3"])
        self.assertEqual(told[7:9], ["    p7-->>p1: 8 RESUME, moved 1, at 10.0.0.3", "    p1-->>p7: 9 RESUME_ACK, moved 1, at 10.0.0.3"])

    @need("program")
    def test_the_capture_has_all_datagrams(self):
        path = self.folder / "one.pcap"
        self.assertEqual(self.look("pcap", SCRIPT, path, "--evacuate", 2, 3), f"{path}: 13 datagrams\n")

    @need("program")
    def test_settles_may_be_unfolded(self):
        script = SCRIPT.read_text()
        told = lines_behind(self.look("unfold", SCRIPT, "--evacuate", 2, 3), script)
        self.assertEqual(told[:5], ["deliver 5", "expire e.q", "go e.q", "deliver 6", "deliver 7"])
        self.assertEqual(told[5:10], ["stop b", "restore b 3", "go b.q", "deliver 8", "deliver 9"])

    @need("program")
    def test_a_target_that_refuses_is_passed_by(self):
        """The husk of b stands on device 3: so b goes to device 1. It came to device 2 last, and leaves it last."""
        script = SCRIPT.read_text() + "settle\nstop b\nrestore b 3\nsettle\nstop b\nrelease b 2\nrestore b 2\nsettle\n"
        moves = [[(f"stop {name}", "stopped"), (f"restore {name} 3", "ok"), ("settle", "quiet 0")] for name in "df"]
        last = [("stop b", "stopped"), ("restore b 3", "refused NumberTaken"), ("restore b 1", "ok"), ("settle", "quiet 0")]
        self.assertEqual(self.rows(script, 2, 3, 1)[1:], [*moves[0], *moves[1], *last])

    @need("program")
    def test_a_context_that_stays(self):
        """A partner is carried, and has a request left: nothing more can be done. Or its husk stands on the one target: then it
        comes back to where it was."""
        script = SCRIPT.read_text()
        rows = self.rows(script + "stop c\n", 2, 3)
        self.assertEqual(rows[-2:], [("settle", "quiet 1"), ("stop d", "refused PeerMoving")])
        away = "settle\nstop b\nrestore b 3\nsettle\nstop b\nrelease b 2\nrestore b 2\nsettle\n"
        rows = self.rows(script + away + "stop d\nrestore d 3\nsettle\nstop f\nrestore f 3\nsettle\n", 2, 3)
        self.assertEqual(rows[1:], [
            ("stop b", "stopped"), ("restore b 3", "refused NumberTaken"), ("release b 2", "ok"), ("restore b 2", "ok"), ("settle", "quiet 0")])

    @need("program")
    def test_no_such_device(self):
        self.assertEqual(self.rows(SCRIPT.read_text(), 2, 9), [])
        ended = subprocess.run([found["program"], "evacuate", "2", "9"], input=SCRIPT.read_bytes(), capture_output=True, check=False)
        self.assertEqual(ended.returncode, 14)

    @need("program")
    def test_words(self):
        self.assertEqual(self.one_line("stats", "--bulk", 1, 1, 1, 0, "--evacuate", 2, 3), "--evacuate goes with a script, and not with --bulk")
        self.assertIn("wants the device to be emptied, and one target or more", self.one_line("side", SCRIPT, "--evacuate", 2))
        self.assertEqual(self.one_line("side", SCRIPT, "--evacuate", 2, 2), "evacuate 2 2: ids are 1 to 255, there are 1 to 15 targets, and all ids differ")

"""Datagrams of scripts: where they go, ladders and statistics."""
import json
import re
import xml.etree.ElementTree

from look_parts.datagrams import shown_address
from look_parts.flights import Story
from look_parts.generated import generated_script
from look_parts.ladder import Arrow, Maker
from look_parts.program import TOP, Program

from .running import EXAMPLES, SCRIPTS, LookTest, found, need, play

PAGES = ["README.md", "docs/moves.md", "docs/getting-started.md"]
TOUR = sorted((TOP / "examples" / "tour").glob("[0-9]*.md"))
DOCUMENTS = [*(TOP / name for name in PAGES), *(path for path in TOUR if "<!-- ladder of " in path.read_text())]

OPENING = """\
sequenceDiagram
    box transparent device 1, 10.0.0.1
    participant p1 as context a
    end
    box transparent device 2, 10.0.0.2
    participant p2 as context b
    end
    Note over p1,p2: a.q and b.q connected, MTU 256, PSN 100 and 200
"""

# The lines of a Mermaid sequence diagram that look writes: https://mermaid.js.org/syntax/sequenceDiagram.html
MERMAID = re.compile(
    r"sequenceDiagram|    (?:box transparent [^#;\n]+|end|participant p\d+ as [^#;\n]+"
    r"|Note over p\d+(?:,p\d+)?: [^#;\n]+|p\d+(?:->>|-->>|-x|--\))p\d+: [^#;\n]+)")


def story_of(path):
    return Story(Program(found["program"]), path.read_bytes())


class Flights(LookTest):
    @need("program")
    def test_addresses_follow_moves(self):
        """Datagram, sending line, kind, from, to, and what it did where; `None` is a settling."""
        told = [
            (f.number, f.line, f.packet.kind, shown_address(f.from_address)[-1] + shown_address(f.to_address)[-1],
             [(d.line, d.did) for d in f.deliveries])
            for f in story_of(EXAMPLES / "move_in_a_message.script").flights.values()]
        self.assertEqual(told, [
            (1, 18, "WRITE First", "12", [(21, "acted")]),
            (2, 19, "WRITE Middle", "12", [(23, "stopped")]),
            (3, 20, "WRITE Last", "12", []),
            (4, 23, "NAK_STOPPED", "21", [(24, "paused")]),
            (5, 26, "RESUME", "31", [(27, "resumed")]),
            (6, 27, "RESUME_ACK", "13", [(28, "running")]),
            (7, 29, "WRITE First", "13", [(30, "dupack")]),
            (8, 30, "ACK", "31", [(31, "acked")]),
            (9, 32, "WRITE Middle", "13", [(33, "acted")]),
            (10, 34, "WRITE Last", "13", [(35, "ack")]),
            (11, 35, "ACK", "31", [(36, "acked")])])

    @need("program")
    def test_what_a_settle_sent(self):
        """The moved end sends RESUME. Its partner sends again, also once after its RNR timer, and finds no receive."""
        flights = story_of(EXAMPLES / "evicted_while_waiting.script").flights
        kinds = ["SEND Only", "RNR NAK", "RESUME", "RESUME_ACK", "SEND Only", "RNR NAK", "SEND Only", "RNR NAK", "SEND Only", "ACK"]
        self.assertEqual([f.packet.kind for f in flights.values()], kinds)
        self.assertEqual([f.line for f in flights.values()], [19, 20] + 6 * [25] + 2 * [27])
        self.assertEqual([f.number for f in flights.values() if f.again], [5, 7, 9])

    @need("program")
    def test_the_answer_of_a_husk_in_a_settle(self):
        """The husk on device 2 answers what was sent to it before, to where that came from."""
        lines = (EXAMPLES / "move_in_a_message.script").read_text().splitlines()
        path = self.file("script", "\n".join([*lines[:22], "settle"]) + "\n")
        told = [
            (f.number, f.packet.kind, shown_address(f.from_address), shown_address(f.to_address), f.packet.psn)
            for f in story_of(path).flights.values()]
        self.assertEqual(told[3:], [
            (4, "NAK_STOPPED", "10.0.0.2", "10.0.0.1", 101), (5, "NAK_STOPPED", "10.0.0.2", "10.0.0.1", 102)])

    @need("program")
    def test_settles_in_a_row_are_told_apart(self):
        """A WRITE of 5,000 bytes at an MTU of 256 is 20 packets. The Last asks for an acknowledgement, and so do those whose
        number mod 8 is 7, which are 103 and 111."""
        lines = (EXAMPLES / "one_write.script").read_text().replace(" 64 lwra", " 8192 lwra").splitlines()[:15]
        write, read = "write a.q 1 01000002 4096 5000 8192 02000003", "read a.q 2 01000002 4096 256 8192 02000003"
        script = [*lines, "settle", write, "settle", "settle", read, "settle", "settle"]
        path = self.file("script", "\n".join(script) + "\n")
        counts = {}
        for flight in story_of(path).flights.values():
            counts.setdefault((flight.line, flight.packet.kind), []).append(flight.packet.psn)
        self.assertEqual(counts[18, "WRITE First"] + counts[18, "WRITE Middle"] + counts[18, "WRITE Last"], list(range(100, 120)))
        self.assertEqual(counts[18, "ACK"], [103, 111, 119])
        others = {key: len(numbers) for key, numbers in counts.items() if key[0] != 18}
        self.assertEqual(others, {(21, "READ request"): 1, (21, "READ response Only"): 1})


class Ladders(LookTest):
    @need("program")
    def test_one_write(self):
        self.assertEqual(self.look("ladder", EXAMPLES / "one_write.script"), OPENING + """\
    Note over p1: write a.q, id 1, 4 bytes
    p1->>p2: 1 WRITE Only, PSN 100: ack, sends 2
    p2->>p1: 2 ACK, PSN 100: acked
    Note over p1: completion: write, id 1, status 0, 4 bytes
""")

    @need("program")
    def test_late_and_repeated_datagrams(self):
        self.assertEqual(self.look("ladder", EXAMPLES / "lost_packet.script"), OPENING + """\
    Note over p1: write a.q, id 1, 300 bytes
    Note over p1: sends 1, 2
    p1->>p2: 2 WRITE Last, PSN 101: seqnak, sends 3
    p1->>p2: 2 WRITE Last, PSN 101: delivered again, silent naksent
    p1->>p2: 1 WRITE First, PSN 100: acted
    p1->>p2: 2 WRITE Last, PSN 101: delivered again, ack, sends 4
    p2->>p1: 4 ACK, PSN 101: acked
    p2->>p1: 3 NAK sequence error, PSN 100: silent useless
""")

    @need("program")
    def test_lost_datagrams_a_move_and_a_settle(self):
        told = self.look("ladder", EXAMPLES / "read_in_two_moves.script", "--first", 25, "--last", 28)
        self.assertEqual(told.split("    end\n")[-1], """\
    p3-xp1: 3 READ response Last, PSN 101: lost
    Note over p3: stop b: its image is carried, a husk stays
    Note over p4: restore b on device 3
    Note over p1,p4: settle: quiet 0, 7 delivered (dotted below)
    p4-->>p1: 4 RESUME, moved 1, at 10.0.0.3
    p1-->>p4: 5 RESUME_ACK, moved 1, at 10.0.0.3
    p1-->>p4: 6 READ request, PSN 101, sent again
    p4-->>p1: 7 READ response Only, PSN 101
    p1-->>p4: 8 READ request, PSN 102
    p4-->>p1: 9 READ response First, PSN 102
    p4-->>p1: 10 READ response Last, PSN 103
""")

    @need("program")
    def test_what_was_never_delivered_stands_last(self):
        told = self.look("ladder", EXAMPLES / "move_in_a_message.script").splitlines()
        self.assertEqual(told[-1], "    p1--)p2: 3 WRITE Last, PSN 102: never delivered")

    @need("program")
    def test_a_receiver_is_named_among_several(self):
        lines = (EXAMPLES / "one_write.script").read_text().splitlines()
        more = ["qp a.r a.p a.c a.c 8 8", "qp b.r b.p b.c b.c 8 8", "connect a.r b.r mtu 256 psn 7 9 retry 7 rnr 7 reads 4"]
        told = self.look("ladder", self.file("script", "\n".join([*lines[:17], *more, "deliver 1"]) + "\n")).splitlines()
        self.assertEqual(told[-2:], ["    p1->>p2: 1 WRITE Only to b.q, PSN 100: ack, sends 2", "    p2--)p1: 2 ACK to a.q, PSN 100: never delivered"])

    @need("program")
    def test_each_line_is_mermaid(self):
        for path in SCRIPTS:
            for line in self.look("ladder", path).splitlines():
                self.assertRegex(line, MERMAID)

    @need("program")
    def test_the_ladders_in_documents_are_current(self):
        told = self.look("ladder", "--check", *DOCUMENTS)
        self.assertEqual(told, "".join(f"{path}: ladders: 1, current\n" for path in DOCUMENTS))

    @need("program")
    def test_a_stale_ladder_is_told_and_written_anew(self):
        text = DOCUMENTS[1].read_text()
        path = self.file("moves.md", text.replace("    participant p1 as", "    participant p9 as"))
        self.look("ladder", "--check", path, status=1)
        self.look("ladder", "--refresh", path)
        self.assertEqual(path.read_text(), text)

    @need("program")
    @need("mscgen")
    def test_svg_has_each_datagram(self):
        path = self.folder / "ladder.svg"
        self.look("ladder", EXAMPLES / "one_write.script", "--svg", path)
        texts = [element.text.strip() for element in xml.etree.ElementTree.parse(path).iter() if element.tag.endswith("text") and element.text]
        self.assertIn("1 WRITE Only, PSN 100: ack, sends 2", texts)
        self.assertIn("2 ACK, PSN 100: acked", texts)

    @need("program")
    def test_a_missing_tool_is_told(self):
        import look_parts.drawings as drawings
        kept, drawings.TOOL = drawings.TOOL, "no_such_tool"
        self.addCleanup(setattr, drawings, "TOOL", kept)
        told = self.one_line("ladder", EXAMPLES / "one_write.script", "--svg", "x.svg")
        self.assertEqual(told, "--svg needs no_such_tool, which is not on the path (Debian package mscgen)")

    @need("program")
    def test_long_settlings_are_summed_up(self):
        lines = (EXAMPLES / "one_write.script").read_text().replace(" 64 lwra", " 8192 lwra").splitlines()[:15]
        writes = [f"write a.q {i} 01000002 4096 4096 8192 02000003" for i in range(8)]
        path = self.file("script", "\n".join([*lines, *writes, "settle"]) + "\n")
        steps = Maker(story_of(path)).make().steps
        # 8 WRITEs of 16 packets from 100 on. Of each 16 numbers two are 7 mod 8 and ask for an acknowledgement, and so does the
        # Last, whose number is 3 mod 8: 8 times 16 and 3. The first 40 are drawn.
        self.assertEqual([step.text for step in steps if "delivered" in step.text], ["settle: quiet 0, 152 delivered (dotted below)"])
        self.assertEqual(sum(isinstance(step, Arrow) for step in steps), 40)
        self.assertTrue(steps[-1].text.startswith("112 more: "))


class Stats(LookTest):
    def statistics(self, name):
        return json.loads(self.look("stats", EXAMPLES / f"{name}.script", "--json"))

    @need("program")
    def test_a_move_in_a_message(self):
        told = self.statistics("move_in_a_message")
        sent = {kind: (row["sent"], row["sent again"], row["never delivered"]) for kind, row in told["datagrams"].items()}
        self.assertEqual(sent, {
            "WRITE First": (2, 1, 0), "WRITE Middle": (2, 1, 0), "WRITE Last": (2, 1, 1), "ACK": (2, 0, 0),
            "NAK_STOPPED": (1, 0, 0), "RESUME": (1, 0, 0), "RESUME_ACK": (1, 0, 0)})
        self.assertEqual(told["effects"], {
            "acted": 2, "stopped": 1, "paused": 1, "resumed": 1, "running": 1, "dupack": 1, "ack": 1, "acked": 2})
        self.assertEqual(told["completions"], {"write, status 0": 1})
        # The dump: 12 bytes of head with the name b, 4 of the domain p, 2 + 25 + 1024 of the region n, 12 of the queue c, 2 + 17
        # + 15 + 13 + 35 + 13 of the queue pair q, 15 of the WRITE in progress, 1 + 2 + 2 of three empty lists.
        size = 12 + 4 + 2 + 25 + 1024 + 12 + 2 + 17 + 15 + 13 + 35 + 13 + 15 + 1 + 2 + 2
        self.assertEqual(told["moves"], [{
            "context": "b", "from": 2, "to": 3, "stop": 22, "restore": 25, "running": 28, "lines": 7, "datagrams": 3, "pages": 1,
            "dump bytes": size, "ends": 1, "sent RESUME": 1, "run again": 1}])

    @need("program")
    def test_lost_repeated_and_settled(self):
        told = self.statistics("lost_packet")
        self.assertEqual(told["datagrams"]["WRITE Last"], {
            "sent": 1, "sent again": 0, "lost": 0, "deliveries": 3, "delivered again": 2, "never delivered": 0})
        told = self.statistics("read_in_two_moves")
        self.assertEqual(told["datagrams"]["READ response Last"]["lost"], 2)
        self.assertEqual(told["datagrams"]["READ request"]["sent again"], 2)
        self.assertEqual(told["effects"], {"bytes": 2, "landed": 2, "not told (settle)": 11})
        self.assertEqual([(m["stop"], m["running"], m["datagrams"], m["lines"]) for m in told["moves"]], [(26, 28, 2, 3), (40, 42, 2, 3)])
        self.assertEqual(len(told["not told"]), 1)

    @need("program")
    def test_waits_expiries_and_refusals(self):
        """The first expiry takes the end back to its oldest packet. So at the second one nothing is in flight."""
        lines = (EXAMPLES / "evicted_while_waiting.script").read_text().splitlines()[:21]
        script = [*lines, "rnr a.q", "rnr a.q", "go a.q", "expire a.q", "expire a.q", "expire b.q", "go b.z", "stop a", "go a.q"]
        told = json.loads(self.look("stats", "-", "--json", given="\n".join(script) + "\n"))
        self.assertEqual(told["timers"], {
            "RNR timer over": 1, "RNR timer notwaiting": 1, "expiries counted": 1, "notcounted nothing": 2,
            "answered by an RNR NAK": 1, "waits begun by an RNR NAK": 1})
        self.assertEqual(told["refusals"], {"NoSuch": 1, "Stopped": 1})
        self.assertEqual((told["moves"][0]["restore"], told["moves"][0]["running"], told["moves"][0]["pages"]), (None, None, 2))


class Unfolding(LookTest):
    @need("program")
    def test_settlings_in_lines(self):
        """By docs/proof.md: the moved end resumes, the sender sends again, and once more after its RNR timer, which helps only
        once without a receive. With the receive the timer is stepped again."""
        path = EXAMPLES / "evicted_while_waiting.script"
        lines = path.read_text().splitlines()
        first = "go b.q, deliver 3, deliver 4, go a.q, deliver 5, deliver 6, rnr a.q, go a.q, deliver 7, deliver 8"
        second = "rnr a.q, go a.q, deliver 9, deliver 10"
        self.assertEqual(self.look("unfold", path).splitlines(), [
            *lines[:24], "# The settle of line 25 answered: quiet 1, left a.q noreceive", *first.split(", "), lines[25],
            "# The settle of line 27 answered: quiet 0", *second.split(", "), *lines[27:]])

    @need("program")
    def test_an_unfolded_script_does_the_same(self):
        """A generated script with moves: its other lines answer the same, and so does `wire`."""
        script = generated_script(11, 3, 120, 4).decode()
        new = self.look("unfold", "-", given=script)
        self.assertNotIn("\nsettle", new)
        wires = "".join(f"wire {k}\n" for k in range(1, 2000))
        old_answers, new_answers = play(script + wires), play(new + wires)
        self.assertEqual(old_answers[-1999:], new_answers[-1999:])
        polled = [[a for a in answers if a.startswith(("wc ", "none"))] for answers in (old_answers, new_answers)]
        self.assertEqual(polled[0], polled[1])

    @need("program")
    def test_statistics_of_an_unfolded_script_tell_all(self):
        told = json.loads(self.look("stats", EXAMPLES / "evicted_while_waiting.script", "--unfold", "--json"))
        self.assertEqual(told["effects"], {"acked": 1, "ack": 1, "notready": 3, "resumed": 1, "running": 1, "waits": 3})
        self.assertEqual((told["timers"]["RNR timer over"], told["not told"]), (2, []))

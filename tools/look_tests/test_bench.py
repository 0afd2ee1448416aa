"""tools/bench: its plan of packets and its columns worked out by hand, and a short run whose numbers have to add up."""
import contextlib
import io
import json
import os
import time
from unittest import mock

from look_parts.bench import COLUMNS, Terms, batch, in_parts, main, percentile, plan_of, row, script
from look_parts.program import VARIABLE

from .running import LookTest, found, need

NAMES = ("nodes", "bare UDP loop")


class Plans(LookTest):
    def test_lengths_of_datagrams(self):
        """By docs/wire.md: 12 bytes of base header, 16 of RETH in the first packet, the payload in whole words, 4 of CRC."""
        for size, mtu, lengths in [(4096, 4096, [4128]), (2, 4096, [36]), (300, 256, [288, 60]), (768, 256, [288, 272, 272])]:
            terms = Terms(size, mtu, 8)
            self.assertEqual([terms.bytes_of(number) for number in range(terms.packets)], lengths)
            # The next message begins anew.
            self.assertEqual(terms.bytes_of(terms.packets), lengths[0])

    def test_lines_of_a_batch(self):
        """Three messages of four packets, eight in flight: 3, 7 and 11 ask for an acknowledgement. The turn that takes the first
        one sends 8, so 9, 10 and 11 have lines; then the other two are taken."""
        lines = batch(Terms(1024, 256, 8), 0, 3, 5)
        write = "write a.q 5 01000002 4096 1024 4096 02000003"
        self.assertEqual(lines, [f"{write} quiet"] * 2 + [write] + ["go a.q"] * 8 + ["serve 1"] + ["go a.q"] * 3 + ["serve 2", "poll a.c 256"])

    def test_lines_of_single_packets(self):
        """Each packet asks. Eight go, and each turn takes an acknowledgement and sends the next packet, as long as there is one."""
        self.assertEqual(batch(Terms(64, 4096, 8), 0, 20, 1)[20:], ["go a.q"] * 8 + ["serve 20", "poll a.c 256"])

    def test_the_bare_loop_does_the_same(self):
        """A message of twelve packets: 7 and 11 ask, and only then something is waited for. Eight are in flight at most."""
        plan = list(plan_of(Terms(3072, 256, 8), 0, 1))
        self.assertEqual([None if data is None else data[0] for data in plan], [0] * 7 + [1, None] + [0] * 3 + [1, None])
        self.assertEqual([len(data) for data in plan if data], [288] + 11 * [272])

    def test_the_longest_scripts_fit(self):
        """A node takes 1,048,576 bytes, and posts of 256 writes whose bytes fit 8,192 pages of 4,096 bytes beside a region of one."""
        for size, mtu, depth in [(1, 4096, 8), (65_536, 4096, 16), (65_536, 256, 8), (1_048_576, 256, 8), (1_048_576, 4096, 64)]:
            terms = Terms(size, mtu, depth)
            for counts in ([1] * terms.writes_of_a_run, in_parts(terms.writes_of_a_run, terms.batch)):
                self.assertEqual(sum(counts), terms.writes_of_a_run)
                self.assertLessEqual(len("\n".join(script(terms, 65_535, counts))), 1_048_575)
                pages = -(-size // 4096)
                self.assertTrue(max(counts) <= 256 and (max(counts) + 1) * pages <= 8192)

    def test_percentiles(self):
        """The least time that so many percent do not exceed."""
        hundred = list(range(100, 0, -1))
        for times, percent, wanted in [(hundred, 50, 50), (hundred, 99, 99), (hundred, 99.9, 100), ([7], 50, 7), ([3, 1, 2], 50, 2), (range(1, 2001), 99.9, 1998)]:
            self.assertEqual(percentile(times, percent), wanted)

    def test_a_row(self):
        """1,000 writes of 1,024 bytes in half a second: 2,000 a second, 2,048,000 bytes a second, of 1,048,576 in a megabyte."""
        told = row(Terms(1024, 4096, 16), 1000, 0.5, [0.001] * 990 + [0.002] * 10)
        self.assertEqual([told[column] for column in COLUMNS], [1024, 1000, 1.953125, 0.002, 1000, 1000, 2000])
        self.assertEqual((told["seconds"], round(told["seconds one by one"], 9)), (0.5, 1.01))


class Bench(LookTest):
    def bench(self, *words, status=0, program=None):
        out, err = io.StringIO(), io.StringIO()
        with mock.patch.dict(os.environ, {VARIABLE: program or found["program"]}), contextlib.redirect_stdout(out), contextlib.redirect_stderr(err):
            ended = main([str(word) for word in words])
        self.assertEqual(ended, status, err.getvalue())
        self.told = err.getvalue()
        return out.getvalue()

    @need("program")
    @need("loopback")
    def test_the_numbers_of_a_run_add_up(self):
        sizes, count, begun = [64, 10_000], 130, time.perf_counter()
        told = json.loads(self.bench("--json", "-n", count, "-s", *sizes))
        wall = time.perf_counter() - begun
        for name in NAMES:
            self.assertEqual([(one["#bytes"], one["#iterations"]) for one in told[name]], [(size, count) for size in sizes])
            for one in told[name]:
                self.assertGreater(one["seconds"], 0)
                self.assertAlmostEqual(one["MsgRate[Mpps]"] * 1e6 * one["seconds"], count, delta=1e-6)
                self.assertAlmostEqual(one["BW average[MB/s]"] * 1_048_576 * one["seconds"], one["#bytes"] * count, delta=1e-3)
                half, most, last = (one[column] / 1e6 for column in COLUMNS[4:])
                self.assertTrue(0 < half <= most <= last)
                # Half of the writes took the median or longer, and none longer than the last percentile of 130: the longest one.
                self.assertTrue(half * count / 2 <= one["seconds one by one"] <= last * count)
        # All that was measured lies in the time that it took.
        self.assertLess(sum(one["seconds"] + one["seconds one by one"] for name in NAMES for one in told[name]), wall)

    @need("program")
    @need("loopback")
    def test_the_columns_are_those_of_perftest(self):
        lines = self.bench("-n", 20, "-s", 256, "-m", 256).splitlines()
        self.assertTrue(lines[0].startswith("WRITE over loopback, MTU 256, at most 16 packets in flight"))
        heads = "#bytes #iterations BW average[MB/s] MsgRate[Mpps] 50%[usec] 99%[usec] 99.9%[usec]"
        self.assertEqual([" ".join(lines[at].split()) for at in (1, 2, 4, 5)], ["nodes:", heads, "bare UDP loop:", heads])
        for at in (3, 6):
            self.assertEqual(lines[at].split()[:2], ["256", "20"])
            self.assertEqual(len(lines[at].split()), 7)

    def test_words_out_of_range(self):
        for words, told in [(("-s", 0), "--size is 0, and its range is 1 to 1048576"), (("--depth", 7), "--depth is 7, and its range is 8 to 64"),
                            (("-n", 0), "--iterations is 0, and its range is 1 to 1,000,000")]:
            self.assertEqual(self.bench(*words, status=1, program="true"), "")
            self.assertEqual(self.told, f"bench: {told}\n")

    @need("loopback")
    def test_a_program_without_nodes_is_told(self):
        self.assertEqual(self.bench("-n", 1, "-s", 2, status=1, program="true"), "")
        self.assertEqual(self.told, "bench: a node ended early: no answer (status 0)\n")

"""Dumps: three that were put together by hand from docs/dumps.md, read and written field by field."""
import copy
import json
import subprocess
import unittest

from look_parts.dump_reader import Fault, read_dump
from look_parts.dump_writer import dump_bytes, from_json, to_json
from look_parts.program import TOP

from .running import EXAMPLES, LookTest, found, need

# The smallest dump, as docs/dumps.md shows it.
SMALLEST = "4d49474455 4d5000 0002 0165 0000 0000 0000 0000"

REGION_BYTES = bytes(range(256)) + bytes(range(32))

# Each part that a dump can have; the digits, and the fields that they spell.
BUSY = [
    "4d494744554d5000", "0002", "0161",  # the magic, version 2, the name a
    "0002 016f 0170",  # two domains, o and p
    # One region m: the domain at position 1, base 16384, length 288, all rights, its keys, its bytes.
    "0001 016d 0001 0000000000004000 00000120 0f 01000002 01000003", REGION_BYTES.hex(),
    "0001 0163 00000010 00000002",  # one completion queue c of 16, with two entries
    "00010002 0000000000000007 05 00 00000004 01 0a0b0c0d",  # a receive, four bytes, with an immediate
    "00010003 0000000000000009 00 05 00000000 00 00000000",  # a flushed WRITE
    "0003",  # three queue pairs
    "0170 00010002 0001 0000 0000 0008 0004 01",  # p: domain 1, queue 0 twice, depths 8 and 4, Rts
    "00030002 0a000003 12b7 0002 0001 00",  # its partner at 10.0.0.3:4791, two moves, one of the partner, not resuming
    "0100 00000064 000000c8 07 07 04",  # MTU 256, starts 100 and 200, retry 7, rnr 7, reads 4
    "0000000000000005 0000000000000005 0000000000000007 0000000000000007",  # first, oldest, next, top
    "01 02 00",  # one expiry, two waits, no RNR wait
    "0000000000000009 00 00000003",  # 9 is expected, no NAK was sent, three messages are finished
    "01 00000100",  # a SEND in progress, 256 bytes of it done
    "0000000000000008 01000002 0000000000004000 00000120",  # its receive
    "02 0000000000000002 0000000000000014 0000000000000004 000000000000000a",  # two replies to atomics
    "0004",  # four untold requests
    "0000000000000001 00 01 00000000 00000004 01000002 0000000000004000 0000000000008000 03000003 0000000000000000 0000000000000000 aabbccdd",
    "0000000000000002 01 03 01020304 00000003 01000002 0000000000004001 0000000000000000 00000000 0000000000000000 0000000000000000 eeff11",
    "0000000000000003 02 00 00000000 00000120 01000002 0000000000004000 0000000000008000 03000003 0000000000000000 0000000000000000",
    "0000000000000004 03 05 00000000 00000008 01000002 0000000000004008 0000000000008008 03000003 0000000000000007 0000000000000006",
    "0001 000000000000000b 01000002 0000000000004010 00000010",  # one unused receive
    "0171 00010003 0001 0000 0000 0001 0001 00 0000 0000",  # q, in Init
    # r, in Rts, resuming, with a WRITE in progress: 256 of 280 bytes, from byte 8 of region 0 on.
    "0172 00010004 0001 0000 0000 0002 0001 01",
    "00030004 7f000001 12c1 0001 0000 01 0100 00000000 00ffffff 00 00 01",
    "0000000000000000 0000000000000000 0000000000000000 0000000000000000 00 00 00",
    "0000000000000001 01 00000000 02 0000 00000008 00000118 00000100 00 0000 0000",
]

NO_REQUEST = {"immediate": "00000000", "swap_or_add": 0, "compare": 0}
BUSY_JSON = {
    "version": 2, "name": "a", "domains": ["o", "p"],
    "regions": [{
        "name": "m", "domain": 1, "base": 16384, "length": 288, "rights": "lwra", "local_key": "01000002", "remote_key": "01000003",
        "bytes": REGION_BYTES.hex()}],
    "completion_queues": [{
        "name": "c", "capacity": 16,
        "entries": [
            {"queue_pair": "010002", "id": 7, "kind": "recv", "status": 0, "length": 4, "has_immediate": True, "immediate": "0a0b0c0d"},
            {"queue_pair": "010003", "id": 9, "kind": "write", "status": 5, "length": 0, "has_immediate": False, "immediate": "00000000"}]}],
    "queue_pairs": [
        {
            "name": "p", "number": "010002", "domain": 1, "send_queue": 0, "receive_queue": 0, "send_depth": 8, "receive_depth": 4, "state": "rts",
            "connection": {
                "partner": "030002", "address": "10.0.0.3", "port": 4791, "moves": 2, "partner_moves": 1, "resuming": False,
                "mtu": 256, "own_start": 100, "partner_start": 200, "retry": 7, "rnr": 7, "reads": 4,
                "first": 5, "oldest": 5, "next": 7, "top": 7, "expiries": 1, "waits": 2, "rnr_wait": False,
                "expected": 9, "nak_sent": False, "messages": 3,
                "in_progress": {"kind": "send", "done": 256, "receive": {"id": 8, "local_key": "01000002", "local_address": 16384, "length": 288}},
                "replies": [{"number": 2, "old": 20}, {"number": 4, "old": 10}]},
            "requests": [
                {**NO_REQUEST, "id": 1, "kind": "write", "flags": ["signaled"], "length": 4, "local_key": "01000002", "local_address": 16384,
                 "remote_address": 32768, "remote_key": "03000003", "bytes": "aabbccdd"},
                {**NO_REQUEST, "id": 2, "kind": "send", "flags": ["signaled", "immediate"], "immediate": "01020304", "length": 3,
                 "local_key": "01000002", "local_address": 16385, "remote_address": 0, "remote_key": "00000000", "bytes": "eeff11"},
                {**NO_REQUEST, "id": 3, "kind": "read", "flags": [], "length": 288, "local_key": "01000002", "local_address": 16384,
                 "remote_address": 32768, "remote_key": "03000003", "bytes": None},
                {**NO_REQUEST, "id": 4, "kind": "cas", "flags": ["signaled", "fence"], "length": 8, "local_key": "01000002", "local_address": 16392,
                 "remote_address": 32776, "remote_key": "03000003", "swap_or_add": 7, "compare": 6, "bytes": None}],
            "receives": [{"id": 11, "local_key": "01000002", "local_address": 16400, "length": 16}]},
        {
            "name": "q", "number": "010003", "domain": 1, "send_queue": 0, "receive_queue": 0, "send_depth": 1, "receive_depth": 1,
            "state": "init", "connection": None, "requests": [], "receives": []},
        {
            "name": "r", "number": "010004", "domain": 1, "send_queue": 0, "receive_queue": 0, "send_depth": 2, "receive_depth": 1, "state": "rts",
            "connection": {
                "partner": "030004", "address": "127.0.0.1", "port": 4801, "moves": 1, "partner_moves": 0, "resuming": True,
                "mtu": 256, "own_start": 0, "partner_start": 16777215, "retry": 0, "rnr": 0, "reads": 1,
                "first": 0, "oldest": 0, "next": 0, "top": 0, "expiries": 0, "waits": 0, "rnr_wait": False,
                "expected": 1, "nak_sent": True, "messages": 0,
                "in_progress": {"kind": "write", "region": 0, "offset": 8, "length": 280, "done": 256}, "replies": []},
            "requests": [], "receives": []}],
}
BUSY_LINES = """\
context a
domain o
domain p
region m 01000002 01000003 16384 288
cq c 16 2
qp p 010002 rts 4 1 2
qp q 010003 init 0 0 0
qp r 010004 rts 0 0 1
"""

# An end in Error, in version 1.
ENDED = (
    "4d494744554d5000 0001 0162 0001 0170 0000 0001 0163 00000001 00000000 0001"
    " 0171 00010001 0000 0000 0000 0001 0001 02"
    " 00020001 0a000002 12b7 0000 0000 00 1000 00000001 00000002 03 02 10"
    " 0000000000000006 0000000000000006 0000000000000006 0000000000000006 03 02 01 0000000000000000 00 00000000 00 00 0000 0000")

SMALL = "4d494744554d5000"

# Bytes that are no dump: the digits, the place and the reason.
FAULTS = [
    ("", 0, "short"),
    (SMALL[:14], 7, "short"),
    ("4d494744554d5001 0002 0165", 0, "magic"),
    (SMALL + "0003 0165 0000 0000 0000 0000", 8, "version"),
    (SMALL + "0002 0145 0000 0000 0000 0000", 10, "name"),
    (SMALL + "0002 0265", 12, "short"),
    (SMALL + "0002 0165 0002 0170 0170 0000 0000 0000", 16, "name"),
    (SMALL + "0002 0165 0041", 12, "count"),
    (SMALL + "0002 0165 0000 0000 0000 0000 00", 20, "trailing"),
    # A region of a domain that is not there, one with an odd local key, one with another remote key.
    (SMALL + "0002 0165 0000 0001 016d 0000", 18, "field"),
    (SMALL + "0002 0165 0001 0170 0001 016d 0000 0000000000000000 00000001 0f 01000003 01000004", 35, "field"),
    (SMALL + "0002 0165 0001 0170 0001 016d 0000 0000000000000000 00000001 0f 01000002 01000004", 39, "field"),
    # A completion queue with more entries than its capacity.
    (SMALL + "0002 0165 0000 0000 0001 0163 00000001 00000002", 24, "count"),
    # A queue pair number without a count.
    (SMALL + "0002 0165 0001 0170 0000 0001 0163 00000001 00000000 0001 0171 00010000", 34, "field"),
    # In Error, but with an expiry more than the retries.
    (ENDED.replace(" 03 02 01 0000", " 04 02 01 0000"), 109, "field"),
    # An unused receive in Error.
    (ENDED[:-4] + "0001", 129, "field"),
]


def joined(parts):
    return bytes.fromhex("".join(parts))


class Dumps(unittest.TestCase):
    def test_every_field_of_a_busy_dump(self):
        data = joined(BUSY)
        image, fields = read_dump(data)
        self.assertEqual(to_json(image), BUSY_JSON)
        self.assertEqual(dump_bytes(image), data)
        self.assertEqual(dump_bytes(from_json(json.loads(json.dumps(BUSY_JSON)))), data)
        # The fields stand one behind the other, and there is nothing between them.
        self.assertEqual([f.place for f in fields], [sum(f.size for f in fields[:i]) for i in range(len(fields))])
        self.assertEqual(sum(f.size for f in fields), len(data))

    def test_the_smallest_dump_and_one_in_error(self):
        for digits in (SMALLEST, ENDED):
            image, _ = read_dump(bytes.fromhex(digits))
            self.assertEqual(dump_bytes(from_json(to_json(image))), bytes.fromhex(digits))
        self.assertEqual((image["version"], image["queue_pairs"][0]["state"], image["queue_pairs"][0]["connection"]["rnr_wait"]), (1, 2, 1))

    def test_the_first_fault_is_named(self):
        for digits, place, why in FAULTS:
            with self.subTest(f"{why} at {place}"), self.assertRaises(Fault) as caught:
                read_dump(bytes.fromhex(digits))
            self.assertEqual((caught.exception.place, caught.exception.why), (place, why))

    def test_all_sample_dumps(self):
        """The dumps and near-dumps of crates/show_cases, with what two other implementations say of them; the files of depots."""
        folder = TOP / "crates" / "show_cases"
        cases = zip((folder / "stdin").read_text().splitlines(), (folder / "stdout").read_text().splitlines(), strict=True)
        samples, told = zip(*((bytes.fromhex(line[5:]), said) for line, said in cases if line.startswith("dump ")))
        self.assertEqual((len(samples), told.count("ok")), (len(told), 36))
        for place, (data, words) in enumerate(zip(samples, told), 1):
            with self.subTest(f"line {place}: {words}"):
                self.assertEqual(self.what_is_said(data), words)
        for path in (EXAMPLES / "depot").iterdir():
            self.assertEqual(self.what_is_said(path.read_bytes()), "ok")

    def what_is_said(self, data):
        """What look says of bytes; a dump has to go through its JSON."""
        try:
            image, _ = read_dump(data)
        except Fault as fault:
            return f"bad {fault.place} {fault.why}"
        self.assertEqual(dump_bytes(from_json(json.loads(json.dumps(to_json(image))))), data)
        return "ok"

    def test_each_front_of_a_dump_is_short(self):
        data = joined(BUSY)
        for count in range(len(data)):
            with self.assertRaises(Fault) as caught:
                read_dump(data[:count])
            self.assertEqual((caught.exception.place, caught.exception.why), (count, "short"))

    def test_a_full_queue_is_named_at_its_capacity(self):
        """Eight places of c are in use: two entries, four requests, an unused receive, and the receive of the SEND."""
        image = copy.deepcopy(BUSY_JSON)
        place = len(joined(BUSY[:6])) + 4
        for capacity in (8, 7):
            image["completion_queues"][0]["capacity"] = capacity
            data = dump_bytes(from_json(image))
            if capacity == 8:
                read_dump(data)
                continue
            with self.assertRaises(Fault) as caught:
                read_dump(data)
            self.assertEqual((caught.exception.place, caught.exception.why), (place, "field"))


class DumpWords(LookTest):
    def test_a_dump_is_taken_from_files_answers_and_digits(self):
        data = joined(BUSY)
        for name, given in [("depot", data), ("answers", f"ok\nstopped\ndump {len(data)} {data.hex()}\nok\n"), ("digits", data.hex().upper())]:
            path = self.file(name, given)
            self.assertEqual(json.loads(self.look("dump", path, "--json")), BUSY_JSON, name)
            self.assertEqual(self.look("dump", path, "--lines"), BUSY_LINES)
        two = self.file("two", f"{data.hex()}\n{bytes.fromhex(SMALLEST).hex()}\n")
        self.assertEqual(self.look("dump", two, "--pick", 2, "--lines"), "context e\n")

    def test_json_is_written_as_the_same_bytes(self):
        source, out = self.file("busy.json", json.dumps(BUSY_JSON)), self.folder / "out"
        self.assertEqual(self.look("dump", "--from-json", source, out), f"{out}: {len(joined(BUSY))} bytes\n")
        self.assertEqual(out.read_bytes(), joined(BUSY))

    def test_text_shows_place_size_name_and_value(self):
        told = self.look("dump", self.file("digits", SMALLEST.replace(" ", ""))).splitlines()
        self.assertEqual([line.split(None, 2)[:2] for line in told[1:4]], [["0", "8"], ["8", "2"], ["10", "2"]])
        self.assertEqual(told[3].split(), ["10", "2", "name", "e"])

    def test_faults_are_told_in_one_line_and_nothing_is_written(self):
        out = self.folder / "out"
        cut = self.file("cut", joined(BUSY)[:-1])
        self.assertEqual(self.one_line("dump", cut), f"bad dump {len(joined(BUSY)) - 1} short: the fault is at queue_pairs[2].count of receives")
        for change, told in [
            (lambda j: j.pop("domains"), "the image: the field domains is missing"),
            (lambda j: j["regions"][0].update(length=5), "regions[0]: length is 5, and there are 288 bytes"),
            (lambda j: j["regions"][0].update(rights="x"), "regions[0].rights: `-` or some of the letters l, w, r, a must stand here"),
            (lambda j: j["queue_pairs"][1].update(state="rts"), "queue_pairs[1]: connection is null where the state is init, and nowhere else"),
            (lambda j: j["queue_pairs"][0].update(number="000002"),
             f"bad dump {len(joined(BUSY[:10])) + 2} field: the fault is at queue_pairs[0].number"),
        ]:
            image = copy.deepcopy(BUSY_JSON)
            change(image)
            self.assertEqual(self.one_line("dump", "--from-json", self.file("bad.json", json.dumps(image)), out), told)
            self.assertFalse(out.exists())
        self.look("dump", "--from-json", self.folder / "bad.json", out, "--unchecked")
        self.assertTrue(out.exists())
        self.assertIn("shows none", self.one_line("dump", self.file("long", "dump 5000\n")))

    def test_the_example_of_show_dump(self):
        self.assertEqual(self.look("dump", EXAMPLES / "depot" / "e", "--lines"), (EXAMPLES / "dump_text.expected").read_text())

    @need("program")
    def test_the_program_shows_the_same_lines_and_faults(self):
        depot = self.folder / "depot"
        depot.mkdir()
        for number, data in enumerate([joined(BUSY), bytes.fromhex(ENDED), *(bytes.fromhex(digits) for digits, _, _ in FAULTS)]):
            (depot / "one").write_bytes(data)
            ended = subprocess.run([found["program"], "show-dump", "one"], capture_output=True, text=True, cwd=self.folder, check=False)
            if number < 2:
                self.assertEqual(self.look("dump", depot / "one", "--lines"), ended.stdout)
            else:
                _, place, why = FAULTS[number - 2]
                self.assertEqual((ended.stdout, ended.returncode), (f"bad dump {place} {why}\n", 3))

    @need("program")
    def test_a_script_shows_its_dumps(self):
        self.assertEqual(json.loads(self.look("dump", "--play", EXAMPLES / "dump.script", "--json"))["name"], "e")

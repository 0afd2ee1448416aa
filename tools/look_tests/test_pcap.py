"""Captures: a frame worked out by hand, and what tshark reads of every datagram of the examples."""
import subprocess

from look_parts.program import TOP

from .running import COUNTS, EXAMPLES, SCRIPTS, LookTest, found, need, play, played_cases

READER = TOP / "tools" / "jichurpa.lua"

# The second frame of examples/one_write.script, the acknowledgement that line 19 sent (0x13). The words of the IPv4 header
# add up to 4500 + 0030 + 0002 + 4000 + 4011 + 0a00 + 0002 + 0a00 + 0001 = d946, whose complement is 26b9.
SECOND_FRAME = (
    "13000000 00000000 3e000000 3e000000"
    "02000a000001 02000a000002 0800"
    "4500 0030 0002 4000 4011 26b9 0a000002 0a000001"
    "12b7 12b7 001c 0000"
    "1100ffff00010001000000641f00000100000000")
HEAD_BYTES = 24
HEAD = "d4c3b2a1 0200 0400 00000000 00000000 ffff0000 01000000"

# What tshark tells of a frame, and how many bytes each has on the wire, in the order of the wire.
BASE = ["infiniband.bth.opcode", "infiniband.bth.destqp", "infiniband.bth.a", "infiniband.bth.psn"]
EXTENSIONS = [
    ("infiniband.reth.va", 8), ("infiniband.reth.r_key", 4), ("infiniband.reth.dmalen", 4),
    ("infiniband.atomiceth.swapdt", 8), ("infiniband.atomiceth.cmpdt", 8),
    ("infiniband.aeth.syndrome", 1), ("infiniband.aeth.msn", 3), ("infiniband.atomicacketh.origremdt", 8)]
MOVING = ["jichurpa.message", "jichurpa.moves", "jichurpa.address", "jichurpa.port"]
# Where a reader failed or found something amiss, tshark says so in one of these. All have to be empty.
FAULTS = ["_ws.expert.message", "_ws.lua.error", "_ws.malformed"]
OTHERS = ["infiniband.immdt", "infiniband.invariant.crc", "jichurpa.crc", "udp.payload", "ip.checksum.status", "udp.length", "data.data"]
MESSAGES = {"1e": "RESUME", "1f": "RESUME_ACK"}


def number(text):
    """A number as tshark writes it, in either base."""
    return int(text, 0) if text else None


def read_by_tshark(path):
    """A row of fields for each frame."""
    names = BASE + [name for name, _ in EXTENSIONS] + MOVING + OTHERS + FAULTS
    words = [word for name in names for word in ("-e", name)]
    # Of a field that stands in a frame twice, such as the immediate and its header, the first is told.
    told = ["-T", "fields", "-E", "occurrence=f", *words]
    ended = subprocess.run(
        [found["tshark"], "-X", f"lua_script:{READER}", "-o", "ip.check_checksum:TRUE", "-r", str(path), *told],
        capture_output=True, text=True, check=True)
    rows = [dict(zip(names, line.split("\t"))) for line in ended.stdout.splitlines()]
    for number_of_frame, row in enumerate(rows, 1):
        told = [row[name] for name in FAULTS if row[name]]
        assert not told, f"{path}, frame {number_of_frame}: {told}"
    return rows


MOST = 2000  # datagrams of a worked script, at most


def wires(path):
    """The bytes of every datagram of a script, as `wire` shows them at its end."""
    text = path.read_text().rstrip("\n") + "\n"
    answers = play(text + "".join(f"wire {k}\n" for k in range(1, MOST + 1)))[-MOST:]
    assert answers[-1] == "gone", f"{path} sends more than {MOST} datagrams"
    return [answer.split()[1] for answer in answers if answer != "gone"]


class Captures(LookTest):
    @need("program")
    def test_a_frame_by_hand(self):
        path = self.folder / "one.pcap"
        self.assertEqual(self.look("pcap", EXAMPLES / "one_write.script", path), f"{path}: 2 datagrams\n")
        data = path.read_bytes()
        second = bytes.fromhex(SECOND_FRAME)
        self.assertEqual(data[:HEAD_BYTES].hex(), HEAD.replace(" ", ""))
        self.assertEqual(data[-len(second):].hex(), second.hex())

    @need("program")
    @need("tshark")
    def test_tshark_reads_every_datagram_of_the_worked_scripts(self):
        """The captures of all of them are put into one file, so that tshark is run once."""
        scripts = [*SCRIPTS, *played_cases()]
        shown, frames = {script: wires(script) for script in scripts}, b""
        for script in scripts:
            path = self.folder / "one.pcap"
            self.look("pcap", script, path)
            data = path.read_bytes()
            frames = (frames or data[:HEAD_BYTES]) + data[HEAD_BYTES:]
        rows = iter(read_by_tshark(self.file("all.pcap", frames)))
        for script, digits_of in shown.items():
            for digits in digits_of:
                with self.subTest(f"{script.stem}: {digits[:24]}"):
                    self.same(next(rows), digits)
        self.assertEqual(list(rows), [])
        self.assertEqual({name: len(shown[EXAMPLES / f"{name}.script"]) for name in COUNTS}, COUNTS)

    def same(self, row, digits):
        """What tshark read puts the bytes of `wire` together again."""
        self.assertEqual((row["udp.payload"].replace(":", ""), row["ip.checksum.status"]), (digits, "1"))
        opcode, dest, asks, psn = (number(row[name]) for name in BASE)
        self.assertEqual(number(row["udp.length"]), 8 + len(digits) // 2)
        begin = f"{opcode:02x}{digits[2:4]}ffff00{dest:06x}{128 * asks:02x}{psn:06x}"
        ends = [(number(row[name]), width) for name, width in EXTENSIONS]
        extension = "".join(f"{value:0{2 * width}x}" for value, width in ends if value is not None)
        if opcode == 0x1E or opcode == 0x1F:
            self.assertEqual(row["jichurpa.message"], MESSAGES[digits[:2]])
            ip = "".join(f"{int(part):02x}" for part in row["jichurpa.address"].split("."))
            extension = f"{number(row['jichurpa.moves']):08x}{ip}{number(row['jichurpa.port']):04x}0000"
            crc = number(row["jichurpa.crc"])
        else:
            crc = number(row["infiniband.invariant.crc"])
        if digits[:2] == "11" and digits[24:26] == "65":
            self.assertEqual((row["jichurpa.message"], number(row["jichurpa.moves"])), ("NAK_STOPPED", int(digits[26:32], 16)))
        elif opcode < 0x1E:
            self.assertEqual(row["jichurpa.message"], "")
        extension += row["infiniband.immdt"].replace(":", "") + row["data.data"].replace(":", "")
        # The payload that tshark shows has its padding with it.
        self.assertEqual((f"{begin}{extension}00000000", crc), (digits, 0))

    @need("program")
    @need("tshark")
    def test_an_evacuation_is_read(self):
        """Three writes, of which two arrive and are acknowledged; the lost one again; then each of three contexts resumes."""
        path = self.folder / "evacuation.pcap"
        self.look("pcap", EXAMPLES / "evacuate.script", path, "--evacuate", 2, 3)
        rows = read_by_tshark(path)
        kinds = [0x0A, 0x0A, 0x0A, 0x11, 0x11, 0x0A, 0x11] + 3 * [0x1E, 0x1F]
        self.assertEqual([number(row["infiniband.bth.opcode"]) for row in rows], kinds)
        self.assertEqual([row["jichurpa.message"] for row in rows[7:]], 3 * ["RESUME", "RESUME_ACK"])
        self.assertEqual({(row["jichurpa.address"], row["jichurpa.moves"]) for row in rows[7:]}, {("10.0.0.3", "1")})

    @need("program")
    @need("tshark")
    def test_other_ports_are_read_too(self):
        text = (EXAMPLES / "move_in_a_message.script").read_text()
        for device in (1, 2, 3):
            text = text.replace(f"device {device} 10.0.0.{device}", f"device {device} 10.0.0.{device}:480{device}")
        path = self.folder / "ports.pcap"
        self.look("pcap", self.file("script", text), path)
        rows = read_by_tshark(path)
        self.assertEqual([number(row["infiniband.bth.opcode"]) for row in rows], [6, 7, 8, 0x11, 0x1E, 0x1F, 6, 0x11, 7, 8, 0x11])
        self.assertEqual((rows[4]["jichurpa.address"], rows[4]["jichurpa.port"]), ("10.0.0.3", "4803"))

    @need("program")
    @need("tshark")
    def test_datagrams_of_others_are_left_alone(self):
        """RESUME_ACK is the sixth datagram. In the copy all CRCs are 1, as no datagram of this project has it."""
        path = self.folder / "move.pcap"
        self.look("pcap", EXAMPLES / "move_in_a_message.script", path)
        data, at, frames = path.read_bytes(), HEAD_BYTES, b""
        while at < len(data):
            end = at + 16 + int.from_bytes(data[at + 8:at + 12], "little")
            frames += data[at:end - 4] + b"\0\0\0\1"
            at = end
        messages = {name: [row["jichurpa.message"] for row in read_by_tshark(self.file(name, data[:HEAD_BYTES] + body))]
                    for name, body in (("ours", data[HEAD_BYTES:]), ("others", frames))}
        self.assertEqual(messages["ours"][3:6], ["NAK_STOPPED", "RESUME", "RESUME_ACK"])
        self.assertEqual(messages["others"], [""] * 11)

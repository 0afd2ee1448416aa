"""Datagrams of each kind, field by field as docs/wire.md tells them."""
import unittest

from look_parts.datagrams import Offence, read_datagram, write_datagram

ZEROS = "00" * 256

# The hexadecimal digits, in parts as docs/wire.md shows such, then what it says of them: the kind, the queue
# pair, whether an acknowledgement is asked for, the number, the extension headers and the payload.
TOLD = [
    ("0a00ffff00020001 80000064 0000000000002000 02000003 00000004 deadbeef 00000000",
     "WRITE Only", 0x020001, True, 100, {"address": 8192, "rkey": 0x02000003, "length": 4}, "deadbeef"),
    (f"0600ffff00020001 00000064 0000000000002000 02000003 0000012c {ZEROS} 00000000",
     "WRITE First", 0x020001, False, 100, {"address": 8192, "rkey": 0x02000003, "length": 300}, ZEROS),
    ("0710ffff00703b0d 006239c1 61b05f3f4fda24 00 00000000", "WRITE Middle", 0x703B0D, False, 0x6239C1, {}, "61b05f3f4fda24"),
    ("0920ffff008bdc27 80136a42 9f4718a8 39ecc2cd51e2 0000 00000000",
     "WRITE Last with immediate", 0x8BDC27, True, 0x136A42, {"imm": 0x9F4718A8}, "39ecc2cd51e2"),
    ("0b00ffff00a794d3 807ec137 00072edcaefe3dae 63861956 4e8a016e 3a0fdf79 9ff7862f 00000000",
     "WRITE Only with immediate", 0xA794D3, True, 0x7EC137,
     {"address": 0x00072EDCAEFE3DAE, "rkey": 0x63861956, "length": 0x4E8A016E, "imm": 0x3A0FDF79}, "9ff7862f"),
    ("0200ffff009d298c 80bc55b5 00000000", "SEND Last", 0x9D298C, True, 0xBC55B5, {}, ""),
    ("0500ffff00020001 80000064 0000002a 00000000 00000000", "SEND Only with immediate", 0x020001, True, 100, {"imm": 42}, "00000000"),
    ("0c00ffff0026550b 00f7f4b9 4019ed6aa69f7213 c53906bc ec975627 00000000",
     "READ request", 0x26550B, False, 0xF7F4B9, {"address": 0x4019ED6AA69F7213, "rkey": 0xC53906BC, "length": 0xEC975627}, ""),
    (f"0d00ffff00010001 00000065 1f000002 {ZEROS} 00000000", "READ response First", 0x010001, False, 101, {"syndrome": 0x1F, "msn": 2}, ZEROS),
    ("0e20ffff002c3ffe 00d85104 0053 0000 00000000", "READ response Middle", 0x2C3FFE, False, 0xD85104, {}, "0053"),
    ("0f30ffff00ab3711 80b3c673 1f65de4e ce 000000 00000000",
     "READ response Last", 0xAB3711, True, 0xB3C673, {"syndrome": 0x1F, "msn": 0x65DE4E}, "ce"),
    ("1100ffff00010001 00000064 1f000001 00000000", "ACK", 0x010001, False, 100, {"syndrome": 0x1F, "msn": 1}, ""),
    ("1100ffff00010001 00000064 20000000 00000000", "RNR NAK", 0x010001, False, 100, {"syndrome": 0x20, "msn": 0}, ""),
    ("1100ffff00010001 00000064 60000000 00000000", "NAK sequence error", 0x010001, False, 100, {"syndrome": 0x60, "msn": 0}, ""),
    ("1100ffff00010001 00000064 61000000 00000000", "NAK invalid request", 0x010001, False, 100, {"syndrome": 0x61, "msn": 0}, ""),
    ("1100ffff00010001 00000064 62000000 00000000", "NAK remote access error", 0x010001, False, 100, {"syndrome": 0x62, "msn": 0}, ""),
    ("1100ffff00010001 00000064 63000000 00000000", "NAK remote operational error", 0x010001, False, 100, {"syndrome": 0x63, "msn": 0}, ""),
    ("1100ffff00010001 00000064 65000000 00000000", "NAK_STOPPED", 0x010001, False, 100, {"syndrome": 0x65, "msn": 0}, ""),
    ("1300ffff009df0db 00c0c24d 3f7cb03f9588d352 b44565d7 01898842f4888db5 e94163a0fb625eb0 00000000",
     "CmpSwap", 0x9DF0DB, False, 0xC0C24D,
     {"address": 0x3F7CB03F9588D352, "rkey": 0xB44565D7, "swap_add": 0x01898842F4888DB5, "compare": 0xE94163A0FB625EB0}, ""),
    ("1400ffff00020001 80000064 0000000000002000 02000003 0000000000000001 0000000000000000 00000000",
     "FetchAdd", 0x020001, True, 100, {"address": 8192, "rkey": 0x02000003, "swap_add": 1, "compare": 0}, ""),
    ("1200ffff00010001 00000064 1f000001 0000000000000005 00000000",
     "ATOMIC ACK", 0x010001, False, 100, {"syndrome": 0x1F, "msn": 1, "old": 5}, ""),
    ("1e00ffff00010001 00000000 00000001 0a000003 12b7 0000 00000000",
     "RESUME", 0x010001, False, 0, {"count": 1, "ip": 0x0A000003, "port": 4791, "zero": 0}, ""),
    ("1f00ffff00020001 00000000 00000001 0a000003 12b7 0000 00000000",
     "RESUME_ACK", 0x020001, False, 0, {"count": 1, "ip": 0x0A000003, "port": 4791, "zero": 0}, ""),
]

# Bytes that are no datagram, with the place and the reason by the table of docs/wire.md.
OFFENCES = [
    ("", 0, "short"),
    ("0a00ffff0002000180000064000000", 15, "short"),
    ("1800ffff000200010000006400000000", 0, "opcode"),
    ("0201ffff000200010000006400000000", 1, "version"),
    ("1100ffff000100010000006400000000", 16, "short"),
    ("1100ffff00010001000000644000000100000000", 12, "syndrome"),
    ("1100ffff00010001000000646400000100000000", 12, "syndrome"),
    ("1000ffff00010001000000656000000200000000", 12, "syndrome"),
    ("1100ffff00010001000000641f0000010000000000000000", 16, "length"),
    ("0200ffff00020001000000640000000000", 12, "length"),
    ("0200ffff0002000100000064" + "00" * 4100 + "00000000", 12, "length"),
    ("0210ffff000200010000006400000000", 1, "pad"),
]


class Datagrams(unittest.TestCase):
    def test_each_kind_is_read_and_written(self):
        for digits, kind, dest, asks, psn, fields, payload in TOLD:
            with self.subTest(kind):
                data = bytes.fromhex(digits)
                packet = read_datagram(data)
                self.assertEqual((packet.kind, packet.dest, packet.ack_request, packet.psn), (kind, dest, asks, psn))
                self.assertEqual((packet.fields, packet.payload.hex()), (fields, payload))
                self.assertEqual(write_datagram(packet), data)

    def test_the_first_offence_is_named(self):
        for digits, place, why in OFFENCES:
            with self.subTest(why + " " + digits[:40]):
                self.assertEqual(read_datagram(bytes.fromhex(digits)), Offence(place, why))

"""Values that go into the library: what is out of its range is refused before C cuts it."""

import unittest

from jichurpa import Address, InvalidArgument, Receive, Terms, WorkRequest
from jichurpa.values import bounded, name_bytes


class Addresses(unittest.TestCase):
    def test_texts(self) -> None:
        self.assertEqual(Address.parse("10.0.0.1"), Address(0x0A000001, 4791))
        self.assertEqual(Address.parse("255.255.255.255:65535"), Address(0xFFFFFFFF, 65535))
        self.assertEqual(str(Address(0x0A000001)), "10.0.0.1")
        self.assertEqual(str(Address(0x0A000001, 1)), "10.0.0.1:1")
        self.assertEqual(Address.of(("10.0.0.1", 5)).pair, ("10.0.0.1", 5))

    def test_bad_texts(self) -> None:
        for text in ("", "10.0.0", "10.0.0.256", "10.0.0.1:0", "10.0.0.1:65536", "10.0.0.01", "10.0.0.1\n", "a.b.c.d"):
            with self.assertRaises(InvalidArgument, msg=text):
                Address.parse(text)

    def test_ranges(self) -> None:
        for address in (Address(2**32), Address(-1), Address(1, 65536), Address(1, -1)):
            with self.assertRaises(InvalidArgument):
                address.to_raw()


class Ranges(unittest.TestCase):
    def test_numbers(self) -> None:
        self.assertEqual(bounded(7, 0, 7, "n"), 7)
        for number in (8, -1, 1.5):
            with self.assertRaises(InvalidArgument):
                bounded(number, 0, 7, "n")

    def test_names(self) -> None:
        self.assertEqual(name_bytes("a_16_bytes_name1"), b"a_16_bytes_name1")
        for text in ("", "A", "1a", "_a", "a.b", "a b", "a\0", "a\n", "ä", "a_17_bytes_name12"):
            with self.assertRaises(InvalidArgument, msg=text):
                name_bytes(text)

    def test_terms(self) -> None:
        Terms(4096, 2**24 - 1, 2**24 - 1, 0, 0, 1).to_raw()
        bad = [
            {"mtu": 512.5},
            {"mtu": 0},
            {"own_start": 2**24},
            {"peer_start": -1},
            {"retry": 8},
            {"rnr": 8},
            {"reads": 0},
        ]
        for field in (*bad, {"reads": 17}, {"reads": 257}):
            with self.assertRaises(InvalidArgument, msg=field):
                Terms(**field).to_raw()

    def test_exchanged(self) -> None:
        self.assertEqual(Terms(256, 1, 2, 3, 4, 5).exchanged(), Terms(256, 2, 1, 3, 4, 5))

    def test_requests(self) -> None:
        """2^32 would be 0 for C."""
        WorkRequest.write(
            2**64 - 1, 2**32 - 1, 2**64 - 1, 2**32 - 1, 2**64 - 1, 2**32 - 1, 2**32 - 1
        ).to_raw()
        for bad in (
            WorkRequest.write(2**64, 0, 0, 0, 0, 0),
            WorkRequest.write(0, 2**32, 0, 0, 0, 0),
            WorkRequest.write(0, 0, 2**64, 0, 0, 0),
            WorkRequest.write(0, 0, 0, 2**32, 0, 0),
            WorkRequest.write(0, 0, 0, 0, 2**64, 0),
            WorkRequest.write(0, 0, 0, 0, 0, 2**32),
            WorkRequest.write(0, 0, 0, 0, 0, 0, 2**32),
            WorkRequest.fetch_add(0, 0, 0, 0, 0, 2**64),
            WorkRequest.compare_swap(0, 0, 0, 0, 0, -1, 0),
        ):
            with self.assertRaises(InvalidArgument, msg=bad):
                bad.to_raw()
        with self.assertRaises(InvalidArgument):
            Receive(0, 0, 0, 2**32).to_raw()

    def test_flags(self) -> None:
        """The bits of jichurpa.h: signaled 1, fence 2, immediate 4."""
        self.assertEqual(WorkRequest.send(1, 2, 3, 4).to_raw().flags, 1)
        self.assertEqual(WorkRequest.send(1, 2, 3, 4, 0, signaled=False, fence=True).to_raw().flags, 6)

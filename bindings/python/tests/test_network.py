"""The network of a script: numbers, lost and forgotten datagrams, and which are too late."""

import unittest

from jichurpa import Address, Datagram
from jichurpa.play.network import MOST_KEPT, Flight, Network, is_late

HERE, THERE = Address.parse("10.0.0.1"), Address.parse("10.0.0.2")


def datagrams(count: int) -> list[Datagram]:
    """Datagrams that differ."""
    return [Datagram(THERE, k.to_bytes(4, "big"), k) for k in range(count)]


class Numbers(unittest.TestCase):
    def test_numbers(self) -> None:
        """Datagrams are numbered from 1."""
        network = Network()
        self.assertEqual(network.send(HERE, datagrams(2)), 1)
        self.assertEqual(network.send(HERE, datagrams(1)), 3)
        self.assertEqual(network.count, 3)
        self.assertIsNone(network.kept(0))
        self.assertEqual(network.kept(2).data, b"\0\0\0\x01")
        self.assertEqual(network.kept(3).data, b"\0\0\0\0")
        self.assertIsNone(network.kept(4))
        self.assertIsNone(network.kept(2**64 - 1))

    def test_forgotten(self) -> None:
        """The last 16,384 are kept."""
        network = Network()
        network.send(HERE, datagrams(MOST_KEPT))
        self.assertEqual(network.kept(1).data, b"\0\0\0\0")
        network.send(HERE, datagrams(1))
        self.assertIsNone(network.kept(1))
        self.assertEqual(network.kept(2).data, b"\0\0\0\x01")
        self.assertEqual(network.kept(16385).data, b"\0\0\0\0")
        self.assertEqual(network.pending(), 2)
        self.assertFalse(network.lose(1))

    def test_pending(self) -> None:
        """The least that is neither lost nor taken."""
        network = Network()
        self.assertIsNone(network.pending())
        network.send(HERE, datagrams(4))
        self.assertTrue(network.lose(1))
        self.assertEqual(network.pending(), 2)
        network.take(3)
        network.take(2)
        self.assertEqual(network.pending(), 4)
        self.assertTrue(network.lose(4))
        self.assertTrue(network.lose(4))
        self.assertIsNone(network.pending())
        self.assertTrue(network.kept(1).lost and not network.kept(1).taken)
        self.assertTrue(network.kept(3).taken and not network.kept(3).lost)


class Flights(unittest.TestCase):
    def test_late(self) -> None:
        """Too late is 2^22 before the mark, and more."""
        flight = Flight(HERE, Datagram(THERE, b"", 10))
        self.assertFalse(is_late(flight, 0))
        self.assertFalse(is_late(flight, 10 + 4194304))
        self.assertTrue(is_late(flight, 11 + 4194304))
        self.assertFalse(is_late(Flight(HERE, Datagram(THERE, b"", None)), 2**62))

    def test_header(self) -> None:
        """The opcode and the queue pair of the base header; the acknowledgement is that of docs/scripts.md."""
        acknowledgement = bytes.fromhex("1100ffff00010001000000646500000000000000")
        flight = Flight(HERE, Datagram(THERE, acknowledgement))
        self.assertEqual(flight.queue_pair, 0x010001)
        requests = [n for n in range(32) if Flight(HERE, Datagram(THERE, bytes([n]))).is_request]
        self.assertEqual(requests, [*range(0x0D), 0x13, 0x14])

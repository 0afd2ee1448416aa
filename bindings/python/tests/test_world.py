"""The world of scripts: what neither the examples nor the worked cases come to."""

import unittest

from jichurpa import Datagram
from jichurpa.play import World, parse_line
from jichurpa.play.player import answer
from jichurpa.play.world import MOST_DEVICES

from .support import needs_library

SETUP = """
device 1 10.0.0.1
device 2 10.0.0.2
context a 1
context b 2
domain a.p
domain b.p
region a.m a.p 4096 64 lwra
region b.m b.p 8192 64 lwra
cq a.c 4
cq b.c 4
qp a.q a.p a.c a.c 4 4
qp b.q b.p b.c b.c 4 4
"""
CONNECT = "connect a.q b.q mtu 256 psn 0 0 retry 0 rnr 0 reads 1"
WRITE = "write a.q 1 01000002 4096 1 8192 02000003"


@needs_library
class Worlds(unittest.TestCase):
    def setUp(self) -> None:
        self.world = World()
        self.addCleanup(self.world.__exit__, None, None, None)
        self.play(SETUP)

    def play(self, script: str) -> list[str]:
        """The answers to lines."""
        lines = [parse_line(text.encode()) for text in script.splitlines()]
        return [answer(self.world, line) for line in lines if line is not None]

    def test_aged(self) -> None:
        """A datagram whose number is more than 2^22 before the mark is aged, and counts as taken; a response has another mark."""
        self.play(f"{CONNECT}\n{WRITE}\ngo a.q\ngo a.q\ndeliver 1\ndeliver 2")
        for queue_pair, opcode in ((0x020001, 0x0A), (0x010001, 0x11)):
            flight = self.world.network.kept(1 if opcode == 0x0A else 2)
            self.assertEqual((flight.data[0], flight.queue_pair), (opcode, queue_pair))
            old = Datagram(flight.datagram.to, flight.data, 0 - 2**22)
            late = self.world.network.send(flight.source, [old])
            self.assertFalse(self.world.network.kept(late).taken)
            self.assertEqual(self.play(f"deliver {late}"), ["aged"])
            self.assertTrue(self.world.network.kept(late).taken)
            just = Datagram(flight.datagram.to, flight.data, 1 - 2**22)
            self.assertNotEqual(self.play(f"deliver {self.world.network.send(flight.source, [just])}"), ["aged"])

    def test_nobody(self) -> None:
        """A datagram for an address without a device is taken by nobody."""
        self.play(f"{CONNECT}\n{WRITE}\ngo a.q")
        flight = self.world.network.kept(1)
        lost = Datagram(flight.source._replace(port=1), flight.data, None)
        k = self.world.network.send(flight.source, [lost])
        self.assertEqual(self.play(f"deliver {k}"), ["took silent unknown"])

    def test_order_of_causes(self) -> None:
        """A missing context comes before a carried one, this before a missing queue pair, and this before a state."""
        self.play("stop b")
        connect = [
            f"connect {ends} {CONNECT.split(maxsplit=3)[3]}"
            for ends in ("b.q z.q", "z.q b.q", "a.x b.q", "a.q a.x", "a.q a.q")
        ]
        causes = ["NoSuch", "NoSuch", "Stopped", "NoSuch", "BadState"]
        self.assertEqual(self.play("\n".join(connect)), [f"refused {cause}" for cause in causes])

    def test_names_of_the_world(self) -> None:
        """Ids and addresses of devices, and names of contexts, are used once."""
        script = "device 1 10.0.0.9\ndevice 9 10.0.0.1\ncontext a 9\ncontext a 2\nstop a\ncontext a 2\nrestore a 9\nrestore z 2"
        taken = "refused NumberTaken"
        nothing = "refused NoSuch"
        self.assertEqual(self.play(script), [taken, taken, nothing, taken, "stopped", taken, nothing, nothing])
        self.assertEqual(
            self.play("restore a 2\nrestore a 1\nrelease a 9\nrelease a 2"), ["ok", "refused Spent", nothing, nothing]
        )

    def test_too_many_devices(self) -> None:
        """A world has 16 devices."""
        answers = self.play("\n".join(f"device {k} 10.0.1.{k}" for k in range(3, MOST_DEVICES + 2)))
        self.assertEqual(answers, ["ok"] * 14 + ["refused TooMany"])

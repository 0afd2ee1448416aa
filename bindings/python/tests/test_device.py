"""Devices, images and threads by the typed face of the module, over the library."""

import gc
import queue
import threading
import unittest
import weakref
from ctypes import byref

from jichurpa import (
    Address,
    Answer,
    BadDump,
    Closed,
    Context,
    Device,
    DumpReader,
    DumpWhy,
    Image,
    InvalidArgument,
    NotCountedWhy,
    NotHere,
    QueuePair,
    Receive,
    Refusal,
    Refused,
    Region,
    Rights,
    SilentWhy,
    State,
    Terms,
    Took,
    WcKind,
    WcStatus,
    Why,
    WorkRequest,
    connect,
    library,
)

from .support import carry, needs_library, refused

# A dump of the empty context e in version 2, as docs/dumps.md shows one.
EMPTY = bytes.fromhex("4d494744554d5000000201650000000000000000")
WITHIN = Terms(mtu=256, own_start=100, peer_start=200, retry=1, rnr=7, reads=4)
ALL = Rights.LOCAL_WRITE | Rights.REMOTE_WRITE | Rights.REMOTE_READ | Rights.REMOTE_ATOMIC


def application(device: Device, name: str, base: int, rights: Rights = ALL) -> tuple[Context, Region, QueuePair]:
    """A context with a region of 1,024 bytes and a queue pair."""
    context = device.make_context(name)
    domain, cq = context.make_domain("p"), context.make_cq("c", 16)
    region = context.make_region("m", domain, base, 1024, rights)
    return context, region, context.make_qp("q", domain, cq, cq, 8, 8)


@needs_library
class DeviceTest(unittest.TestCase):
    """Two devices with connected contexts a and b, and a third one."""

    def setUp(self) -> None:
        self.devices = [Device(k, f"10.0.0.{k}") for k in (1, 2, 3)]
        for device in self.devices:
            self.addCleanup(device.close)
        self.one, self.two, self.three = self.devices
        self.a, self.m, self.q = application(self.one, "a", 4096)
        self.b, self.n, self.r = application(self.two, "b", 8192)
        connect(self.q, self.r, WITHIN)

    def carry(self, source: Device, qp: QueuePair) -> list[str]:
        """All that a queue pair sends arrives, and what answers it."""
        return carry(self.devices, source, qp.outgoing())


class Work(DeviceTest):
    def test_made(self) -> None:
        """Ids, addresses, keys and numbers: they begin with the id of the device."""
        self.assertEqual((self.one.id, self.one.address), (1, Address.parse("10.0.0.1")))
        self.assertEqual((self.m.local_key, self.m.remote_key), (0x01000002, 0x01000003))
        self.assertEqual((self.q.number, self.r.number), (0x010001, 0x020001))
        self.assertEqual(self.one.contexts(), ["a"])
        self.assertEqual([info.name for info in self.a.queue_pairs()], ["q"])
        self.assertEqual(self.one.numbered(0x010001), self.q.info())
        self.assertEqual(self.q.info().peer, 0x020001)
        self.assertIsNone(self.one.numbered(0x020001))
        self.assertIsNone(self.one.marks(2**24))

    def test_write(self) -> None:
        """Bytes of a WRITE with an immediate land, and both sides have a completion."""
        self.m.store(4100, b"hello")
        self.r.post_recv(Receive(9, self.n.local_key, 8192, 0))
        self.q.post_send(WorkRequest.write(1, self.m.local_key, 4100, 5, 8200, self.n.remote_key, 42))
        self.assertEqual(self.q.info().untold, 1)
        self.assertEqual(self.carry(self.one, self.q), ["2 ACK", "1 ACKED"])
        self.assertEqual(self.n.load(8198, 9), b"\0\0hello\0\0")
        (sent,), (received,) = self.a.cq("c").poll(), self.b.cq("c").poll()
        self.assertEqual((sent.qp, sent.id, sent.kind, sent.status), (0x010001, 1, WcKind.WRITE, WcStatus.SUCCESS))
        self.assertEqual((sent.length, sent.imm), (5, None))
        self.assertEqual((received.id, received.kind, received.imm), (9, WcKind.RECV_IMM, 42))
        self.assertEqual(self.a.cq("c").poll(), [])
        self.assertEqual(self.one.marks(0x010001), (0, 1))
        self.assertEqual(self.two.marks(0x020001), (1, 0))

    def test_kinds(self) -> None:
        """SEND, READ and both atomics."""
        self.n.store(8192, (7).to_bytes(8, "big"))
        self.r.post_recv(Receive(9, self.n.local_key, 8200, 8))
        self.m.store(4096, b"message!")
        keys = self.n.remote_key
        self.q.post_send(WorkRequest.send(1, self.m.local_key, 4096, 8))
        self.q.post_send(WorkRequest.read(2, self.m.local_key, 4104, 8, 8200, keys))
        self.q.post_send(WorkRequest.fetch_add(3, self.m.local_key, 4112, 8192, keys, 5))
        self.q.post_send(WorkRequest.compare_swap(4, self.m.local_key, 4120, 8192, keys, 12, 99, signaled=False))
        self.carry(self.one, self.q)
        self.assertEqual(self.m.load(4104, 8), b"message!")
        self.assertEqual([int.from_bytes(self.m.load(at, 8), "big") for at in (4112, 4120)], [7, 12])
        self.assertEqual(int.from_bytes(self.n.load(8192, 8), "big"), 99)
        done = [(c.id, c.kind, c.length) for c in self.a.cq("c").poll(2) + self.a.cq("c").poll(2)]
        self.assertEqual(done, [(1, WcKind.SEND, 8), (2, WcKind.READ, 8), (3, WcKind.FETCH_ADD, 8)])

    def test_timers(self) -> None:
        """Expiries count while a packet is in flight; one more than `retry` ends the queue pair."""
        self.assertEqual(self.q.transmit().answer, Answer.IDLE)
        self.assertEqual(self.q.expire().why, NotCountedWhy.NOTHING)
        self.assertFalse(self.q.rnr_over())
        self.q.post_send(WorkRequest.write(1, self.m.local_key, 4096, 5, 8192, self.n.remote_key))
        self.q.outgoing()
        self.assertTrue(self.q.info().in_flight)
        expiry = self.q.expire()
        self.assertEqual((expiry.answer, expiry.count, expiry.why), (Answer.EXPIRED, 1, None))
        self.assertEqual(self.q.expire().why, NotCountedWhy.NOTHING)
        self.q.outgoing()
        self.assertEqual(self.q.expire().answer, Answer.SPENT)
        self.assertEqual(self.q.state, State.ERROR)
        self.assertEqual([c.status for c in self.a.cq("c").poll()], [WcStatus.RETRY_EXCEEDED])

    def test_receiver_not_ready(self) -> None:
        """A SEND without a receive waits for the RNR timer, and is sent again."""
        self.q.post_send(WorkRequest.send(1, self.m.local_key, 4096, 4))
        self.assertEqual(self.carry(self.one, self.q), ["2 NOT_READY", "1 WAITS"])
        self.assertEqual((self.q.transmit().answer, self.q.info().rnr_wait), (Answer.WAITING, True))
        self.assertTrue(self.q.rnr_over())
        self.r.post_recv(Receive(2, self.n.local_key, 8192, 3))
        datagrams = self.q.outgoing()
        arrival = self.two.arrive("10.0.0.1", datagrams[0].data)
        self.assertEqual((arrival.took, arrival.detail), (Took.REFUSED, Why.LENGTH))
        arrival = self.one.arrive("10.0.0.2", arrival.sent[0].data)
        self.assertEqual((arrival.took, arrival.detail), (Took.ENDED, WcStatus.REMOTE_INVALID))

    def test_any_bytes(self) -> None:
        """Bytes that are no datagram have no effect, also none at all."""
        for data in (b"", b"\0" * 5000, bytearray(b"abc")):
            arrival = self.one.arrive(("10.0.0.9", 9), data)
            self.assertEqual((arrival.took, arrival.detail), (Took.SILENT, SilentWhy.MALFORMED))
            self.assertEqual(arrival.sent, [])


class Refusals(DeviceTest):
    def test_names(self) -> None:
        domain, cq = self.a.domain("p"), self.a.cq("c")
        refused(self, Refusal.NUMBER_TAKEN, lambda: self.one.make_context("a"))
        refused(self, Refusal.NUMBER_TAKEN, lambda: self.a.make_domain("p"))
        refused(self, Refusal.NUMBER_TAKEN, lambda: self.a.make_cq("c", 1))
        refused(self, Refusal.NO_SUCH, lambda: self.one.context("z").make_domain("p"))
        refused(self, Refusal.NO_SUCH, lambda: self.a.make_region("x", self.a.domain("x"), 0, 1, ALL))
        refused(self, Refusal.NO_SUCH, lambda: self.a.make_region("x", self.b.domain("p"), 0, 1, ALL))
        refused(self, Refusal.NO_SUCH, lambda: self.a.make_qp("x", domain, cq, self.b.cq("c"), 1, 1))
        refused(self, Refusal.NO_SUCH, lambda: self.a.qp("x").transmit())
        refused(self, Refusal.NO_SUCH, lambda: self.a.cq("x").poll())
        refused(self, Refusal.NO_SUCH, lambda: self.one.release("a"))
        refused(self, Refusal.BAD_STATE, lambda: connect(self.q, self.r, WITHIN))
        self.assertRaises(NotHere, self.a.qp("x").info)

    def test_memory(self) -> None:
        refused(self, Refusal.BAD_KEY, lambda: self.m.load(4096, 1025))
        refused(self, Refusal.BAD_KEY, lambda: self.m.store(4095, b"a"))
        refused(self, Refusal.BAD_KEY, lambda: self.m.store(2**64 - 1, b"ab"))
        refused(self, Refusal.NO_PAGE, lambda: self.two_regions())
        self.assertEqual(self.m.load(4096, 0), b"")
        self.m.store(5120, b"")

    def two_regions(self) -> None:
        """Two regions of 4,096 pages fill a device that has one page less."""
        for name in ("x", "y"):
            self.a.make_region(name, self.a.domain("p"), 0, 16777216, ALL)

    def test_posting(self) -> None:
        write = WorkRequest.write(1, self.m.local_key, 4096, 1, 8192, self.n.remote_key)
        refused(self, Refusal.BAD_KEY, lambda: self.q.post_send(WorkRequest.send(1, 0, 4096, 1)))
        refused(self, Refusal.TOO_LONG, lambda: self.q.post_send(WorkRequest.send(1, 0, 4096, 1048577)))
        for _ in range(8):
            self.q.post_send(write)
        refused(self, Refusal.SQ_FULL, lambda: self.q.post_send(write))
        refused(self, Refusal.IN_USE, self.m.drop)
        spare = self.a.make_qp("s", self.a.domain("p"), self.a.cq("c"), self.a.cq("c"), 1, 1)
        refused(self, Refusal.BAD_STATE, lambda: spare.post_send(write))

    def test_ranges(self) -> None:
        """Arguments out of their range are no refusals, and are not cut to 32 bits."""
        domain, cq = self.a.domain("p"), self.a.cq("c")
        for step in (
            lambda: Device(0, "10.0.0.1"),
            lambda: Device(256, "10.0.0.1"),
            lambda: Device(2**32 + 1, "10.0.0.1"),
            lambda: self.one.make_context("A"),
            lambda: self.a.make_region("x", domain, 2**63 + 1, 1, ALL),
            lambda: self.a.make_region("x", domain, 0, 0, ALL),
            lambda: self.a.make_region("x", domain, 0, 2**32 + 1, ALL),
            lambda: self.a.make_cq("x", 16385),
            lambda: self.a.make_qp("x", domain, cq, cq, 0, 1),
            lambda: self.a.make_qp("x", domain, cq, cq, 1, 257),
            lambda: self.q.connect(2**24, "10.0.0.2", WITHIN),
            lambda: cq.poll(0),
            lambda: self.m.load(2**64, 1),
            lambda: self.one.numbered(2**32),
        ):
            self.assertRaises(InvalidArgument, step)
        self.assertEqual(self.one.contexts(), ["a"])

    def test_unknown_keys(self) -> None:
        """A region by its name has no keys, but those that it is given."""
        with self.assertRaises(InvalidArgument):
            _ = self.a.region("m").local_key
        self.assertEqual(self.a.region("m", self.m.keys).remote_key, self.m.remote_key)


class Moves(DeviceTest):
    def test_move_in_a_write(self) -> None:
        """A WRITE of three packets; after the first its receiver moves. The answers are those of move_in_a_message."""
        self.m.store(4096, bytes(range(200)) * 3)
        self.q.post_send(WorkRequest.write(1, self.m.local_key, 4096, 600, 8192, self.n.remote_key))
        first, second, third = self.q.outgoing()
        self.assertEqual([d.number for d in (first, second, third)], [0, 1, 2])
        self.assertEqual(carry(self.devices, self.one, [first]), ["2 ACTED"])
        image = self.b.stop()
        self.assertIsInstance(image, bytes)
        self.assertEqual(self.two.contexts(), [])
        self.assertEqual(carry(self.devices, self.one, [second]), ["2 STOPPED", "1 PAUSED"])
        refused(self, Refusal.STOPPED, lambda: self.n.load(8192, 1))
        refused(self, Refusal.PEER_MOVING, self.a.stop)
        moved = self.three.restore(image)
        self.assertEqual((moved.name, moved.qp("q").state, moved.qp("q").info().moves), ("b", State.RESUMING, 1))
        self.assertEqual(carry(self.devices, self.three, moved.qp("q").outgoing()), ["1 RESUMED", "3 RUNNING"])
        again = self.carry(self.one, self.q)
        self.assertEqual(again, ["3 DUP_ACK", "1 ACKED", "3 ACTED", "3 ACK", "1 ACKED"])
        self.two.release("b")
        self.assertEqual(moved.region("m").load(8192, 600), bytes(range(200)) * 3)
        self.assertEqual([(c.id, c.length) for c in self.a.cq("c").poll()], [(1, 600)])

    def test_refused_restores(self) -> None:
        image = self.b.stop()
        refused(self, Refusal.NUMBER_TAKEN, lambda: self.two.restore(image))
        self.three.make_context("b")
        refused(self, Refusal.NUMBER_TAKEN, lambda: self.three.restore(image))
        self.assertEqual(self.one.restore(image).name, "b")

    def test_images(self) -> None:
        """An image as an object: its name, length, pieces and queue pairs."""
        self.q.post_send(WorkRequest.write(1, self.m.local_key, 4096, 1, 8192, self.n.remote_key))
        with self.a.stop_image() as image:
            data = bytes(image)
            self.assertEqual((image.name, image.length), ("a", len(data)))
            self.assertEqual(data[:8], b"MIGDUMP\0")
            pieces = [image.read(place, 7) for place in range(0, len(data) + 7, 7)]
            self.assertEqual(b"".join(pieces), data)
            self.assertEqual(image.read(2**64 - 1, 1), b"")
            (end,) = image.queue_pairs()
            self.assertEqual((end.context, end.name, end.number, end.untold), ("a", "q", 0x010001, 1))
            self.assertEqual(self.three.restore(image).name, "a")
        self.assertTrue(image.closed)
        self.assertRaises(Closed, bytes, image)

    def test_empty_context(self) -> None:
        """The bytes of the image of a context without things are those of docs/dumps.md."""
        self.assertEqual(self.three.make_context("e").stop(), EMPTY)


class Dumps(DeviceTest):
    def test_whole(self) -> None:
        with Image.decode(EMPTY) as image:
            self.assertEqual((image.name, bytes(image), image.queue_pairs()), ("e", EMPTY, []))

    def bad(self, data: bytes, place: int, why: DumpWhy) -> None:
        """Bytes are no dump, decoded at once, restored and read by pieces."""

        def by_pieces() -> None:
            with DumpReader() as reader:
                for byte in data:
                    reader.feed(bytes([byte]))
                reader.finish()

        for step in (lambda: Image.decode(data), lambda: self.three.restore(data), by_pieces):
            with self.assertRaises(BadDump) as caught:
                step()
            self.assertEqual((caught.exception.place, caught.exception.why), (place, why))

    def test_bad(self) -> None:
        """The layout of docs/dumps.md: magic, version, then the name with its length in front."""
        self.bad(b"", 0, DumpWhy.SHORT)
        self.bad(EMPTY[:-1], 19, DumpWhy.SHORT)
        self.bad(b"X" + EMPTY[1:], 0, DumpWhy.MAGIC)
        self.bad(EMPTY[:9] + b"\3" + EMPTY[10:], 8, DumpWhy.VERSION)
        self.bad(EMPTY + b"\0", 20, DumpWhy.TRAILING)
        self.assertEqual(self.three.contexts(), [])

    def test_pieces(self) -> None:
        """A reader takes pieces of any lengths, and may be fed anew."""
        with DumpReader() as reader:
            for _ in range(2):
                for piece in (b"", EMPTY[:3], EMPTY[3:], bytearray()):
                    reader.feed(piece)
                with reader.finish() as image:
                    self.assertEqual(image.name, "e")
        self.assertRaises(Closed, reader.feed, b"")


class Lives(DeviceTest):
    def test_closed_twice(self) -> None:
        """Closing twice does nothing, and every other call is refused by the module."""
        for _ in range(2):
            self.one.close()
        self.assertTrue(self.one.closed)
        for step in (self.one.contexts, lambda: self.one.make_context("x"), self.q.info, self.a.stop):
            self.assertRaises(Closed, step)
        with self.assertRaises(Closed), self.one:
            pass

    def test_freed_twice(self) -> None:
        """The library itself may be asked to free a handle that holds nothing."""
        for name in ("device", "image", "reader"):
            handle = library.STRUCTS[f"jichurpa_{name}"]()
            free = getattr(library.library(), f"jichurpa_{name}_free")
            self.assertEqual([free(byref(handle)), free(byref(handle))], [0, 0])

    def test_forgotten(self) -> None:
        """A device that is dropped is freed: with 32 MiB each, thousands of them fit only one after the other."""
        kept = weakref.ref(Device(4, "10.0.0.4"))
        gc.collect()
        self.assertIsNone(kept())
        for _ in range(100):
            Device(4, "10.0.0.4")

    def test_independent(self) -> None:
        """What is closed does not touch what others have."""
        self.two.close()
        self.m.store(4096, b"abc")
        self.assertEqual(self.m.load(4096, 3), b"abc")


class Threads(DeviceTest):
    def test_handed_over(self) -> None:
        """Eight threads hand one device around in a ring; each adds to a word of it."""
        turns = [queue.SimpleQueue() for _ in range(8)]

        def add(own: queue.SimpleQueue, following: queue.SimpleQueue) -> None:
            for _ in range(20):
                device: Device = own.get()
                region = device.context("a").region("m")
                value = int.from_bytes(region.load(4096, 8), "big")
                region.store(4096, (value + 1).to_bytes(8, "big"))
                following.put(device)

        threads = [threading.Thread(target=add, args=(turns[i], turns[(i + 1) % 8])) for i in range(8)]
        for thread in threads:
            thread.start()
        turns[0].put(self.one)
        for thread in threads:
            thread.join()
        self.assertEqual(int.from_bytes(self.m.load(4096, 8), "big"), 160)

    def test_shared(self) -> None:
        """Threads that call one device at once are let in one after the other."""
        faults = []

        def fill(k: int) -> None:
            try:
                for value in range(100):
                    self.m.store(4096 + 8 * k, value.to_bytes(8, "big"))
                    if self.m.load(4096 + 8 * k, 8) != value.to_bytes(8, "big"):
                        raise AssertionError(f"thread {k} does not read what it wrote")
                self.a.make_cq(f"c{k}", 1)
            except Exception as fault:  # a thread cannot raise into the test
                faults.append(fault)

        threads = [threading.Thread(target=fill, args=(k,)) for k in range(8)]
        for thread in threads:
            thread.start()
        for thread in threads:
            thread.join()
        self.assertEqual(faults, [])
        self.assertRaises(Refused, self.a.make_cq, "c7", 1)


del DeviceTest  # it has no tests of its own

"""A device, and what applications have of it: contexts, memory regions, completion queues and queue pairs."""

from __future__ import annotations

import ctypes
from ctypes import byref
from typing import NamedTuple

from . import library as raw
from .enums import (
    MAX_BASE,
    MAX_CAPACITY,
    MAX_DATAGRAM,
    MAX_DEPTH,
    MAX_QP_NUMBER,
    MAX_REGION,
    NAME_BYTES,
    Answer,
    NotCountedWhy,
    Refusal,
    Result,
    Rights,
    State,
)
from .errors import InvalidArgument, NotHere, OutOfMemory, Refused
from .held import Held, check
from .images import Image
from .library import library
from .values import (
    Address,
    AddressLike,
    Arrival,
    Completion,
    Datagram,
    Expiry,
    Keys,
    Marks,
    Outcome,
    QueuePairInfo,
    Receive,
    Terms,
    Transmission,
    WorkRequest,
    bounded,
    name_bytes,
    u32,
    u64,
)

_NO_NAME = bytes(NAME_BYTES)


def _name(text: str) -> raw.Name:
    """The struct of a name."""
    return raw.Name(name_bytes(text))


class Device(Held):
    """A software RDMA device. It has no socket, no clock and no thread: its owner hands it what happens.

    `id` is 1 to 255; give each device an id of its own. `address` is where datagrams for it arrive; partners are told it
    after a move. It takes about 32 MiB of address space, and is a context manager. Raises InvalidArgument, OutOfMemory and
    LibraryNotFound.

    A step of a device raises Refused with a cause where the device refuses it, OutOfMemory, InvalidArgument where a number
    is out of its range, and Closed; with each of these nothing has changed. What a step returns has the datagrams that are
    to be sent.
    """

    def __init__(self, id: int, address: AddressLike) -> None:
        super().__init__(raw.DeviceHandle(), "jichurpa_device_free")
        place = Address.of(address).to_raw()
        self._buffer = ctypes.create_string_buffer(MAX_DATAGRAM)
        check(library().jichurpa_device_make(bounded(id, 1, 255, "id"), byref(place), byref(self._handle)))
        self.id = self._told_id()
        self.address = self._told_address()

    # ---- steps

    def _step(self, function: str, *arguments: object) -> Outcome:
        """One step, with the datagrams that it sent. Raises Refused."""
        outcome = raw.RawOutcome()
        call = getattr(library(), function)
        with self._lock:
            check(call(byref(self._open()), *arguments, byref(outcome)))
            sent = [self._next_sent() for _ in range(outcome.sent)]
        if outcome.answer == Answer.REFUSED:
            raise Refused(Refusal(outcome.cause))
        keys = Keys(outcome.local_key, outcome.remote_key)
        return Outcome(Answer(outcome.answer), outcome.cause, outcome.detail, outcome.number, keys, outcome.count, sent)

    def _next_sent(self) -> Datagram:
        """The next datagram of the last step."""
        told = raw.RawDatagram()
        check(library().jichurpa_next_sent(byref(self._handle), byref(told), self._buffer, MAX_DATAGRAM))
        number = told.number if told.has_number else None
        return Datagram(Address(told.to.ip, told.to.port), ctypes.string_at(self._buffer, told.length), number)

    def make_context(self, name: str) -> Context:
        """A new context, at most 64 of a device.

        Refused NUMBER_TAKEN where a context or a husk of this device has the name, TOO_MANY at the limit.
        """
        self._step("jichurpa_make_context", byref(_name(name)))
        return Context(self, name)

    def arrive(self, source: AddressLike, data: bytes) -> Arrival:
        """Bytes arrived from an address: the payload of a UDP datagram, whatever it holds. It is never refused."""
        place = Address.of(source).to_raw()
        data = bytes(data)
        return Arrival.from_outcome(self._step("jichurpa_arrive", byref(place), data, len(data)))

    def restore(self, image: Image | bytes) -> Context:
        """Puts the context of an image, or of the bytes of a dump, on this device. Its connected queue pairs are Resuming.

        Restore an image once: two copies of a context would both answer its partners. Raises BadDump where bytes are no
        dump. Refused NUMBER_TAKEN where the name, a queue pair number or a key is here; TOO_MANY; NO_PAGE.
        """
        if not isinstance(image, Image):
            with Image.decode(image) as decoded:
                return self.restore(decoded)
        with image._lock:
            self._step("jichurpa_restore", byref(image._open()))
        return Context(self, image.name)

    def release(self, name: str) -> None:
        """Forgets the husk of a context. Do it when each of its queue pairs is Running on the new device.

        Refused NO_SUCH where no husk has the name.
        """
        self._step("jichurpa_release", byref(_name(name)))

    # ---- readers

    def _told_id(self) -> int:
        """The id that it was made with."""
        told = ctypes.c_uint32()
        with self._lock:
            check(library().jichurpa_device_id(byref(self._open()), byref(told)))
        return told.value

    def _told_address(self) -> Address:
        """The address that it was made with."""
        told = raw.RawAddress()
        with self._lock:
            check(library().jichurpa_device_address(byref(self._open()), byref(told)))
        return Address(told.ip, told.port)

    def context(self, name: str) -> Context:
        """The context of a name, such as one that was restored. Whether it lives here is not asked."""
        return Context(self, name)

    def contexts(self) -> list[str]:
        """The names of the live contexts, in the order in which they came."""
        names: list[str] = []
        name = raw.Name()
        with self._lock:
            while self._found("jichurpa_context_at", len(names), byref(name)):
                names.append(name.bytes.decode())
        return names

    def numbered(self, number: int) -> QueuePairInfo | None:
        """The connected queue pair with a number, or None."""
        end = raw.RawEnd()
        with self._lock:
            found = self._found("jichurpa_end_numbered", u32(number, "number"), byref(end))
        return QueuePairInfo.from_raw(end) if found else None

    def marks(self, number: int) -> Marks | None:
        """The packet numbers by which a network tells which datagrams for the queue pair of that number are too old.

        A request with number n is so where n + 4194304 < expected, a response where n + 4194304 < top. None where no
        connected queue pair here has the number.
        """
        expected, top = ctypes.c_uint64(), ctypes.c_uint64()
        with self._lock:
            found = self._found("jichurpa_marks", u32(number, "number"), byref(expected), byref(top))
        return Marks(expected.value, top.value) if found else None

    def _found(self, function: str, *arguments: object) -> bool:
        """Whether a reader found something. Call it with the lock."""
        result = getattr(library(), function)(byref(self._open()), *arguments)
        if result == Result.NONE:
            return False
        check(result)
        return True


class Domain(NamedTuple):
    """A protection domain of a context."""

    context: str
    name: str


class _Thing:
    """Something of a context, by its name."""

    def __init__(self, context: Context, name: str) -> None:
        self.device = context.device
        self.context = context.name
        self.name = name
        self._object = raw.Object(name_bytes(context.name), name_bytes(name))

    def _step(self, function: str, *arguments: object) -> Outcome:
        return self.device._step(function, byref(self._object), *arguments)

    def __repr__(self) -> str:
        return f"{type(self).__name__}({self.context}.{self.name})"


class Region(_Thing):
    """A memory region. `keys` are told as it is made; keep them, since they move with the context."""

    def __init__(self, context: Context, name: str, keys: Keys | None = None) -> None:
        super().__init__(context, name)
        self.keys = keys

    @property
    def local_key(self) -> int:
        """The key that own requests and receives name."""
        return self._known_keys().local

    @property
    def remote_key(self) -> int:
        """The key that requests of partners name."""
        return self._known_keys().remote

    def _known_keys(self) -> Keys:
        if self.keys is None:
            raise InvalidArgument(f"the keys of {self.context}.{self.name} were told as it was made, to another object")
        return self.keys

    def store(self, at: int, data: bytes) -> None:
        """Writes bytes at an address below 2^64. Refused NO_SUCH; BAD_KEY where the range is not in the region."""
        data = bytes(data)
        self._step("jichurpa_store", u64(at, "an address"), data, len(data))

    def load(self, at: int, length: int) -> bytes:
        """Reads `length` bytes, at most 16,777,216, from an address on. Refused as `store`."""
        room = ctypes.create_string_buffer(max(bounded(length, 0, MAX_REGION, "length"), 1))
        outcome = self._step("jichurpa_load", u64(at, "an address"), room, length)
        return ctypes.string_at(room, outcome.count)

    def drop(self) -> None:
        """Drops the region. Refused NO_SUCH; IN_USE where posted work or a message in progress names it."""
        self._step("jichurpa_drop_region")


class CompletionQueue(_Thing):
    """A completion queue."""

    def poll(self, most: int = 16) -> list[Completion]:
        """Hands out the oldest completions, at most `most` (1 to 16,384). Refused NO_SUCH."""
        room = (raw.RawCompletion * bounded(most, 1, MAX_CAPACITY, "most"))()
        outcome = self._step("jichurpa_poll", room, most)
        return [Completion.from_raw(room[i]) for i in range(outcome.count)]


class QueuePair(_Thing):
    """A queue pair of a reliable connection."""

    def find(self) -> QueuePairInfo | None:
        """What is told of it, or None where it does not live on the device."""
        end = raw.RawEnd()
        with self.device._lock:
            found = self.device._found("jichurpa_end_named", byref(self._object), byref(end))
        return QueuePairInfo.from_raw(end) if found else None

    def info(self) -> QueuePairInfo:
        """What is told of it. Raises NotHere where it does not live on the device."""
        told = self.find()
        if told is None:
            raise NotHere(f"{self.context}.{self.name} is not on this device")
        return told

    @property
    def number(self) -> int:
        """Its number, which partners are told. Raises NotHere."""
        return self.info().number

    @property
    def state(self) -> State:
        """Its state. Raises NotHere."""
        return self.info().state

    def connect(self, peer: int, partner: AddressLike, terms: Terms) -> None:
        """Connects it to the queue pair with number `peer` at an address. The partner gets `terms.exchanged()`.

        Refused NO_SUCH; BAD_STATE where it was connected already.
        """
        place = Address.of(partner).to_raw()
        agreed = terms.to_raw()
        self._step("jichurpa_connect", bounded(peer, 0, MAX_QP_NUMBER, "peer"), byref(place), byref(agreed))

    def post_send(self, request: WorkRequest) -> None:
        """Posts a request. The bytes of a WRITE or SEND are taken now.

        Refused NO_SUCH, TOO_MANY, BAD_STATE, TOO_LONG (over 1,048,576 bytes), BAD_KEY, SQ_FULL, CQ_FULL or NO_PAGE.
        """
        self._step("jichurpa_post_send", byref(request.to_raw()))

    def post_recv(self, receive: Receive) -> None:
        """Posts a receive. Refused NO_SUCH, TOO_LONG, BAD_KEY, RQ_FULL or CQ_FULL."""
        self._step("jichurpa_post_recv", byref(receive.to_raw()))

    def transmit(self) -> Transmission:
        """Sends its next packet, where it may. Refused NO_SUCH; BAD_STATE where it was never connected."""
        outcome = self._step("jichurpa_transmit")
        return Transmission(outcome.answer, outcome.sent[0] if outcome.sent else None)

    def outgoing(self) -> list[Datagram]:
        """All that it may send now. Call it after a posting, an arrival and a timer. Refused as `transmit`.

        One that is Resuming tells its new place once; it does so again when its timer expires.
        """
        sent: list[Datagram] = []
        resuming = self.info().state == State.RESUMING
        while (datagram := self.transmit().datagram) is not None:
            sent.append(datagram)
            if resuming:
                break
        return sent

    def expire(self) -> Expiry:
        """Its retransmission timer expired. What is to be sent again is sent by `transmit`. Refused as `transmit`."""
        outcome = self._step("jichurpa_expire")
        why = NotCountedWhy(outcome.cause) if outcome.answer == Answer.NOT_COUNTED else None
        return Expiry(outcome.answer, outcome.count, why)

    def rnr_over(self) -> bool:
        """Its RNR timer expired. Whether it waited for it. Refused as `transmit`."""
        return self._step("jichurpa_rnr_over").answer == Answer.OVER


class Context:
    """What an application has of a device. Make one by `Device.make_context` or `Device.restore`.

    Each `make_` is refused NO_SUCH where the context is not on the device, STOPPED where it left a husk there,
    NUMBER_TAKEN where the name is in use for a thing of its kind, and TOO_MANY at a limit. A domain or completion queue of
    another context is refused with NO_SUCH.
    """

    def __init__(self, device: Device, name: str) -> None:
        self.device = device
        self.name = name
        self._name = _name(name)

    def __repr__(self) -> str:
        return f"Context({self.name})"

    def _own(self, thing: Domain | CompletionQueue) -> bytes:
        """The name of a thing of this context, and sixteen zeros for one of another."""
        return name_bytes(thing.name) if thing.context == self.name else _NO_NAME

    # ---- making

    def make_domain(self, name: str) -> Domain:
        """A protection domain, at most 64 of a context."""
        self.device._step("jichurpa_make_domain", byref(raw.Object(name_bytes(self.name), name_bytes(name))))
        return Domain(self.name, name)

    def make_region(self, name: str, domain: Domain, base: int, length: int, rights: Rights) -> Region:
        """A memory region of zeros, at most 256 of a context.

        `base` is its first address, at most 2^63; `length` its bytes, 1 to 16,777,216. Refused NO_PAGE where too few of the
        8,192 pages of 4,096 bytes are free.
        """
        region = Region(self, name)
        outcome = region._step(
            "jichurpa_make_region",
            byref(raw.Name(self._own(domain))),
            bounded(base, 0, MAX_BASE, "base"),
            bounded(length, 1, MAX_REGION, "length"),
            bounded(rights, 0, 15, "rights"),
        )
        region.keys = outcome.keys
        return region

    def make_cq(self, name: str, capacity: int) -> CompletionQueue:
        """A completion queue of 1 to 16,384 entries, at most 64 of a context."""
        cq = CompletionQueue(self, name)
        cq._step("jichurpa_make_cq", bounded(capacity, 1, MAX_CAPACITY, "capacity"))
        return cq

    def make_qp(
        self,
        name: str,
        domain: Domain,
        send_cq: CompletionQueue,
        recv_cq: CompletionQueue,
        send_depth: int,
        recv_depth: int,
    ) -> QueuePair:
        """A queue pair with room for 1 to 256 requests and receives, at most 64 of a context."""
        qp = QueuePair(self, name)
        options = raw.QpOptions(
            self._own(domain),
            self._own(send_cq),
            self._own(recv_cq),
            bounded(send_depth, 1, MAX_DEPTH, "send_depth"),
            bounded(recv_depth, 1, MAX_DEPTH, "recv_depth"),
        )
        qp._step("jichurpa_make_qp", byref(options))
        return qp

    # ---- things by name, such as those of a context that was restored; whether they are there is not asked

    def domain(self, name: str) -> Domain:
        """The protection domain of a name."""
        name_bytes(name)
        return Domain(self.name, name)

    def region(self, name: str, keys: Keys | None = None) -> Region:
        """The memory region of a name."""
        return Region(self, name, keys)

    def cq(self, name: str) -> CompletionQueue:
        """The completion queue of a name."""
        return CompletionQueue(self, name)

    def qp(self, name: str) -> QueuePair:
        """The queue pair of a name."""
        return QueuePair(self, name)

    def queue_pairs(self) -> list[QueuePairInfo]:
        """What is told of its queue pairs, in order of making; none where it is not on the device."""
        told: list[QueuePairInfo] = []
        end = raw.RawEnd()
        with self.device._lock:
            while self.device._found("jichurpa_end_at", byref(self._name), len(told), byref(end)):
                told.append(QueuePairInfo.from_raw(end))
        return told

    # ---- moving

    def stop_image(self, alone: bool = True) -> Image:
        """Stops the context: it leaves the device, and a husk stays that tells its partners to wait.

        `alone` is true for an owner who does not know the partners: then a context with a Paused queue pair is refused with
        PEER_MOVING. It is false where he has looked himself that no partner is carried or Resuming. Refused NO_SUCH, STOPPED,
        PEER_MOVING or TOO_MANY (256 husks, or 65,535 moves of a queue pair).
        """
        image = Image()
        self.device._step("jichurpa_stop", byref(self._name), int(bool(alone)), byref(image._handle))
        return image

    def stop(self, alone: bool = True) -> bytes:
        """Stops the context as `stop_image`, and gives its image as bytes.

        Where the bytes cannot be made, OutOfMemory has the image: the context is stopped then.
        """
        image = self.stop_image(alone)
        try:
            data = bytes(image)
        except OutOfMemory as fault:
            raise OutOfMemory("the context is stopped, and there is no memory for its bytes", image) from fault
        image.close()
        return data


def connect(one: QueuePair, two: QueuePair, terms: Terms) -> None:
    """Connects two queue pairs of devices of this process to each other. `terms` are those of the first.

    Refused NO_SUCH where one of them is not on its device; BAD_STATE where one was connected already, or both are of one
    context. Then neither is changed.
    """
    first, second = one.find(), two.find()
    if first is None or second is None:
        raise Refused(Refusal.NO_SUCH)
    of_one_context = one.device is two.device and one.context == two.context
    if of_one_context or first.state != State.INIT or second.state != State.INIT:
        raise Refused(Refusal.BAD_STATE)
    one.connect(second.number, two.device.address, terms)
    two.connect(first.number, one.device.address, terms.exchanged())

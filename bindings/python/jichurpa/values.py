"""The values that go into the library and come out of it: plain, immutable, and usable without the library."""

from __future__ import annotations

import re
from dataclasses import dataclass
from typing import NamedTuple

from . import library as raw
from .enums import (
    MAX_PSN,
    MTUS,
    PORT,
    Answer,
    Flags,
    Kind,
    NotCountedWhy,
    SilentWhy,
    State,
    Took,
    WcKind,
    WcStatus,
    Why,
)
from .errors import InvalidArgument

_NAME = re.compile("[a-z][a-z0-9_]{0,15}")
_PART = "(0|[1-9][0-9]{0,2})"
_ADDRESS = re.compile(rf"{_PART}\.{_PART}\.{_PART}\.{_PART}(?::([1-9][0-9]{{0,4}}))?")


def bounded(value: int, low: int, high: int, what: str) -> int:
    """The number, which is from low to high; else InvalidArgument. Ctypes would cut a greater one without a word."""
    number = int(value)
    if number != value or not low <= number <= high:
        raise InvalidArgument(f"{what} is {value}, and has to be from {low} to {high}")
    return number


def u32(value: int, what: str) -> int:
    """A number of 32 bits."""
    return bounded(value, 0, 0xFFFFFFFF, what)


def u64(value: int, what: str) -> int:
    """A number of 64 bits."""
    return bounded(value, 0, 0xFFFFFFFFFFFFFFFF, what)


def is_name(text: str) -> bool:
    """Whether a text is a name: a letter a to z, then up to 15 of a to z, 0 to 9 and _."""
    return _NAME.fullmatch(text) is not None


def name_bytes(text: str) -> bytes:
    """The bytes of a name; else InvalidArgument."""
    if not is_name(text):
        raise InvalidArgument(f"{text!r} is no name: a letter a to z, then up to 15 of a to z, 0 to 9 and _")
    return text.encode()


class Address(NamedTuple):
    """An IPv4 address, 10.0.0.1 as 0x0a000001, and a UDP port."""

    ip: int
    port: int = PORT

    @classmethod
    def parse(cls, text: str) -> Address:
        """The address of a text such as "10.0.0.1" or "10.0.0.1:4801"; else InvalidArgument. The port is else 4791."""
        found = _ADDRESS.fullmatch(text)
        parts = [int(part) for part in found.groups()[:4]] if found else []
        port = int(found[5]) if found and found[5] else PORT
        if not parts or max(parts) > 255 or port > 65535:
            raise InvalidArgument(f"{text!r} is no IPv4 address with perhaps a colon and a port")
        return cls(int.from_bytes(bytes(parts), "big"), port)

    @classmethod
    def of(cls, source: AddressLike) -> Address:
        """An address from an Address, a text, or a pair of a text and a port as `socket.recvfrom` gives it."""
        if isinstance(source, Address):
            return source
        if isinstance(source, str):
            return cls.parse(source)
        host, port = source
        return cls(cls.parse(host).ip, port)

    @property
    def host(self) -> str:
        """The address without the port, as text."""
        return ".".join(str(part) for part in self.ip.to_bytes(4, "big"))

    @property
    def pair(self) -> tuple[str, int]:
        """The pair that `socket.sendto` takes."""
        return self.host, self.port

    def __str__(self) -> str:
        return self.host if self.port == PORT else f"{self.host}:{self.port}"

    def to_raw(self) -> raw.RawAddress:
        """The struct of the library."""
        return raw.RawAddress(u32(self.ip, "an IPv4 address"), bounded(self.port, 0, 65535, "a port"), 0)


AddressLike = Address | str | tuple[str, int]


class Keys(NamedTuple):
    """The keys of a memory region. A context takes them along when it moves."""

    local: int
    remote: int


@dataclass(frozen=True)
class Terms:
    """What both ends of a connection agree on.

    `mtu` is 256, 512, 1024, 2048 or 4096 bytes of payload of a packet. The starts are the packet sequence numbers of the
    first packets, below 2^24. `retry` is how many expiries in a row are allowed, 0 to 7; `rnr` how many waits for a
    receive, 0 to 7, and 7 is without limit; `reads` how many READs and atomics may be in flight, 1 to 16.
    """

    mtu: int = 1024
    own_start: int = 0
    peer_start: int = 0
    retry: int = 7
    rnr: int = 7
    reads: int = 16

    def exchanged(self) -> Terms:
        """The same terms for the partner."""
        return Terms(self.mtu, self.peer_start, self.own_start, self.retry, self.rnr, self.reads)

    def to_raw(self) -> raw.RawTerms:
        """The struct of the library. InvalidArgument where a number is out of its range."""
        if self.mtu not in MTUS:
            raise InvalidArgument(f"the mtu is {self.mtu}, and has to be one of {MTUS}")
        return raw.RawTerms(
            self.mtu,
            bounded(self.own_start, 0, MAX_PSN, "own_start"),
            bounded(self.peer_start, 0, MAX_PSN, "peer_start"),
            bounded(self.retry, 0, 7, "retry"),
            bounded(self.rnr, 0, 7, "rnr"),
            bounded(self.reads, 1, 16, "reads"),
            0,
        )


@dataclass(frozen=True)
class WorkRequest:
    """A work request of the send queue. Make one by `write`, `send`, `read`, `compare_swap` or `fetch_add`.

    `id` is below 2^64 and comes back in the completion. `local` and `remote` are addresses in memory below 2^64, `length`
    is in bytes. With `signaled` a success gives a completion; an error always does. With `fence` the request waits for all
    earlier READs and atomics of its queue. `imm` is an immediate below 2^32, of a WRITE or SEND, or None.
    """

    kind: Kind
    id: int
    local_key: int
    local: int
    length: int
    remote: int = 0
    remote_key: int = 0
    imm: int | None = None
    swap_add: int = 0
    compare: int = 0
    signaled: bool = True
    fence: bool = False

    @classmethod
    def write(
        cls,
        id: int,
        local_key: int,
        local: int,
        length: int,
        remote: int,
        remote_key: int,
        imm: int | None = None,
        *,
        signaled: bool = True,
        fence: bool = False,
    ) -> WorkRequest:
        """A WRITE of `length` bytes from `local` to `remote` at the partner. The bytes are taken as it is posted."""
        return cls(Kind.WRITE, id, local_key, local, length, remote, remote_key, imm, signaled=signaled, fence=fence)

    @classmethod
    def send(
        cls,
        id: int,
        local_key: int,
        local: int,
        length: int,
        imm: int | None = None,
        *,
        signaled: bool = True,
        fence: bool = False,
    ) -> WorkRequest:
        """A SEND of `length` bytes from `local`. The bytes are taken as it is posted."""
        return cls(Kind.SEND, id, local_key, local, length, imm=imm, signaled=signaled, fence=fence)

    @classmethod
    def read(
        cls,
        id: int,
        local_key: int,
        local: int,
        length: int,
        remote: int,
        remote_key: int,
        *,
        signaled: bool = True,
        fence: bool = False,
    ) -> WorkRequest:
        """A READ of `length` bytes from `remote` at the partner to `local`."""
        return cls(Kind.READ, id, local_key, local, length, remote, remote_key, signaled=signaled, fence=fence)

    @classmethod
    def compare_swap(
        cls,
        id: int,
        local_key: int,
        local: int,
        remote: int,
        remote_key: int,
        compare: int,
        swap: int,
        *,
        signaled: bool = True,
        fence: bool = False,
    ) -> WorkRequest:
        """A compare and swap of the word of 8 bytes at `remote`. The old value lands at `local`."""
        return cls(
            Kind.COMPARE_SWAP,
            id,
            local_key,
            local,
            8,
            remote,
            remote_key,
            swap_add=swap,
            compare=compare,
            signaled=signaled,
            fence=fence,
        )

    @classmethod
    def fetch_add(
        cls,
        id: int,
        local_key: int,
        local: int,
        remote: int,
        remote_key: int,
        value: int,
        *,
        signaled: bool = True,
        fence: bool = False,
    ) -> WorkRequest:
        """An addition to the word of 8 bytes at `remote`. The old value lands at `local`."""
        return cls(
            Kind.FETCH_ADD, id, local_key, local, 8, remote, remote_key, swap_add=value, signaled=signaled, fence=fence
        )

    @property
    def flags(self) -> Flags:
        """The flags of the library's struct."""
        signaled = Flags.SIGNALED if self.signaled else Flags.NONE
        fence = Flags.FENCE if self.fence else Flags.NONE
        return signaled | fence | (Flags.NONE if self.imm is None else Flags.HAS_IMM)

    def to_raw(self) -> raw.RawRequest:
        """The struct of the library. InvalidArgument where a number is out of its range."""
        return raw.RawRequest(
            u64(self.id, "id"),
            u64(self.local, "local"),
            u64(self.remote, "remote"),
            u64(self.swap_add, "swap_add"),
            u64(self.compare, "compare"),
            int(self.kind),
            u32(self.length, "length"),
            u32(self.local_key, "local_key"),
            u32(self.remote_key, "remote_key"),
            0 if self.imm is None else u32(self.imm, "imm"),
            int(self.flags),
        )


@dataclass(frozen=True)
class Receive:
    """A work request of the receive queue: a place of `length` bytes at the address `local`. `id` comes back."""

    id: int
    local_key: int
    local: int
    length: int

    def to_raw(self) -> raw.RawReceive:
        """The struct of the library. InvalidArgument where a number is out of its range."""
        return raw.RawReceive(
            u64(self.id, "id"), u64(self.local, "local"), u32(self.local_key, "local_key"), u32(self.length, "length")
        )


@dataclass(frozen=True)
class Completion:
    """A work completion: the number of the queue pair, and the id of the request or receive.

    `length` is the bytes of the message after a success, and else 0. `imm` is the immediate, or None.
    """

    qp: int
    id: int
    kind: WcKind
    status: WcStatus
    length: int
    imm: int | None

    @classmethod
    def from_raw(cls, c: raw.RawCompletion) -> Completion:
        """From the struct of the library."""
        imm = c.imm if c.flags & Flags.HAS_IMM else None
        return cls(c.qp, c.id, WcKind(c.kind), WcStatus(c.status), c.length, imm)


@dataclass(frozen=True)
class Datagram:
    """A datagram that is to be sent: the bytes of a UDP payload, at most 4,132.

    `number` is its packet number, where it has one: packets of a connection are counted from 0. By it a network that keeps
    datagrams tells which are too old.
    """

    to: Address
    data: bytes
    number: int | None = None


@dataclass(frozen=True)
class Outcome:
    """What a step of a device answered, with the datagrams that it sent."""

    answer: Answer
    cause: int
    detail: int
    number: int
    keys: Keys
    count: int
    sent: list[Datagram]


@dataclass(frozen=True)
class Arrival:
    """What an arriving datagram did, and what answers it.

    `detail` says more: Why of Took.REFUSED, WcStatus of Took.ENDED, SilentWhy of Took.SILENT, and else None.
    """

    took: Took
    detail: Why | WcStatus | SilentWhy | None
    sent: list[Datagram]

    @classmethod
    def from_outcome(cls, outcome: Outcome) -> Arrival:
        """From the outcome of a step."""
        took = Took(outcome.cause)
        detail: Why | WcStatus | SilentWhy | None = None
        if took == Took.REFUSED:
            detail = Why(outcome.detail)
        elif took == Took.ENDED:
            detail = WcStatus(outcome.detail)
        elif took == Took.SILENT:
            detail = SilentWhy(outcome.detail)
        return cls(took, detail, outcome.sent)


@dataclass(frozen=True)
class Transmission:
    """What a transmission answered: Answer.SENT with its datagram; or IDLE, WINDOW_FULL, READS_FULL, FENCED or WAITING."""

    answer: Answer
    datagram: Datagram | None


@dataclass(frozen=True)
class Expiry:
    """What an expiry of the retransmission timer answered.

    `answer` is Answer.EXPIRED with the number of expiries in a row, SPENT, or NOT_COUNTED with a reason.
    """

    answer: Answer
    count: int
    why: NotCountedWhy | None


@dataclass(frozen=True)
class QueuePairInfo:
    """What is told of a queue pair. Of one in Init all is 0 but its names, number and state.

    `una` is the oldest unacknowledged packet number, `next` the next one to send, `last` the one behind the last posted
    request. `untold` counts posted requests that are not finished for their owner. `may_send` says that a transmission may
    send now, `in_flight` that an expiry counts. Of a queue pair of an image `last`, `may_send` and `in_flight` are 0.
    """

    context: str
    name: str
    number: int
    peer: int
    state: State
    una: int
    next: int
    last: int
    untold: int
    moves: int
    rnr: int
    rnr_wait: bool
    may_send: bool
    in_flight: bool

    @classmethod
    def from_raw(cls, e: raw.RawEnd) -> QueuePairInfo:
        """From the struct of the library."""
        return cls(
            e.name.context.decode(),
            e.name.name.decode(),
            e.number,
            e.peer,
            State(e.state),
            e.una,
            e.next,
            e.last,
            e.untold,
            e.moves,
            e.rnr,
            bool(e.rnr_wait),
            bool(e.may_send),
            bool(e.in_flight),
        )


class Marks(NamedTuple):
    """The packet number that a queue pair expects next, and the one behind the highest that it sent."""

    expected: int
    top: int

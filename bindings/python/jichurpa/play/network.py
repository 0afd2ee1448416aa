"""The network of a script: datagrams are numbered from 1 as they are sent, and the last 16,384 are kept."""

from __future__ import annotations

from collections import OrderedDict, deque
from dataclasses import dataclass

from ..values import Address, Datagram

MOST_KEPT = 16384
LATEST = 1 << 22  # how late a datagram may be, in packet numbers
_READ_REQUEST = 0x0C  # the opcodes of SEND, WRITE and READ requests are up to here
_ATOMICS = (0x13, 0x14)


@dataclass
class Flight:
    """A datagram on its way."""

    source: Address
    datagram: Datagram
    lost: bool = False
    taken: bool = False

    @property
    def data(self) -> bytes:
        """Its bytes."""
        return self.datagram.data

    @property
    def queue_pair(self) -> int:
        """The number of the queue pair that it is for."""
        return int.from_bytes(self.data[5:8], "big")

    @property
    def is_request(self) -> bool:
        """A SEND, WRITE, READ or atomic request."""
        opcode = self.data[0]
        return opcode <= _READ_REQUEST or opcode in _ATOMICS


class Network:
    """The datagrams that are kept, by their numbers."""

    def __init__(self) -> None:
        self._kept: deque[Flight] = deque(maxlen=MOST_KEPT)
        self._pending: OrderedDict[int, None] = OrderedDict()
        self.count = 0

    def send(self, source: Address, sent: list[Datagram]) -> int:
        """Puts datagrams into the network, and gives the number of the first."""
        first = self.count + 1
        for datagram in sent:
            self.count += 1
            self._kept.append(Flight(source, datagram))
            self._pending[self.count] = None
            self._pending.pop(self.count - MOST_KEPT, None)
        return first

    def kept(self, k: int) -> Flight | None:
        """Datagram k, where it is kept."""
        before = self.count - len(self._kept)
        return self._kept[k - before - 1] if before < k <= self.count else None

    def lose(self, k: int) -> bool:
        """Loses datagram k. Whether it is kept."""
        flight = self.kept(k)
        if flight is not None:
            flight.lost = True
            self._pending.pop(k, None)
        return flight is not None

    def take(self, k: int) -> None:
        """Datagram k, which is kept, is taken."""
        flight = self.kept(k)
        if flight is not None:
            flight.taken = True
            self._pending.pop(k, None)

    def pending(self) -> int | None:
        """The least number of a datagram that is kept and neither lost nor taken."""
        return next(iter(self._pending), None)


def is_late(flight: Flight, mark: int) -> bool:
    """Its packet number is so old that it could be taken for a newer one by a receiver at this mark."""
    number = flight.datagram.number
    return number is not None and number + LATEST < mark

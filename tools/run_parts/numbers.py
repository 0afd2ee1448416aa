"""The packet numbers that belong to the requests of an end of the packetless machine, counted from 0 at its first posted request.

They are those of `Numbers` of crates/packetless_machine and `Spans` of crates/rdma_types. No step of the machine looks at them.
"""
from bisect import bisect_right

ATOMICS = ("cas", "add")


def span(request, mtu):
    """How many numbers a request takes."""
    return 1 if request.kind in ATOMICS else max(1, -(-request.length // mtu))


class Numbers:
    """The numbers of the requests that an end has posted. It reads on as more are posted."""

    def __init__(self, end):
        self.end, self.first = end, [0]

    def _read_on(self):
        posted, first = self.end.posted, self.first
        while len(first) <= len(posted):
            first.append(first[-1] + span(posted[len(first) - 1], self.end.mtu))

    def first_of(self, place):
        """The first number of the request at a place; behind the last request, the number behind all."""
        self._read_on()
        return self.first[min(place, len(self.first) - 1)]

    def request_of(self, number):
        """The place of the request that has a number: how many have all their numbers below it."""
        self._read_on()
        return min(bisect_right(self.first, number) - 1, len(self.end.posted))

    def piece_of(self, number):
        """Which of the numbers of its request it is, from 0 on."""
        return number - self.first_of(self.request_of(number))

    def due(self):
        """The number of the packet that acts next at the peer."""
        return self.first_of(self.end.acted) + self.end.into // self.end.mtu

    def oldest(self):
        """The first number that the owner does not know to be in place."""
        return self.first_of(self.end.told) + self.end.known // self.end.mtu

    def barrier(self):
        """The first number, from the oldest on, whose READ or atomic has not landed; behind all where there is none."""
        oldest = self.oldest()
        for place in range(self.request_of(oldest), len(self.end.posted)):
            if self.end.posted[place].lands():
                return max(oldest, self.first_of(place))
        return max(oldest, self.first_of(len(self.end.posted)))

"""A world: devices, the network between them, and the images that are carried from one to another."""

from __future__ import annotations

from collections.abc import Iterator
from dataclasses import dataclass
from types import TracebackType

from ..device import CompletionQueue, Context, Device, Domain, QueuePair, Region, connect
from ..enums import Refusal, Rights, SilentWhy, State, Took
from ..errors import Refused
from ..values import Address, Arrival, QueuePairInfo, Receive, Terms, WorkRequest
from . import answers
from .network import Flight, Network, is_late
from .words import ObjectName

MOST_DEVICES = 16


@dataclass
class Carried:
    """An image on its way."""

    data: bytes
    ends: list[QueuePairInfo]


def is_connected(info: QueuePairInfo) -> bool:
    """The queue pair is connected and not in Error, so that a move of its context concerns its partner."""
    return info.state not in (State.INIT, State.ERROR)


class World:
    """What a script is played in. A context manager, which closes the devices.

    Each method that has the name of a line's first word does that line, and gives the text of its answer without the last
    newline. It raises Refused, with nothing changed, and OutOfMemory.
    """

    def __init__(self) -> None:
        self.network = Network()
        self.carried: dict[str, Carried] = {}
        self._devices: dict[int, Device] = {}
        self._addresses: dict[Address, Device] = {}
        self._homes: dict[str, Context] = {}
        self._stopped: set[str] = set()

    def __enter__(self) -> World:
        return self

    def __exit__(
        self, kind: type[BaseException] | None, error: BaseException | None, trace: TracebackType | None
    ) -> None:
        for device in self._devices.values():
            device.close()

    # ---- where things are

    def home(self, name: str) -> Context:
        """The context where it lives. Refused NO_SUCH where it was never made, STOPPED where it is carried."""
        if name in self._homes:
            return self._homes[name]
        raise Refused(Refusal.STOPPED if name in self.carried else Refusal.NO_SUCH)

    def end(self, end: ObjectName) -> QueuePair:
        """A queue pair of a context that lives."""
        return self.home(end.context).qp(end.name)

    def live_ends(self) -> Iterator[QueuePairInfo]:
        """The queue pairs of all devices, in order of devices, contexts and queue pairs."""
        for device in self._devices.values():
            for name in device.contexts():
                yield from device.context(name).queue_pairs()

    def carried_ends(self) -> Iterator[QueuePairInfo]:
        """The queue pairs of carried contexts, in order of their stops."""
        for image in self.carried.values():
            yield from image.ends

    def _device(self, id: int) -> Device:
        """The device with an id. Refused NO_SUCH."""
        if id not in self._devices:
            raise Refused(Refusal.NO_SUCH)
        return self._devices[id]

    def _domain(self, domain: ObjectName) -> Domain:
        return Domain(domain.context, domain.name)

    def _region(self, region: ObjectName) -> Region:
        return self.home(region.context).region(region.name)

    def _cq(self, context: Context, cq: ObjectName) -> CompletionQueue:
        """A completion queue, also of another context than the one that asks."""
        return Context(context.device, cq.context).cq(cq.name)

    # ---- making things

    def device(self, id: int, address: Address) -> str:
        """A device at an address."""
        if id in self._devices or address in self._addresses:
            raise Refused(Refusal.NUMBER_TAKEN)
        if len(self._devices) >= MOST_DEVICES:
            raise Refused(Refusal.TOO_MANY)
        self._devices[id] = self._addresses[address] = Device(id, address)
        return answers.OK

    def context(self, name: str, id: int) -> str:
        """A context on a device. Its name is made once and never free again."""
        device = self._device(id)
        if name in self._homes or name in self.carried:
            raise Refused(Refusal.NUMBER_TAKEN)
        self._homes[name] = device.make_context(name)
        return answers.OK

    def domain(self, domain: ObjectName) -> str:
        """A protection domain."""
        self.home(domain.context).make_domain(domain.name)
        return answers.OK

    def region(self, region: ObjectName, domain: ObjectName, base: int, length: int, rights: Rights) -> str:
        """A memory region."""
        made = self.home(region.context).make_region(region.name, self._domain(domain), base, length, rights)
        assert made.keys is not None
        return answers.region_text(made.keys)

    def cq(self, cq: ObjectName, capacity: int) -> str:
        """A completion queue."""
        self.home(cq.context).make_cq(cq.name, capacity)
        return answers.OK

    def qp(
        self,
        qp: ObjectName,
        domain: ObjectName,
        send_cq: ObjectName,
        recv_cq: ObjectName,
        send_depth: int,
        recv_depth: int,
    ) -> str:
        """A queue pair."""
        context = self.home(qp.context)
        queues = self._cq(context, send_cq), self._cq(context, recv_cq)
        made = context.make_qp(qp.name, self._domain(domain), *queues, send_depth, recv_depth)
        return answers.qp_text(made.number)

    def connect(self, one: ObjectName, two: ObjectName, terms: Terms) -> str:
        """Connects two queue pairs. Both contexts are looked for before it counts that one is carried."""
        for name in (one.context, two.context):
            if name not in self._homes and name not in self.carried:
                raise Refused(Refusal.NO_SUCH)
        connect(self.end(one), self.end(two), terms)
        return answers.OK

    def drop(self, region: ObjectName) -> str:
        """Drops a memory region."""
        self._region(region).drop()
        return answers.OK

    # ---- what applications ask

    def store(self, region: ObjectName, at: int, data: bytes) -> str:
        """The owner writes."""
        self._region(region).store(at, data)
        return answers.OK

    def load(self, region: ObjectName, at: int, length: int) -> str:
        """The owner reads."""
        return f"bytes {self._region(region).load(at, length).hex()}"

    def _post(self, end: ObjectName, request: WorkRequest) -> str:
        """Posts a request."""
        self.end(end).post_send(request)
        return answers.OK

    write = send = read = cas = add = _post

    def recv(self, end: ObjectName, receive: Receive) -> str:
        """Posts a receive."""
        self.end(end).post_recv(receive)
        return answers.OK

    def poll(self, cq: ObjectName, most: int) -> str:
        """Hands out the oldest completions."""
        return answers.polled_text(self.home(cq.context).cq(cq.name).poll(most))

    # ---- the network and the timers

    def transmit(self, end: ObjectName) -> str | None:
        """A queue pair sends its next packet into the network. None, or why nothing was sent."""
        qp = self.end(end)
        told = qp.transmit()
        if told.datagram is None:
            return answers.HELD_BACK[told.answer]
        self.network.send(qp.device.address, [told.datagram])
        return None

    def go(self, end: ObjectName) -> str:
        """A queue pair sends its next packet."""
        return self.transmit(end) or f"sent {self.network.count}"

    def receiver(self, flight: Flight) -> Device | None:
        """The device that a datagram is for."""
        return self._addresses.get(flight.datagram.to)

    def _is_aged(self, flight: Flight) -> bool:
        """A datagram is too late for the queue pair that it is for."""
        device = self.receiver(flight)
        marks = device.marks(flight.queue_pair) if device else None
        return marks is not None and is_late(flight, marks.expected if flight.is_request else marks.top)

    def deliver(self, k: int) -> str:
        """The network hands datagram k to its device. It counts as taken, also where it is too late."""
        flight = self.network.kept(k)
        if flight is None:
            return "gone"
        if flight.lost:
            return "lost"
        if self._is_aged(flight):
            self.network.take(k)
            return "aged"
        device = self.receiver(flight)
        if device is None:
            arrival = Arrival(Took.SILENT, SilentWhy.UNKNOWN, [])
        else:
            arrival = device.arrive(flight.source, flight.data)
        self.network.take(k)
        first = self.network.send(flight.datagram.to, arrival.sent)
        return answers.took_text(arrival, first)

    def lose(self, k: int) -> str:
        """The network loses datagram k."""
        return answers.OK if self.network.lose(k) else "gone"

    def wire(self, k: int) -> str:
        """The bytes of datagram k, also of a lost one."""
        flight = self.network.kept(k)
        return "gone" if flight is None else f"wire {flight.data.hex()}"

    def expire(self, end: ObjectName) -> str:
        """The retransmission timer expires."""
        return answers.expiry_text(self.end(end).expire())

    def rnr(self, end: ObjectName) -> str:
        """The RNR timer expires."""
        return "over" if self.end(end).rnr_over() else "notwaiting"

    # ---- moving

    def _on_the_way(self) -> set[int]:
        """The numbers of queue pairs that are carried or Resuming."""
        carried = {info.number for info in self.carried_ends() if is_connected(info)}
        return carried | {info.number for info in self.live_ends() if info.state == State.RESUMING}

    def stop(self, name: str) -> str:
        """The context leaves its device, and its image is carried. Refused PEER_MOVING where the partner of an end moves."""
        context = self.home(name)
        on_the_way = self._on_the_way()
        if any(is_connected(info) and info.peer in on_the_way for info in context.queue_pairs()):
            raise Refused(Refusal.PEER_MOVING)
        with context.stop_image(alone=False) as image:
            self.carried[name] = Carried(bytes(image), image.queue_pairs())
        del self._homes[name]
        self._stopped.add(name)
        return "stopped"

    def restore(self, name: str, id: int) -> str:
        """The carried image is put on a device. Refused SPENT where the last image was restored already."""
        device = self._device(id)
        if name not in self._stopped:
            raise Refused(Refusal.NO_SUCH)
        if name not in self.carried:
            raise Refused(Refusal.SPENT)
        self._homes[name] = device.restore(self.carried[name].data)
        del self.carried[name]
        return answers.OK

    def release(self, name: str, id: int) -> str:
        """The husk on a device is forgotten."""
        self._device(id).release(name)
        return answers.OK

    def dump(self, name: str) -> str:
        """The bytes of a carried image."""
        if name not in self.carried:
            raise Refused(Refusal.NO_SUCH)
        return answers.dump_text(self.carried[name].data)

"""Settling, as crates/protocol/specs/Settle.antt defines it: rounds of draining, sending and timers until nothing changes."""

from __future__ import annotations

import functools
from collections.abc import Callable
from dataclasses import dataclass

from ..enums import State
from ..values import QueuePairInfo
from . import answers
from .words import ObjectName
from .world import World

_WITHOUT_LIMIT = 7


@dataclass(frozen=True)
class Wait:
    """The last step of an RNR timer in this settling: where `una` was, and whether the partner was in Error."""

    una: int
    partner_failed: bool


def name_of(info: QueuePairInfo) -> ObjectName:
    """The name of a queue pair."""
    return ObjectName(info.context, info.name)


class Settling:
    """A world on its way to rest."""

    def __init__(self, world: World) -> None:
        self._world = world
        self._waits: dict[ObjectName, Wait] = {}
        self._changed = False  # some `una` or state changed in this round, even if a later change undid it
        self._stepped = False  # a timer expired in this round

    def run(self) -> str:
        """Rounds until nothing changes and no timer expires; the text of what is left."""
        resting = False
        while not resting:
            self._changed = self._stepped = False
            self._round()
            resting = not (self._changed or self._stepped)
        return answers.quiet_text(self._left())

    def _round(self) -> None:
        """One round."""
        ends = [name_of(info) for info in self._world.live_ends()]
        self._drain()
        for end in ends:
            self._visit(end)
        if not self._changed:
            self._timers()

    # ---- what is watched

    def _watch(self, look: Callable[[], QueuePairInfo | None], step: Callable[[], object]) -> None:
        """A step, with a note whether it changed `una` or the state of the queue pair that it may change."""
        if self._changed:
            step()
            return
        before = look()
        step()
        after = look()
        if before is not None and after is not None:
            self._changed = (before.una, before.state) != (after.una, after.state)

    def _info(self, end: ObjectName) -> QueuePairInfo:
        return self._world.end(end).info()

    # ---- draining

    def _drain(self) -> None:
        """Delivers what is pending, the lowest number first, until nothing is."""
        while (k := self._world.network.pending()) is not None:
            self._deliver(k)

    def _deliver(self, k: int) -> None:
        """Delivers datagram k. No queue pair changes but the one that it is for."""
        flight = self._world.network.kept(k)
        device = self._world.receiver(flight) if flight else None
        if flight is None or device is None:
            self._world.deliver(k)
            return
        look = functools.partial(device.numbered, flight.queue_pair)
        self._watch(look, lambda: self._world.deliver(k))

    # ---- sending

    def _visit(self, end: ObjectName) -> None:
        """A queue pair sends, and what it sent is drained, until it has nothing to send now.

        One that is Resuming sends once, and goes on only if it is Running then.
        """
        info = self._info(end)
        if info.state == State.RESUMING:
            self._world.transmit(end)
            self._drain()
            info = self._info(end)
        if info.state == State.RUNNING and info.may_send:
            while self._world.transmit(end) is None:
                self._drain()

    # ---- timers

    def _timers(self) -> None:
        """RNR timers expire; where none did, retransmission timers do. No timer of a queue pair changes another one."""
        ends = list(self._world.live_ends())
        failed = {info.number for info in (*ends, *self._world.carried_ends()) if info.state == State.ERROR}
        for info in ends:
            if info.rnr_wait and self._may_step(info, info.peer in failed):
                self._waits[name_of(info)] = Wait(info.una, info.peer in failed)
                self._step(info, self._world.rnr)
        if not self._stepped:
            for info in ends:
                if info.in_flight:
                    self._step(info, self._world.expire)

    def _may_step(self, info: QueuePairInfo, partner_failed: bool) -> bool:
        """An RNR timer expires. Where waits are without limit, only if that can help."""
        last = self._waits.get(name_of(info))
        if last is None or info.rnr != _WITHOUT_LIMIT or last.una != info.una:
            return True
        return partner_failed and not last.partner_failed

    def _step(self, info: QueuePairInfo, timer: Callable[[ObjectName], str]) -> None:
        """A timer of a queue pair expires."""
        end = name_of(info)
        self._watch(lambda: self._info(end), lambda: timer(end))
        self._stepped = True

    # ---- what is left

    def _left(self) -> list[tuple[str, str]]:
        """Each queue pair with unfinished requests, and why: live ones first, then those of carried contexts."""
        reasons = {State.PAUSED: "paused", State.RESUMING: "resuming"}
        live = [(info, reasons.get(info.state, "noreceive")) for info in self._world.live_ends()]
        carried = [(info, "carried") for info in self._world.carried_ends()]
        return [(str(name_of(info)), why) for info, why in live + carried if info.untold]

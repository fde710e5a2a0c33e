"""Which channel of the trace an XOT circuit gets: a new one while there are some, then one that is free again."""
from __future__ import annotations

import heapq
from collections.abc import Iterable
from dataclasses import dataclass

from x25tools_lib.header import Header
from x25tools_lib.ledger import Ledger, Reason
from x25tools_lib.sides import Side

from .xot import Circuit


@dataclass
class Range:
    """The channels that circuits of one kind may have; `following` is the first one that was not given yet."""

    first: int
    last: int
    following: int

    def fresh(self, taken: set[int]) -> int | None:
        """Returns the next channel that no circuit had, or None."""
        while self.following <= self.last and self.following in taken:
            self.following += 1
        return self.following if self.following <= self.last else None

    def again(self, free: list[int]) -> int | None:
        """Removes and returns the channel that was free first, or None."""
        for at, channel in enumerate(free):
            if self.first <= channel <= self.last:
                return free.pop(at)
        return None


class Channels:
    """The channels of a trace: which ones circuits had, and which are free again, the longest free one first."""

    def __init__(self, header: Header) -> None:
        self.permanent = Range(1, header.permanent, 1)
        # Calls of the DTE may not use the channels for incoming calls, and calls of the DCE not those for outgoing calls.
        self.calls = {
            Side.T: Range(header.incoming + 1, header.outgoing, header.incoming + 1),
            Side.N: Range(header.permanent + 1, header.two_way, header.permanent + 1),
        }
        self.taken: set[int] = set()
        self.free: list[int] = []

    def give(self, circuit: Circuit) -> bool:
        """Gives a circuit its channel, 1 to PVC for permanent ones, those after them for calls; returns whether one was left."""
        places = self.permanent if circuit.permanent else self.calls[circuit.caller or Side.T]
        channel = places.fresh(self.taken) or places.again(self.free)
        if channel is not None:
            circuit.again = channel in self.taken
            self.taken.add(channel)
            circuit.channel = channel
        return channel is not None

    def release(self, channel: int) -> None:
        self.free.append(channel)


def in_order(circuits: Iterable[Circuit]) -> list[Circuit]:
    """Circuits in the order of their first rows."""
    return sorted(circuits, key=lambda one: one.first_row)


def assign(circuits: Iterable[Circuit], header: Header, ledger: Ledger) -> None:
    """Gives all circuits their channels, in the order of the first rows."""
    channels, running = Channels(header), list[tuple[int, int]]()
    for circuit in in_order(circuits):
        while running and running[0][0] < circuit.first_row:
            channels.release(heapq.heappop(running)[1])
        if not channels.give(circuit):
            words = f"frame {circuit.frame}: connection {circuit.number} gets no channel, {circuit.rows} packets"
            ledger.damaged(Reason.NO_CHANNEL, words, circuit.rows)
        elif circuit.is_free and circuit.channel is not None:
            heapq.heappush(running, (circuit.last_row, circuit.channel))

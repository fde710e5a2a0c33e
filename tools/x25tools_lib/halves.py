"""Which rows of a trace belong to something that was recorded in one direction only."""
from __future__ import annotations

from bisect import bisect_right
from collections.abc import Iterator

from .notes import MOST_CIRCUITS, Half, Head


class Halves:
    """The channels of which, from a row on, one side only was recorded."""

    def __init__(self, head: Head) -> None:
        self.all, self.circuits = head.halves, head.circuits
        self.is_whole_line = any(not half.connections for half in self.all)
        self.is_cut = len(head.circuits) >= MOST_CIRCUITS
        self.alone = {number: half.side for half in self.all for number in half.connections}
        # For each channel the first rows of its circuits, and for each circuit the only side that was recorded.
        self.rows: dict[int, list[int]] = {}
        self.sides: dict[int, list[str | None]] = {}
        for circuit in head.circuits if self.alone else ():
            self.rows.setdefault(circuit.channel, []).append(circuit.row)
            self.sides.setdefault(circuit.channel, []).append(self.alone.get(circuit.connection))

    def __bool__(self) -> bool:
        return bool(self.all)

    def side(self, channel: int | None, packet: int) -> str | None:
        """The only side that was recorded of a packet's circuit or line; None where both were."""
        if self.is_whole_line:
            return self.all[0].side
        at = bisect_right(self.rows.get(channel or 0, ()), packet) - 1
        if at >= 0:
            return self.sides[channel or 0][at]
        return self.all[0].side if self.all and self.is_cut else None

    def sentences(self, first: int) -> Iterator[tuple[int, str]]:
        """Sentences on what was recorded in one direction, each with its first row; the one on the whole line comes first."""
        if self.is_whole_line:
            yield first, self.all[0].text
            return
        for circuit in self.circuits:
            if side := self.alone.get(circuit.connection) if self.alone else None:
                yield circuit.row, Half(side, (circuit.connection,)).text

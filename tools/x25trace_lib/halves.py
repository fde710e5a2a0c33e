"""Which connections were recorded in one direction only, or whether the whole line was."""
from __future__ import annotations

from collections.abc import Collection

from x25tools_lib.choices import Carrier
from x25tools_lib.notes import Half
from x25tools_lib.sides import Side

from .lines import Line
from .reading import Reading


def halves_of(reading: Reading, line: Line, sides: Collection[Side]) -> list[Half]:
    """What was recorded of one side only, where the other side surely or probably sent packets too.

    The sides are those of all packets of a link.
    """
    if line.carrier is Carrier.XOT:
        found: dict[Side, list[int]] = {side: [] for side in Side}
        for circuit in reading.xot.circuits:
            if circuit.rows and circuit.side and circuit.is_half:
                found[circuit.side].append(circuit.number)
        return [Half(side.letter, tuple(numbers)) for side, numbers in found.items() if numbers]
    side, *others = sides
    if others or line.lapb and not line.lapb.lacks(side.other):
        return []
    return [Half(side.letter, (), line.carrier is Carrier.LAPB)]

"""Whether the interfaces of a pcapng file have a link each."""
from __future__ import annotations

from x25tools_lib.choices import Carrier

from .frames import Direction, Frame

# Of so many interfaces the ends are kept.
MOST = 64
# What distinguishes the two ends of a link: a link address, a direction, or the address octet of an I frame.
End = bytes | Direction | int


class Interfaces:
    """The ends that send on each interface, by what carries their packets.

    One link may be recorded by an interface for each wire, and the files of a rotated capture, joined, have an interface each.
    So interfaces have a link each where they come by turns, and both ends send on one of them.
    """

    def __init__(self) -> None:
        self.ends: dict[tuple[Carrier, int], set[End]] = {}
        self.last: dict[Carrier, int] = {}
        # What has come back to an interface after another one.
        self.in_turns: set[Carrier] = set()

    def see(self, carrier: Carrier, frame: Frame, at: int) -> None:
        """Reads a frame with LAPB or a packet at an offset."""
        key = carrier, frame.interface
        if (ends := self.ends.get(key)) is None:
            if len(self.ends) == MOST:
                return
            ends = self.ends[key] = set()
        elif self.last.get(carrier) != frame.interface:
            self.in_turns.add(carrier)
        self.last[carrier] = frame.interface
        if frame.source:
            ends.add(frame.source)
        elif frame.direction is not Direction.UNKNOWN:
            ends.add(frame.direction)
        elif carrier is Carrier.LAPB and len(frame.octets) > at + 1 and not frame.octets[at + 1] & 1:
            ends.add(frame.octets[at])

    def parted(self) -> list[int]:
        """The interfaces with a link each; none where there is one link, as far as they show."""
        for carrier in self.in_turns:
            numbers = [number for kind, number in self.ends if kind is carrier]
            if any(len(self.ends[carrier, number]) > 1 for number in numbers):
                return sorted(numbers)
        return []

"""The frames of packets, numbered as Wireshark numbers them."""
from __future__ import annotations

from array import array
from bisect import bisect_right

# The distance of an unknown frame: no frame is so far before its packet.
UNKNOWN = -(1 << 62)


def frame_name(packet: int, frame: int | None, form: str = ",") -> str:
    """The name of a packet: its frame where that is known, with the packet's number where that differs."""
    own = f"packet {packet:{form}}"
    if frame is None:
        return own
    return f"frame {frame:{form}}" + ("" if frame == packet else f" ({own})")


class Frames:
    """The frames of the packets of a trace, in runs of packets with equal distance to their frames."""

    def __init__(self) -> None:
        self.firsts, self.distances = array("q"), array("q")
        self.distance = UNKNOWN

    def add(self, packet: int, frame: int | None) -> None:
        """Adds the frame of the next packet, where it is known."""
        distance = UNKNOWN if frame is None else frame - packet
        if distance != self.distance:
            self.distance = distance
            self.firsts.append(packet)
            self.distances.append(distance)

    @property
    def begun(self) -> int | None:
        """The first packet whose frame is known, or None."""
        return self.firsts[0] if self.firsts else None

    def of(self, packet: int) -> int | None:
        """The frame of a packet, where it is known."""
        at = bisect_right(self.firsts, packet) - 1
        known = at >= 0 and self.distances[at] != UNKNOWN
        return packet + self.distances[at] if known else None

    def name(self, packet: int, form: str = ",") -> str:
        """The name of a packet."""
        return frame_name(packet, self.of(packet), form)

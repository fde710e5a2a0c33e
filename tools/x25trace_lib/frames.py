"""A recorded frame, whatever the file's format."""
from __future__ import annotations

import enum
from dataclasses import dataclass


class Direction(enum.Enum):
    """The direction of a frame in a capture, seen from the recording host."""

    UNKNOWN = 0
    RECEIVED = 1
    SENT = 2


# The direction by the packet type of a Linux cooked header; 3 means a frame between other hosts.
KINDS_OF_PACKET = {
    0: Direction.RECEIVED,
    1: Direction.RECEIVED,
    2: Direction.RECEIVED,
    4: Direction.SENT,
}


def without_check(octets: bytes, length: int, check: int) -> tuple[bytes, int]:
    """The octets and the length of a frame without its check sequence. One that is not longer counts as cut off."""
    return octets[:max(length - check, 0)], max(length - check, 1)


@dataclass(slots=True)
class Dropped:
    """A place where the capture has a number of dropped frames: before a frame, or after the last one so far.

    The number is 0 where the file is damaged and frames may be missing.
    """

    number: int
    time: int | None
    many: int
    interface: int = 0


@dataclass(slots=True)
class Frame:
    """One frame: its number as Wireshark counts, its link type, the octets kept, and its length on the line."""

    number: int
    link: int | str | None
    octets: bytes
    length: int
    direction: Direction
    interface: int = 0
    # Nanoseconds since 1970, where the capture has them.
    time: int | None = None
    # The number of tunnels around it.
    depth: int = 0
    # The number of the Linux device that had it, where the capture has that.
    device: int | None = None
    # The source address of its link header, where that is read.
    source: bytes = b""

    def within(self, begin: int, end: int, octets: bytes) -> Frame:
        """The frame in the octets of a tunnel, which may be cut off before its end."""
        return Frame(self.number, self.link, octets[begin:end], end - begin, self.direction, self.interface, self.time,
                     self.depth + 1)

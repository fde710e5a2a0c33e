"""The most calls that were up at once, where the connections of some ended without a clear."""
from __future__ import annotations

from array import array

# The end of a call that has none.
NEVER = (1 << 63) - 1


class Peak:
    """The greatest number of calls that were up at once.

    It is that of the report, except where connections ended without a clear: their calls are counted up to that frame, and
    from the first of these frames on they may have gone on.
    """

    def __init__(self) -> None:
        self.ups, self.ends = array("q"), array("q")
        self.cut_off, self.unknown_from = 0, 0

    def add(self, up: int | None, ended: int | None, cut_off: int | None) -> None:
        """Adds a call: the packets that brought it up and ended it, and the frame in which its connection ended, if it is open."""
        if up is not None:
            self.ups.append(up)
            self.ends.append(NEVER if ended is None and cut_off is None else ended or cut_off or up)
        if cut_off is not None:
            self.cut_off += 1
            self.unknown_from = min(self.unknown_from or cut_off, cut_off)

    def lines(self, reported: list[int]) -> list[int]:
        """The peak and its first packet; then the number of calls that were cut off, and the first frame of that, if there are any."""
        if not self.cut_off:
            return reported
        most, first, at, ends = 0, 0, 0, sorted(self.ends)
        for many, up in enumerate(sorted(self.ups), 1):
            while ends[at] < up:
                at += 1
            if many - at > most:
                most, first = many - at, up
        return [*min((most, first), (reported[0], reported[1])), self.cut_off, self.unknown_from]

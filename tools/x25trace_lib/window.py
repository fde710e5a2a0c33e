"""The last packets of the links of a capture, among which gaps and late packets get their places before they become rows."""
from __future__ import annotations

from collections import deque
from collections.abc import Iterator
from itertools import chain, pairwise

from .lines import Line
from .packets import Item, Missing, Packet

Placed = tuple[Line | None, Item]


class Window:
    """Comments, and packets and gaps of links, in the order of their rows. Several gaps without a packet between them are one.

    A packet of a LAPB link goes to the place of its frame. Where the numbers of a link show that frames were lost, and not
    where, a gap comes before each packet that may be the first one after them. Both reach back over MOST packets and gaps.
    """

    MOST = 1000

    def __init__(self) -> None:
        self.entries: list[str | Placed] = []
        self.rows = 0
        # The last gaps of each link whose place is not known: the frames after which and up to which packets may be missing.
        self.ranges: deque[tuple[Line, int, int]] = deque(maxlen=self.MOST)
        # The links whose last entry that was taken out is a gap of all channels, and those with another one; None: of all links.
        self.gapped: set[Line | None] = set()
        self.others: set[Line | None] = set()

    @property
    def is_full(self) -> bool:
        """Whether it has twice as many packets and gaps as late ones reach back over."""
        return self.rows >= 2 * self.MOST

    def note(self, words: str) -> None:
        """Adds a comment."""
        self.entries.append(words)

    def add(self, line: Line | None, item: Item) -> None:
        """Adds a packet or a gap of a link, or a gap of all links."""
        last = self.entries[-1] if self.entries else ""
        if isinstance(item, Packet) and last and not isinstance(last, str) and last[0] is line and last[1].frame <= item.frame:
            # Most packets come after the last one of their link.
            self.rows += 1
            self.entries.append((line, item))
        elif line and line.lapb:
            self.place(line, item)
        else:
            self.insert(len(self.entries), line, item)

    def place(self, line: Line, item: Item) -> None:
        """Puts a packet or a gap of a LAPB link to its place, and the other gaps of its range."""
        at, after = len(self.entries), None
        for place, other in self.back(line, at):
            if other.frame <= item.frame:
                break
            at, after = place, other
        if isinstance(item, Missing) and item.since is not None:
            at += self.spread(line, at, item.since)
            self.ranges.append((line, item.since, item.frame))
        if after:
            # This one comes between that one and its gap.
            self.mark(line, at, after)
        self.insert(at, line, item)
        self.mark(line, at, item)

    def mark(self, line: Line, at: int, item: Item) -> None:
        """Puts a gap before a packet at a place, or the gap of one, where it is in a range."""
        if not is_gap(item) and any(its is line and since < item.frame <= to for its, since, to in self.ranges):
            self.insert(at, line, Missing(item.frame, item.time))

    def spread(self, line: Line, end: int, since: int) -> int:
        """Puts a gap before each packet of a link, or the gap of one, after a frame up to a place; returns how many were put."""
        places = []
        before: Iterator[tuple[int, Item | None]] = chain(self.back(line, end), ((0, None),))
        for (place, item), (_, earlier) in pairwise(before):
            if item is None or item.frame <= since:
                break
            if not is_gap(item) and not is_gap(earlier):
                self.insert(place, line, Missing(item.frame, item.time))
                places.append(place)
        return len(places)

    def insert(self, at: int, line: Line | None, item: Item) -> None:
        self.rows += 1
        self.entries.insert(at, (line, item))

    def back(self, line: Line, end: int) -> Iterator[tuple[int, Item]]:
        """The packets and gaps of a link before a place, the last one first, each with its place."""
        left = self.MOST
        for at in range(len(self.entries) - 1, -1, -1):
            entry = self.entries[at]
            if isinstance(entry, str):
                continue
            if not left:
                return
            left -= 1
            if at < end and entry[0] in (line, None):
                yield at, entry[1]

    def first(self, most: int) -> list[str | Placed]:
        """Takes out everything before the last packets and gaps, of which so many stay, without gaps that repeat one."""
        at = 0
        while self.rows > most:
            self.rows -= not isinstance(self.entries[at], str)
            at += 1
        if not most:
            at = len(self.entries)
        taken = [entry for entry in self.entries[:at] if isinstance(entry, str) or not self.repeats(*entry)]
        del self.entries[:at]
        return taken

    def repeats(self, line: Line | None, item: Item) -> bool:
        """Whether an entry that is taken out is the gap of all channels that the last one of its link is."""
        if not is_gap(item):
            self.gapped -= {line, None}
            self.others.add(line)
            return False
        if self.gapped & {line, None} or not line and self.gapped and not self.others:
            return True
        self.gapped |= {line} if line else {None, *self.others}
        self.others -= self.gapped
        return False


def is_gap(item: Item | None) -> bool:
    """Whether an item is a gap of all channels."""
    return isinstance(item, Missing) and item.channel is None

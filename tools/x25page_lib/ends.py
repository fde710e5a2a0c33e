"""The two ends of an interface: the host, or the link address, of each, where the reading of the capture knows it."""
from __future__ import annotations

import re
from bisect import bisect_right
from collections.abc import Iterator
from dataclasses import dataclass

from x25tools_lib.notes import MOST_CIRCUITS, Head

from .rows import SIDES

# An address is not longer, nor does it have a space.
HOST = r"(\S{1,64})"
CONNECTION = re.compile(rf"connection (\d{{1,9}}) is channel .*?: {HOST} port \d+ \(([TN])\) and {HOST} port \d+ \(([TN])\)")
CUT_OFF = re.compile(r"; it ends in frame (\d{1,12}) without a clear$")
# The comment on the ends of a line or of all circuits, and on what their sides rest.
RECORDER, OTHER = "the recording host", "the other host"
NAME = rf"({RECORDER}|{OTHER}|[\d,]{{1,9}} hosts|\S{{1,64}})"
LINE = re.compile(rf"{NAME} (?:is|are) taken for the DTE and {NAME} for the DCE(?:: (.*))?")


@dataclass(frozen=True)
class Ends:
    """The hosts of the DTE and of the DCE, None where they are not known, and their XOT connection.

    `connection` is its number, and `cut_off` the frame in which it ended without a clear.
    """

    hosts: tuple[str | None, str | None] = (None, None)
    connection: int | None = None
    cut_off: int | None = None


UNKNOWN = Ends()


def ends_of(words: str) -> Ends:
    """The ends that the comment on a connection names."""
    match = CONNECTION.match(words)
    if not match:
        return UNKNOWN
    number, first, side, second, other = match.groups()
    by_side = {side: first, other: second}
    end = CUT_OFF.search(words)
    return Ends((by_side.get("T"), by_side.get("N")), int(number), int(end[1]) if end else None)


class AllEnds:
    """The ends of all circuits of a trace."""

    def __init__(self, head: Head) -> None:
        self.line, self.basis, self.said = UNKNOWN, "", ""
        for match in filter(None, map(LINE.fullmatch, head.comments)):
            hosts = [None if name.endswith(" hosts") else name for name in (match[1], match[2])]
            self.line, self.basis, self.said = Ends((hosts[0], hosts[1])), match[3] or "", match[0]
        self.circuits = [(it.row, it.channel, ends_of(it.words)) for it in head.circuits]
        # Beyond this row the circuit of a channel may be one that is not kept.
        is_cut = len(head.circuits) >= MOST_CIRCUITS
        self.known_to = head.circuits[-1].row if is_cut else None
        self.rows: dict[int, list[int]] = {}
        self.ends: dict[int, list[Ends]] = {}
        for row, channel, ends in self.circuits:
            self.rows.setdefault(channel, []).append(row)
            self.ends.setdefault(channel, []).append(ends)

    def of(self, channel: int | None, packet: int) -> Ends:
        """The ends of a packet."""
        if channel not in self.rows or channel is None:
            return self.line
        if self.known_to is not None and packet > self.known_to:
            return UNKNOWN
        at = bisect_right(self.rows[channel], packet) - 1
        return self.ends[channel][at] if at >= 0 else UNKNOWN

    @property
    def are_cut_off(self) -> bool:
        """Whether a connection ended without a clear."""
        return any(ends.cut_off is not None for *_, ends in self.circuits)

    def all(self) -> Iterator[Ends]:
        """The ends of the line and of each circuit."""
        yield self.line
        yield from (ends for *_, ends in self.circuits)

    def hosts(self) -> list[dict[str, int]]:
        """The hosts of each side, each with the number of its connections."""
        found: list[dict[str, int]] = [{} for _ in SIDES]
        for ends in self.all():
            for side, host in enumerate(ends.hosts):
                if host is not None:
                    found[side][host] = found[side].get(host, 0) + (ends.connection is not None)
        return found

"""Frames of a pcap file: both byte orders, micro- and nanoseconds, and the modified forms, some with a direction.

After a damaged record the next one is sought.
"""
from __future__ import annotations

import re
import struct
from collections.abc import Iterable, Iterator, Sequence

from x25tools_lib.ledger import Ledger, Reason
from x25tools_lib.notes import SECOND
from x25tools_lib.refusals import Refusal, Why

from .frames import KINDS_OF_PACKET, Direction, Dropped, Frame, without_check
from .source import Source, zeros_before

FILE_HEADER = 24
# How long a record's header may be. The first one is that of the form; the others are those of old forms, whose magic
# numbers are the same: of Red Hat 6.1 and Nokia, and of SuSE 6.3.
RECORD_HEADERS = (16, 24, 20)
MODIFIED_HEADERS = (24, 28)
NANOSECOND_HEADERS = (16,)
# The modified forms have the interface, protocol and packet type after the header that all forms have.
KIND_AT = 22
# By magic number as in the file: byte order, units of a second, and the sizes of a record's header.
MAGICS = {
    b"\xa1\xb2\xc3\xd4": (">", 1_000_000, RECORD_HEADERS),
    b"\xd4\xc3\xb2\xa1": ("<", 1_000_000, RECORD_HEADERS),
    b"\xa1\xb2\x3c\x4d": (">", 1_000_000_000, NANOSECOND_HEADERS),
    b"\x4d\x3c\xb2\xa1": ("<", 1_000_000_000, NANOSECOND_HEADERS),
    b"\xa1\xb2\xcd\x34": (">", 1_000_000, MODIFIED_HEADERS),
    b"\x34\xcd\xb2\xa1": ("<", 1_000_000, MODIFIED_HEADERS),
}
# How many octets a record may always have, and at most.
LARGEST, MOST = 262_144, 1 << 24
DAYS = 30 * 86_400
WINDOW = 1 << 20


class Pcap:
    """The records of one pcap file; the number is that of the last frame, at first that of the file before."""

    def __init__(self, source: Source, ledger: Ledger, number: int) -> None:
        self.source, self.ledger, self.number = source, ledger, number
        order, self.parts, sizes = MAGICS[source.peek(4)]
        self.highest = 0 if order == ">" else 3
        self.record = struct.Struct(order + "IIII")
        header = source.read(FILE_HEADER)
        if len(header) < FILE_HEADER:
            raise Refusal(Why.UNKNOWN_FORMAT, f"{source.name} ends at offset {len(header)}, inside of the pcap header")
        self.snap, network = struct.unpack(order + "16xII", header)
        self.link = network & 0xFFFF
        # The octets of the frame check sequence at the end of each frame: given in pairs, where bit 26 is set.
        self.check = 2 * (network >> 28) if network & 1 << 26 else 0
        self.largest = min(max(self.snap, LARGEST), MOST)
        self.seconds = None
        self.header_size = self.fitting(sizes)
        # The octets of the last frame and its length on the line, with its frame check sequence.
        self.recorded = b"", 0

    def fitting(self, sizes: Sequence[int]) -> int:
        """The first size of a record's header with which the first records follow each other, else the form's own size."""
        if not self.source.can_wait:
            return sizes[0]
        window = self.source.peek(WINDOW)
        for self.header_size in sizes:
            if self.is_record(window, 0):
                return self.header_size
        return sizes[0]

    def frames(self) -> Iterator[Frame | Dropped]:
        read, unpack, largest = self.source.read, self.record.unpack_from, self.largest
        size, nanoseconds = self.header_size, SECOND // self.parts
        while True:
            header = read(size)
            if len(header) < size:
                self.end_inside(header)
                return
            seconds, part, kept, length = unpack(header)
            if kept > largest or not length:
                # No frame has no octet: after a power cut the rest of a file may be zeros.
                self.source.unread(header)
                self.seek(f"a record of {kept} octets")
                yield Dropped(self.number + 1, None, 0)
                continue
            octets = read(kept)
            self.number += 1
            if len(octets) < kept:
                words = f"frame {self.number}: the file ends after {len(octets)} of its {kept} octets"
                self.damage(self.source.offset - len(octets) - size, words)
            self.seconds = seconds
            length = max(length, kept)
            self.recorded = octets, length
            if self.check:
                octets, length = without_check(octets, length, self.check)
            direction = Direction.UNKNOWN
            if size > KIND_AT:
                direction = KINDS_OF_PACKET.get(header[KIND_AT], direction)
            yield Frame(self.number, self.link, octets, length, direction, 0, seconds * SECOND + part * nanoseconds)

    def damage(self, start: int, words: str) -> None:
        self.ledger.damaged(Reason.BAD_FILE, f"{self.source.place(start)}: {words}")

    def end_inside(self, header: bytes) -> None:
        if header:
            start = self.source.offset - len(header)
            self.damage(start, f"the file ends inside of a record's header, {len(header)} octets are left out")

    def seek(self, what: str) -> None:
        """Skips to the next place where records may begin again, and reports how far it is."""
        start = self.source.offset
        while True:
            window = self.source.peek(WINDOW)
            if (zeros := zeros_before(window, self.header_size)):
                self.source.skip(zeros)
                continue
            at = self.next_record(window)
            if at is not None:
                self.source.skip(at)
                break
            self.source.skip(WINDOW // 2 if len(window) == WINDOW else len(window))
            if len(window) < WINDOW:
                break
        passed = self.source.offset - start
        self.damage(start, f"{what} cannot be: {passed} octets are left out, frame numbers go on after them")

    def next_record(self, window: bytes) -> int | None:
        """Where in a window two records follow each other, or one that ends with the file."""
        return next((at for at in self.places(window) if self.is_record(window, at)), None)

    def is_record(self, window: bytes, at: int) -> bool:
        """Whether a record is at an offset, followed by another one or the end of the file."""
        kept = self.plausible(window, at)
        if kept is None:
            return False
        after = at + self.header_size + kept
        return after == len(window) < WINDOW or self.plausible(window, after) is not None

    def places(self, window: bytes) -> Iterable[int]:
        """Offsets where a record may begin: all, or those where the highest octet of the seconds is near the last record's."""
        if self.seconds is None:
            return range(1, len(window))
        near = {(self.seconds + way * DAYS) >> 24 & 255 for way in (-1, 0, 1)}
        octets = re.compile(b"[" + b"".join(re.escape(bytes((octet,))) for octet in near) + b"]", re.DOTALL)
        return (match.start() - self.highest for match in octets.finditer(window, self.highest + 1))

    def plausible(self, window: bytes, at: int) -> int | None:
        """The number of octets that a record at an offset keeps; None where no record can begin there."""
        if at + self.header_size > len(window):
            return None
        seconds, part, kept, length = self.record.unpack_from(window, at)
        if not 0 < kept <= length <= self.largest or part >= self.parts:
            return None
        near = self.seconds is None or abs(seconds - self.seconds) <= DAYS
        return kept if near else None

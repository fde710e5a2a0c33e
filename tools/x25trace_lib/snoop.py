"""Frames of a snoop file (RFC 1761)."""
from __future__ import annotations

import struct
from collections.abc import Iterator

from x25tools_lib.ledger import Ledger, Reason
from x25tools_lib.notes import SECOND
from x25tools_lib.refusals import Refusal, Why

from .frames import Direction, Dropped, Frame
from .source import Source

MAGIC = b"snoop\0\0\0"
FILE_HEADER = struct.Struct(">8xII")
# The length on the line, the octets kept, the length of the record, the frames dropped so far, and the time.
RECORD = struct.Struct(">IIIIII")
LARGEST = 262_144
# The link types of pcap files for those of snoop.
LINKS = {0: 1, 4: 1}


class Snoop:
    """The records of one snoop file; the number is that of the last frame, at first that of the file before."""

    def __init__(self, source: Source, ledger: Ledger, number: int) -> None:
        self.source, self.ledger, self.number = source, ledger, number
        header = source.read(FILE_HEADER.size)
        if len(header) < FILE_HEADER.size:
            raise Refusal(Why.UNKNOWN_FORMAT, f"{source.name} ends at offset {len(header)}, inside of the snoop header")
        version, link = FILE_HEADER.unpack(header)
        if version != 2:
            raise Refusal(Why.UNKNOWN_FORMAT, f"{source.name} is a snoop file of version {version}, not 2")
        self.link = LINKS.get(link, f"{link} of snoop")
        self.snap, self.check, self.parts = LARGEST, 0, 1_000_000
        # The octets of the last frame and its length on the line.
        self.recorded = b"", 0
        self.dropped = 0

    def frames(self) -> Iterator[Frame | Dropped]:
        while True:
            start = self.source.offset
            header = self.source.read(RECORD.size)
            if len(header) < RECORD.size:
                if header:
                    self.damage(start, "the file ends inside of a record's header")
                return
            length, kept, size, dropped, seconds, part = RECORD.unpack(header)
            if not RECORD.size + kept <= size <= LARGEST:
                self.damage(start, f"a record of {size} octets that keeps {kept} cannot be: the rest is left out")
                return
            octets = self.source.read(size - RECORD.size)[:kept]
            self.number += 1
            if len(octets) < kept:
                words = f"frame {self.number}: the file ends after {len(octets)} of its {kept} octets"
                self.damage(start, words)
            self.recorded = octets, max(length, kept)
            time = seconds * SECOND + part * (SECOND // self.parts)
            octets, length = self.recorded
            if dropped > self.dropped:
                yield Dropped(self.number, time, dropped - self.dropped)
            self.dropped = dropped
            yield Frame(self.number, self.link, octets, length, Direction.UNKNOWN, 0, time)

    def damage(self, start: int, words: str) -> None:
        self.ledger.damaged(Reason.BAD_FILE, f"{self.source.place(start)}: {words}")

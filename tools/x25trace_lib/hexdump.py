"""Frames of a hex dump as text2pcap reads it: lines of an offset and octets, each frame beginning with offset 0."""
from __future__ import annotations

import re
from collections.abc import Iterator

from x25tools_lib.ledger import Ledger, Reason

from .frames import Direction, Frame
from .source import Source

# An offset of three hex digits or more, perhaps a colon, and what follows it.
LINE = re.compile(rb"\s*([0-9A-Fa-f]{3,}):?(?:\s+(.*))?$")
OCTET = re.compile(rb"[0-9A-Fa-f]{2}$")
DIRECTIONS = {b"I": Direction.RECEIVED, b"O": Direction.SENT}
LARGEST = 262_144


def is_dump(octets: bytes) -> bool:
    """Whether the beginning of a file looks like a hex dump: text, with a line of offset 0 and an octet."""
    if b"\0" in octets:
        return False
    matches = filter(None, map(LINE.match, octets.splitlines()))
    return any(int(match[1], 16) == 0 and octets_of(match[2] or b"") for match in matches)


def octets_of(words: bytes) -> bytes:
    """The octets at the beginning of a line; what follows them, or three spaces, is the text column."""
    octets = []
    for word in words.split(b"   ")[0].split():
        if not OCTET.match(word):
            break
        octets.append(int(word, 16))
    return bytes(octets)


class HexDump:
    """The frames of one hex dump; the line before a frame may say I or O first, for received or sent."""

    def __init__(self, source: Source, ledger: Ledger, number: int) -> None:
        self.source, self.ledger, self.number = source, ledger, number
        self.octets: bytearray | None = None
        # The offset of the last line, and the frame's length: greater than its octets once a line could not be placed.
        self.begun = self.length = 0
        self.direction = self.coming = Direction.UNKNOWN

    def frames(self) -> Iterator[Frame]:
        for offset, line in self.source.lines():
            match = LINE.match(line)
            octets = octets_of(match[2] or b"") if match else b""
            if not match or not octets:
                self.coming = self.said(line)
                continue
            at = int(match[1], 16)
            if at == 0:
                yield from self.finished()
                self.octets, self.begun, self.length = bytearray(), -1, 0
                self.direction, self.coming = self.coming, Direction.UNKNOWN
            if not self.place(at, octets):
                words = f"a line of the hex dump at {at:X}, where {len(self.octets or b''):X} is next"
                self.ledger.damaged(Reason.BAD_LINE, f"{self.source.place(offset)}: {words}")
        yield from self.finished()

    def said(self, line: bytes) -> Direction:
        """The direction in a line other than a dump: its first word, unless the line is a comment or empty."""
        words = line.split()
        if not words or words[0].startswith(b"#"):
            return self.coming
        return DIRECTIONS.get(words[0], Direction.UNKNOWN)

    def place(self, at: int, octets: bytes) -> bool:
        """Puts a line's octets at its offset: after those before, whose end may be characters of the text column."""
        if self.octets is None:
            return False
        if not self.begun < at <= len(self.octets) or at + len(octets) > LARGEST or self.length > len(self.octets):
            self.length = max(self.length, len(self.octets) + 1)
            return False
        del self.octets[at:]
        self.octets += octets
        self.begun, self.length = at, len(self.octets)
        return True

    def finished(self) -> Iterator[Frame]:
        if self.octets:
            self.number += 1
            yield Frame(self.number, None, bytes(self.octets), self.length, self.direction)
        self.octets = None

"""The octets of a file or a pipe, with the offset of the next one; octets that were peeked at are read again.

A gzip file is read unpacked, and offsets are those of the unpacked octets.
"""
from __future__ import annotations

import contextlib
from collections.abc import Iterator, Sequence
from typing import BinaryIO

from x25tools_lib.packed import MAGIC, More, Packed, beginning
from x25tools_lib.streams import CHUNK, Waiting, open_input, shown_name

LONGEST_LINE = 1 << 20


class Source:
    """A stream, and what was read from it: `ahead` has the octets, of which those before `at` were used."""

    def __init__(self, stream: BinaryIO, waiting: Waiting, name: str, several: bool) -> None:
        self.stream, self.waiting, self.name, self.several = stream, waiting, name, several
        # The octets kept, their offset in the file, and how many of them were read.
        self.ahead = b""
        self.begun = self.at = 0
        # A function that returns the next octets, set with the first ones; and what is wrong with a gzip file.
        self.more: More | None = None
        self.is_packed = False
        self.damages: list[str] = []

    @property
    def can_wait(self) -> bool:
        """Whether more octets may be looked at than what comes next: those of a file are all there."""
        return self.stream.seekable()

    @property
    def offset(self) -> int:
        """The offset of the next octet in the file."""
        return self.begun + self.at

    def place(self, offset: int) -> str:
        """An offset in words, with the name of the file where there are several."""
        return f"{self.name}, offset {offset}" if self.several else f"offset {offset}"

    def fill(self, many: int) -> None:
        """Reads from the stream until this number of octets is ahead, or it ends. An interruption keeps those that were read."""
        parts = [self.ahead[self.at:]]
        there = len(parts[0])
        try:
            while there < many and (octets := self.coming()):
                parts.append(octets)
                there += len(octets)
        finally:
            self.begun += self.at
            self.ahead, self.at = b"".join(parts), 0

    def coming(self) -> bytes:
        """Returns the next octets of the stream, unpacked for a gzip file; none at the end."""
        if self.more is None:
            stream, wait = self.stream, self.waiting.octets
            start = beginning(lambda: wait(stream))
            self.is_packed = start.startswith(MAGIC)
            if not self.is_packed:
                self.more = lambda: wait(stream)
                return start
            self.more = Packed(start, lambda: wait(stream), self.damages.append).octets
        return self.more()

    def rest(self) -> bytes:
        """Returns the octets that are ahead, else the next ones; none at the end."""
        if self.at == len(self.ahead):
            self.fill(1)
        return self.read(len(self.ahead) - self.at)

    def read(self, many: int) -> bytes:
        """Returns the next octets; fewer where the file ends."""
        octets = self.ahead[self.at:self.at + many]
        if len(octets) < many:
            self.fill(many)
            octets = self.ahead[:many]
        self.at += len(octets)
        return octets

    def unread(self, octets: bytes) -> None:
        """Puts back what was read last."""
        self.at -= len(octets)

    def peek(self, many: int) -> bytes:
        """Returns what `read` would return, without consuming it."""
        if len(self.ahead) - self.at < many:
            self.fill(many)
        return self.ahead[self.at:self.at + many]

    def look(self, many: int) -> bytes:
        """Returns all octets ahead without consuming them: at least this number, unless the file ends before."""
        self.peek(many)
        return self.ahead[self.at:]

    def skip(self, many: int) -> int:
        """Skips octets, in pieces; returns how many there were."""
        skipped = 0
        while skipped < many:
            octets = self.read(min(many - skipped, CHUNK))
            if not octets:
                break
            skipped += len(octets)
        return skipped

    def lines(self) -> Iterator[tuple[int, bytes]]:
        """The remaining lines, without their ends, each with its offset."""
        while rest := self.read(self.line_length()):
            at = self.offset - len(rest)
            for line in rest.splitlines(keepends=True):
                yield at, line.rstrip(b"\r\n")
                at += len(line)

    def line_length(self) -> int:
        """How many octets there are up to the next line feed, or to the end; a line without one is cut."""
        seen = 0
        while True:
            end = self.ahead.find(b"\n", self.at + seen) + 1
            if end:
                return end - self.at
            seen = len(self.ahead) - self.at
            if seen >= LONGEST_LINE or len(self.peek(seen + 1)) == seen:
                return seen


def zeros_before(window: bytes, least: int) -> int:
    """How many octets of a window to skip where it begins with zeros, as after a power cut: whole words, but not the last ones.

    A record may begin with fewer zeros than the least number.
    """
    zeros = len(window) - len(window.lstrip(b"\0"))
    return (zeros - least) // 4 * 4 if zeros >= 2 * least else 0


@contextlib.contextmanager
def first_source(names: Sequence[str], waiting: Waiting) -> Iterator[Source]:
    """The octets of the first of some files."""
    with open_input(names[0]) as stream:
        yield Source(stream, waiting, shown_name(names[0]), len(names) > 1)

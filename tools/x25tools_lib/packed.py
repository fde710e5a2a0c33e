"""The octets of a gzip file, unpacked as they come."""
from __future__ import annotations

import contextlib
import zlib
from collections.abc import Callable

MAGIC = b"\x1f\x8b"
ENDING = ".gz"
# The window of zlib for gzip, with its header and its sums.
GZIP = 16 + zlib.MAX_WBITS
# The octets that are unpacked at once; they give at most 16 MiB.
SLICE = 1 << 14
# A function that returns the next octets, none at the end; and one that reports damage.
More = Callable[[], bytes]
Damaged = Callable[[str], object]


class Packed:
    """A gzip stream: the members one after the other, up to the first damage."""

    def __init__(self, start: bytes, more: More, damaged: Damaged) -> None:
        self.more, self.damaged = more, damaged
        # The octets read and not unpacked yet, and the object that unpacks their member.
        self.ahead = start
        self.member = zlib.decompressobj(GZIP)
        self.is_over = False

    def octets(self) -> bytes:
        """Returns the next octets; none at the end."""
        while not self.is_over:
            if not self.ahead and not self.comes():
                self.end()
            elif octets := self.unpacked():
                return octets
        return b""

    def comes(self) -> bool:
        """Whether the file has more octets."""
        coming = self.more()
        self.ahead += coming
        return bool(coming)

    def unpacked(self) -> bytes:
        """What the next slice holds, up to the end of its member."""
        if self.member.eof and not self.begins_again():
            return b""
        octets, self.ahead = self.ahead[:SLICE], self.ahead[SLICE:]
        before = self.member.copy()
        try:
            found = self.member.decompress(octets)
        except zlib.error as fault:
            self.stop(f"its gzip data is damaged ({str(fault).rpartition(': ')[2]})")
            return up_to_damage(before, octets)
        self.ahead = self.member.unused_data + self.ahead
        return found

    def begins_again(self) -> bool:
        """Whether another member follows; zeros may come before it."""
        self.ahead = self.ahead.lstrip(b"\0")
        while 0 < len(self.ahead) < len(MAGIC) and self.comes():
            pass
        if self.ahead.startswith(MAGIC):
            self.member = zlib.decompressobj(GZIP)
            return True
        if self.ahead:
            self.stop("its gzip data is followed by something else")
        return False

    def end(self) -> None:
        """Ends the file; the last member may be cut off."""
        self.is_over = True
        if not self.member.eof:
            self.damaged("its gzip data is cut off")

    def stop(self, words: str) -> None:
        """Ends the reading after damage."""
        self.is_over = True
        self.damaged(f"{words}: the rest is left out")


def up_to_damage(member: zlib._Decompress, octets: bytes) -> bytes:
    """What octets unpack to before the first damaged one."""
    parts = []
    with contextlib.suppress(zlib.error):
        for at in range(len(octets)):
            parts.append(member.decompress(octets[at:at + 1]))
    return b"".join(parts)


def beginning(more: More) -> bytes:
    """The first octets of a stream, enough to recognise a gzip file."""
    start = b""
    while len(start) < len(MAGIC) and (coming := more()):
        start += coming
    return start

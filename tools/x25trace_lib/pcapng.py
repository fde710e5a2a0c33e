"""Frames of a pcapng file: sections of either byte order, interfaces, and the three blocks that hold frames."""
from __future__ import annotations

import enum
import struct
from collections.abc import Callable, Iterator
from dataclasses import dataclass

from x25tools_lib.ledger import Ledger, Reason
from x25tools_lib.notes import SECOND
from x25tools_lib.refusals import Refusal, Why

from .frames import Direction, Dropped, Frame, without_check
from .source import Source, zeros_before

MAGIC = b"\x0a\x0d\x0d\x0a"
ORDERS = {b"\x1a\x2b\x3c\x4d": ">", b"\x4d\x3c\x2b\x1a": "<"}
SMALLEST = 12
LARGEST = 1 << 24
WINDOW = 1 << 20
# Options of an enhanced block, of an interface's statistics, and of its description.
FLAGS = 2
DROP_COUNT = 4
DROPPED_BY_INTERFACE, DROPPED_BY_SYSTEM = 5, 7
TIME_RESOLUTION = 9
CHECK_LENGTH = 13
TIME_OFFSET = 14


class Block(enum.IntEnum):
    """The types of blocks that are read, or that Wireshark numbers like frames."""

    SECTION = 0x0A0D0D0A
    INTERFACE = 1
    PACKET = 2
    SIMPLE = 3
    NAMES = 4
    STATISTICS = 5
    ENHANCED = 6
    JOURNAL = 9
    SECRETS = 10
    CUSTOM = 0xBAD
    CUSTOM_KEPT = 0x40000BAD


KNOWN = frozenset(Block)
# The number of dropped frames in an obsolete block that does not know it.
UNKNOWN_DROPS = 0xFFFF
DIRECTIONS = {0: Direction.UNKNOWN, 1: Direction.RECEIVED, 2: Direction.SENT, 3: Direction.UNKNOWN}


@dataclass(slots=True)
class Interface:
    """The part of an interface's description that its blocks need."""

    link: int
    snap: int
    check: int = 0
    # The units of its timestamps in a second, and the seconds to add to them.
    units: int = 1_000_000
    offset: int = 0
    # The number of dropped frames in its last statistics.
    dropped: int = 0

    def time(self, high: int, low: int) -> int:
        """The nanoseconds of a timestamp."""
        return self.offset * SECOND + (high << 32 | low) * SECOND // self.units


class Pcapng:
    """The blocks of one pcapng file; the number is that of the last frame, at first that of the file before."""

    def __init__(self, source: Source, ledger: Ledger, number: int) -> None:
        self.source, self.ledger, self.number = source, ledger, number
        if source.peek(SMALLEST)[8:] not in ORDERS:
            raise Refusal(Why.UNKNOWN_FORMAT, f"{source.name}: the section header at offset 0 has no byte-order magic")
        self.order = "<"
        self.interfaces: list[Interface] = []
        self.first_interface = 0
        # Whether the file is damaged before the next frame.
        self.is_damaged = False

    def frames(self) -> Iterator[Frame | Dropped]:
        for start, kind, octets in self.blocks():
            body = self.body(octets)
            frame = self.frame_of(kind, start, body)
            if kind == Block.STATISTICS and (dropped := self.dropped_in(body)):
                yield dropped
            if frame:
                many = self.dropped_before(kind, body)
                if many or self.is_damaged:
                    yield Dropped(frame.number, frame.time, many, frame.interface)
                self.is_damaged = False
                yield frame

    def body(self, octets: bytes) -> bytes:
        """The body of a block, as far as it is in the file."""
        return octets[8:min(len(octets), self.word(octets, 4) - 4)]

    def blocks(self) -> Iterator[tuple[int, int, bytes]]:
        """Each block with a usable length: its offset, its type and its octets, which may end early."""
        while True:
            start = self.source.offset
            head = self.source.peek(SMALLEST)
            if len(head) < SMALLEST:
                self.end_inside(start, head)
                return
            kind, length = self.measure(head)
            fault = self.fault(kind, length)
            if fault:
                self.seek(start, fault)
                continue
            octets = self.source.read(length)
            if len(octets) == length and octets[-4:] != octets[4:8]:
                self.damage(start, f"the block's two lengths differ, {length} and {self.word(octets, length - 4)}")
            elif len(octets) < length:
                self.damage(start, f"the file ends after {len(octets)} of the block's {length} octets")
            yield start, kind, octets

    def word(self, octets: bytes, at: int) -> int:
        return int(struct.unpack_from(self.order + "I", octets, at)[0])

    def damage(self, start: int, words: str) -> None:
        self.is_damaged = True
        self.ledger.damaged(Reason.BAD_FILE, f"{self.source.place(start)}: {words}")

    def measure(self, head: bytes) -> tuple[int, int]:
        """The type and length of a block; a section's byte order applies from its header on."""
        if head[:4] == MAGIC and head[8:12] in ORDERS:
            self.order = ORDERS[head[8:12]]
        kind, length = struct.unpack_from(self.order + "II", head)
        return kind, length

    @staticmethod
    def fault(kind: int, length: int) -> str | None:
        """Why a block's length is not usable, or None."""
        if length < SMALLEST or length % 4 or length > LARGEST:
            return f"a block of type {kind} and {length} octets"
        return None

    def end_inside(self, start: int, head: bytes) -> None:
        if head:
            self.source.read(len(head))
            self.damage(start, f"the file ends inside of a block's head, {len(head)} octets are left out")

    def seek(self, start: int, what: str) -> None:
        """Skips to the next place with a whole block, and reports how far it is."""
        while True:
            window = self.source.peek(WINDOW)
            if (zeros := zeros_before(window, SMALLEST)):
                self.source.skip(zeros)
                continue
            at = next((at for at in range(4, len(window) - SMALLEST + 1, 4) if self.is_block(window, at)), None)
            if at is not None:
                self.source.skip(at)
                break
            self.source.skip(WINDOW // 2 if len(window) == WINDOW else len(window))
            if len(window) < WINDOW:
                break
        passed = self.source.offset - start
        self.damage(start, f"{what} cannot be: {passed} octets are left out, frame numbers go on after them")

    def is_block(self, window: bytes, at: int) -> bool:
        """Whether a block of a known type, with two equal lengths, is at an offset."""
        order = self.order
        if window[at:at + 4] == MAGIC:
            order = ORDERS.get(window[at + 8:at + 12], order)
        kind, length = struct.unpack_from(order + "II", window, at)
        end = at + length
        if kind not in KNOWN or self.fault(kind, length) or end > len(window):
            return False
        return window[at + 4:at + 8] == window[end - 4:end]

    def frame_of(self, kind: int, start: int, body: bytes) -> Frame | None:
        """The frame of a block; None where it has none."""
        if kind == Block.SECTION:
            self.first_interface += len(self.interfaces)
            self.interfaces = []
        elif kind == Block.INTERFACE and len(body) >= 8:
            self.describe(body)
        elif kind in READERS:
            self.number += 1
            return self.framed(READERS[kind], start, body)
        else:
            # Wireshark numbers journal entries and custom blocks as if they were frames.
            self.number += kind in (Block.JOURNAL, Block.CUSTOM, Block.CUSTOM_KEPT)
            self.ledger.left_out(Reason.OTHER_BLOCK)
        return None

    def describe(self, body: bytes) -> None:
        interface = Interface(*struct.unpack_from(self.order + "H2xI", body))
        for code, value in self.options(body, 8):
            if code == CHECK_LENGTH and value:
                interface.check = value[0] // 8
            elif code == TIME_RESOLUTION and value:
                interface.units = (2 if value[0] & 0x80 else 10) ** (value[0] & 0x7F)
            elif code == TIME_OFFSET and len(value) == 8:
                interface.offset = struct.unpack(self.order + "q", value)[0]
        self.interfaces.append(interface)

    def options(self, body: bytes, at: int) -> Iterator[tuple[int, bytes]]:
        """The options of a block, code and value."""
        while at + 4 <= len(body):
            code, length = struct.unpack_from(self.order + "HH", body, at)
            if code == 0:
                return
            yield code, body[at + 4:at + 4 + length]
            at += 4 + length + -length % 4

    def dropped_in(self, body: bytes) -> Dropped | None:
        """The number of frames dropped since the last statistics of an interface, by it or by the system."""
        if len(body) < SMALLEST:
            return None
        which, high, low = struct.unpack_from(self.order + "III", body)
        if which >= len(self.interfaces):
            return None
        interface = self.interfaces[which]
        values = dict(self.options(body, SMALLEST))
        many = sum(self.count(values.get(code, b"")) for code in (DROPPED_BY_INTERFACE, DROPPED_BY_SYSTEM))
        many, interface.dropped = many - interface.dropped, many
        if many <= 0:
            return None
        return Dropped(self.number, interface.time(high, low), many, self.first_interface + which)

    def dropped_before(self, kind: int, body: bytes) -> int:
        """The number of frames dropped between the frame of a block and the previous one of its interface."""
        if kind == Block.PACKET:
            many = int(struct.unpack_from(self.order + "H", body, 2)[0])
            return many if many != UNKNOWN_DROPS else 0
        if kind != Block.ENHANCED:
            return 0
        kept = self.word(body, 12)
        return sum(self.count(value) for code, value in self.options(body, 20 + kept + -kept % 4) if code == DROP_COUNT)

    def count(self, value: bytes) -> int:
        """The number in an option of eight octets."""
        return int(struct.unpack(self.order + "Q", value)[0]) if len(value) == 8 else 0

    def framed(self, read: Reader, start: int, body: bytes) -> Frame | None:
        try:
            which, at, kept, length, stamp = read(self, body)
        except struct.error:
            self.damage(start, f"frame {self.number}: the block is too short for its type")
            return None
        if which >= len(self.interfaces):
            self.damage(start, f"frame {self.number}: interface {which} was not described")
            return None
        octets = body[at:at + kept]
        if len(octets) < kept:
            self.damage(start, f"frame {self.number}: {len(octets)} of its {kept} octets are there")
        interface = self.interfaces[which]
        length = max(length, kept)
        if interface.check:
            octets, length = without_check(octets, length, interface.check)
        direction = self.direction(body, at + kept + -kept % 4)
        time = interface.time(*stamp) if stamp else None
        return Frame(self.number, interface.link, octets, length, direction, self.first_interface + which, time)

    def direction(self, body: bytes, at: int) -> Direction:
        for code, value in self.options(body, at):
            if code == FLAGS and len(value) == 4:
                return DIRECTIONS[self.word(value, 0) & 3]
        return Direction.UNKNOWN

    def enhanced(self, body: bytes) -> Placed:
        which, high, low, kept, length = struct.unpack_from(self.order + "IIIII", body)
        return which, 20, kept, length, (high, low)

    def obsolete(self, body: bytes) -> Placed:
        which, high, low, kept, length = struct.unpack_from(self.order + "H2xIIII", body)
        return which, 20, kept, length, (high, low)

    def simple(self, body: bytes) -> Placed:
        length = self.word(body, 0)
        snap = self.interfaces[0].snap if self.interfaces else 0
        return 0, 4, min(length, snap or length), length, None


# The interface of a frame, where its octets begin, how many were kept and how many there were, and its timestamp.
Placed = tuple[int, int, int, int, "tuple[int, int] | None"]
Reader = Callable[[Pcapng, bytes], Placed]
READERS: dict[int, Reader] = {Block.ENHANCED: Pcapng.enhanced, Block.PACKET: Pcapng.obsolete, Block.SIMPLE: Pcapng.simple}

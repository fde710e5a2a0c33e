"""Captures of which frames are missing, most of them those of one side, and some with octets that were changed or cut off.

Each is made of a capture of tests/captures/files, or of connections of which one side alone was recorded. What x25trace and x25scan
say was recorded of one side alone has to be the same.
"""
from __future__ import annotations

import pathlib
import random
import re
import struct
from collections.abc import Callable, Iterator, Sequence
from typing import NamedTuple

import half_cases

FOLDER = pathlib.Path(__file__).resolve().parent.parent / "captures" / "files"
MAGIC = bytes.fromhex("D4C3B2A1")
# Where a frame says who sent it, by the link type: a direction, a kind of packet, or the last octet of an address of IPv4.
SENDERS = {1: 29, 101: 15, 113: 1, 147: 0, 207: 0}
OTHERS = 0
HALF = re.compile(r"(?m)^x25(?:trace|scan): (?:[^:\n]*: )?(only the D[TC]E was recorded.*)$")
# How many captures are made of each in each way.
EACH = 2
# The side that alone was recorded of each connection of a capture; None where both were.
DTE, DCE, BOTH = 0, 1, None
CONNECTIONS: dict[str, tuple[int | None, ...]] = {
    "some ranges of connections": (DTE, DTE, DTE, BOTH, DTE, BOTH, DTE, DTE, DCE, DCE, DCE, DCE, BOTH, DCE),
    "as many ranges as a sentence has": (DTE, BOTH) * 20,
    "more ranges than a sentence has": (DTE, BOTH) * 22 + (DCE,) * 3,
}


class Frame(NamedTuple):
    """A record of a capture: its time, its length on the line, and the octets that were kept."""

    time: bytes
    length: int
    octets: bytes

    @property
    def record(self) -> bytes:
        """It in a file."""
        return self.time + struct.pack("<II", len(self.octets), self.length) + self.octets


Change = Callable[[random.Random, list[Frame], int], list[Frame]]


def frames_in(octets: bytes) -> Iterator[Frame]:
    """The frames of a file."""
    at = 24
    while at + 16 <= len(octets):
        size, length = struct.unpack_from("<II", octets, at + 8)
        yield Frame(octets[at:at + 8], length, octets[at + 16:at + 16 + size])
        at += 16 + size


def sender(frame: Frame, link: int) -> bytes:
    """What a frame says of its sender."""
    at = SENDERS.get(link, OTHERS)
    return frame.octets[at:at + 1]


def one_side(source: random.Random, frames: list[Frame], link: int) -> list[Frame]:
    """The frames of one side, and few of the other one."""
    kept, share = sender(source.choice(frames), link), source.choice((0, 0, 0.1, 0.3))
    return [frame for frame in frames if sender(frame, link) == kept or source.random() < share]


def one_side_from_a_frame(source: random.Random, frames: list[Frame], link: int) -> list[Frame]:
    """From a frame on those of one side, or up to it."""
    at = source.randrange(len(frames))
    front, back = frames[:at], frames[at:]
    return [*one_side(source, front, link), *back] if front and source.random() < 0.5 else [*front, *one_side(source, back, link)]


def some(source: random.Random, frames: list[Frame], link: int) -> list[Frame]:
    """Some of the frames."""
    share = source.choice((0.1, 0.3, 0.6, 0.9))
    return [frame for frame in frames if source.random() < share]


def part(source: random.Random, frames: list[Frame], link: int) -> list[Frame]:
    """Those of a part of the recording."""
    begin = source.randrange(len(frames))
    return frames[begin:begin + source.choice((1, 2, 3, 5, 10, 1000))]


def cut(source: random.Random, frames: list[Frame], link: int) -> list[Frame]:
    """Some frames without their last octets, or with others."""
    found = list(frames)
    for _ in range(source.choice((1, 2, 5))):
        at = source.randrange(len(found))
        octets = bytearray(found[at].octets)
        if octets and source.random() < 0.5:
            octets[source.randrange(len(octets))] ^= 1 << source.randrange(8)
        elif octets:
            del octets[source.randrange(len(octets)):]
        found[at] = found[at]._replace(octets=bytes(octets))
    return one_side(source, found, link) if source.random() < 0.5 else found


CHANGES: Sequence[Change] = (one_side, one_side_from_a_frame, some, part, cut)


def connections(sides: Sequence[int | None]) -> bytes:
    """A capture of connections, one after the other."""
    talks = zip(half_cases.talks(), sides)
    return half_cases.file_of([one for talk, only in talks for one in half_cases.connection(talk, half_cases.FIRST, only)])


def one_in_another() -> bytes:
    """A capture of two connections, of which the first one sends its first packet after the other one has ended."""
    first, second = (half_cases.connection(talk, half_cases.FIRST, DTE) for talk, _ in zip(half_cases.talks(), range(2)))
    return half_cases.file_of([*first[:2], *second, *first[2:]])


def captures(each: int = EACH) -> Iterator[tuple[str, bytes]]:
    """The captures with their names."""
    for name, sides in CONNECTIONS.items():
        yield name, connections(sides)
    yield "a connection in another one", one_in_another()
    for path in sorted(FOLDER.glob("*.pcap")):
        octets = path.read_bytes()
        if octets[:4] != MAGIC or len(octets) > 1 << 16:
            continue
        frames, link = list(frames_in(octets)), octets[20]
        for change in CHANGES if frames else ():
            for number in range(each):
                source = random.Random(f"{path.name} {change.__name__} {number}")
                made = b"".join(frame.record for frame in change(source, frames, link))
                yield f"{change.__name__} {number} of {path.name}", octets[:24] + made


def halves(said: str) -> list[str]:
    """What is said to be recorded of one side alone."""
    return HALF.findall(said)

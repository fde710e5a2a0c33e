"""Writes a capture again as pcapng, with the findings of x25scan as comments of its frames."""
from __future__ import annotations

import contextlib
import os
import re
import struct
import subprocess
from collections import defaultdict
from collections.abc import Callable, Generator, Iterable
from typing import IO, Any, BinaryIO

from x25tools_lib import notes
from x25tools_lib import scanner as programs
from x25tools_lib.frames import Frames
from x25tools_lib.halves import Halves
from x25tools_lib.refusals import Refusal, Why

from . import spool
from .captures import Captures
from .frames import Direction, Dropped
from .pcap import Pcap
from .pcapng import CHECK_LENGTH, FLAGS, TIME_RESOLUTION, Block, Pcapng
from .pcapng import MAGIC as PCAPNG_MAGIC
from .snoop import Snoop

# The comments of each frame.
Comments = dict[int, list[str]]
FINDING = re.compile(r"#! (F (\d+) .*)")
CALL = re.compile(r"# (Call \d+, \w+ on logical channel (\d+): .*\bopened by packet (\d+)\b.*)")
GAP = re.compile(r"# (a gap: .* may be missing)")
PACKET = re.compile(r"(?:\bpacket |(?<=\bup with )|(?<=\bended with ))(\d+)\b")
# The comment on the first section of a file, by which it is known as one that --comments wrote.
MARK = b"written by x25trace --comments"
LOOK = 1 << 16
LEFT_OUT = "what x25scan finds of it is left out"
# A comment's length has two octets.
LONGEST = 60_000
COMMENT = 1
END = b"\0\0\0\0"
BYTE_ORDER_MAGIC = 0x1A2B3C4D
FLAGS_OF = {Direction.RECEIVED: 1, Direction.SENT: 2}
# The offsets of the number of octets kept, and of these octets, in an enhanced or obsolete packet block.
KEPT_AT, OCTETS_AT = 12, 20
# The offset of the options in a section header.
SECTION_OPTIONS_AT = 16


def found(trace: IO[str], scanner: str | None, halves: Halves) -> Comments:
    """The comments of x25scan on the frames of a trace in a file; those on a call are on its first frame.

    Where something was recorded in one direction only, its comments say no more than that.
    """
    words = [scanner or programs.found("x25trace"), "--annotate"]
    with subprocess.Popen(words, stdin=trace, stdout=subprocess.PIPE, text=True, encoding="ascii") as running:
        assert running.stdout
        comments = comments_of(running.stdout, halves)
    if running.returncode not in (0, 1):
        raise OSError(f"{words[0]} --annotate ended with status {running.returncode}")
    return comments


def named(words: str, frames: Frames) -> str:
    """The text with the frames of the packets that it names."""
    return PACKET.sub(lambda packet: frames.name(int(packet[1]), ""), words)


def comments_of(lines: Iterable[str], halves: Halves) -> Comments:
    """The comments by frame, from the lines of an annotated trace."""
    frames, comments = Frames(), defaultdict[int, list[str]](list)
    first, row, channel, frame = 0, 0, 0, None

    def add(packet: int, words: str) -> None:
        comments[frames.of(packet) or packet].append(f"x25scan: {words}")

    for line in lines:
        if line[0].isdigit():
            number, side, octets = line.split(" ")
            row = int(number)
            first, channel = first or row, int(octets[1:4], 16) if len(octets) > 4 and side != spool.GAP else 0
            frames.add(row, frame)
        elif match := FINDING.match(line):
            packet = int(match[2])
            if not halves.side(channel, packet):
                is_other = frames.of(packet) != packet
                add(packet, f"{frames.name(packet, '')}: {match[1]}" if is_other else match[1])
        elif match := CALL.match(line):
            if not halves.side(int(match[2]), int(match[3])):
                add(int(match[3]), named(match[1], frames))
        elif match := GAP.match(line):
            add(row, match[1])
        elif line.startswith(notes.RECORDED_AT):
            frame = notes.frame_of(line)
    for row, words in halves.sentences(first):
        add(row, f"{words}: {LEFT_OUT}")
    return comments


def block(order: str, kind: int, body: bytes) -> bytes:
    """A block with its lengths."""
    body += bytes(-len(body) % 4)
    length = struct.pack(order + "I", 12 + len(body))
    return struct.pack(order + "I", kind) + length + body + length


def option(order: str, code: int, value: bytes) -> bytes:
    """An option with its length."""
    return struct.pack(order + "HH", code, len(value)) + value + bytes(-len(value) % 4)


def comment_options(order: str, texts: Iterable[str]) -> bytes:
    return b"".join(option(order, COMMENT, text.encode()[:LONGEST]) for text in texts)


def end_of_options(order: str, body: bytes, at: int) -> int:
    """The end of a block's options that begin at an offset."""
    while at + 4 <= len(body):
        code, length = struct.unpack_from(order + "HH", body, at)
        after = at + 4 + length + -length % 4
        if code == 0 or after > len(body):
            break
        at = after
    return at


def enhanced(order: str, body: bytes, kept: int, length: int) -> bytes:
    """The body of a simple block as that of an enhanced one, of the first interface and without a time."""
    octets = body[4:4 + kept]
    return struct.pack(order + "IIIII", 0, 0, 0, len(octets), length) + octets


def commented(order: str, body: bytes, texts: Iterable[str]) -> bytes:
    """The body of a block of a frame with comments after its other options."""
    kept = struct.unpack_from(order + "I", body, KEPT_AT)[0]
    begin = OCTETS_AT + kept + -kept % 4
    body += bytes(max(begin - len(body), 0))
    return body[:end_of_options(order, body, begin)] + comment_options(order, texts) + END


def whole(order: str, kind: int, octets: bytes) -> bytes:
    """The body of a block as it was recorded; a frame in which the file ends keeps the octets that are there."""
    length = struct.unpack_from(order + "I", octets, 4)[0]
    body = octets[8:min(len(octets), length - 4)]
    if kind == Block.SECTION:
        # Sections become longer: -1 means an unknown length.
        return body[:8] + b"\xff" * 8 + body[16:]
    if kind in (Block.ENHANCED, Block.PACKET) and len(body) >= OCTETS_AT:
        kept, length = struct.unpack_from(order + "II", body, KEPT_AT)
        there = len(body) - OCTETS_AT
        if there < kept:
            return body[:KEPT_AT] + struct.pack(order + "II", there, max(length, kept)) + body[OCTETS_AT:]
    return body


def section(order: str) -> bytes:
    return block(order, Block.SECTION, struct.pack(order + "IHHq", BYTE_ORDER_MAGIC, 1, 0, -1))


def marked(order: str, octets: bytes) -> bytes:
    """A section header with the comment by which the file is known."""
    body = octets[8:-4]
    if MARK in body:
        return octets
    at = end_of_options(order, body, SECTION_OPTIONS_AT)
    return block(order, Block.SECTION, body[:at] + option(order, COMMENT, MARK) + END)


def may_replace(name: str) -> bool:
    """Whether a file of a name may be written over: there is none, it is no file, or --comments wrote it."""
    if not os.path.isfile(name):
        return True
    with open(name, "rb") as file:
        start = file.read(LOOK)
    return not start or start.startswith(PCAPNG_MAGIC) and MARK in start


def of_pcapng(form: Pcapng, comments: Comments) -> Generator[bytes, None, None]:
    """The blocks of a pcapng file; before them a section header where the file's own is damaged."""
    begun = False
    for start, kind, octets in form.blocks():
        frame = form.frame_of(kind, start, form.body(octets))
        if frame is None and len(octets) < form.word(octets, 4):
            continue
        if not begun and kind != Block.SECTION:
            yield section(form.order)
        begun = True
        texts = comments.get(frame.number, ()) if frame else ()
        body = whole(form.order, kind, octets)
        if texts:
            if kind == Block.SIMPLE:
                # Such a block has no options, so it cannot have comments.
                _, _, kept, length, _ = form.simple(body)
                kind, body = Block.ENHANCED, enhanced(form.order, body, kept, length)
            body = commented(form.order, body, texts)
        yield block(form.order, kind, body)


def of_records(form: Pcap | Snoop, comments: Comments) -> Generator[bytes, None, None]:
    """A section with one interface, and an enhanced block for each record of another file."""
    decimals = 9 if form.parts == 1_000_000_000 else 6
    options = option("<", TIME_RESOLUTION, bytes((decimals,)))
    if form.check:
        options += option("<", CHECK_LENGTH, bytes((8 * form.check,)))
    yield section("<")
    yield block("<", Block.INTERFACE, struct.pack("<HHI", form.link, 0, form.snap) + options + END)
    for frame in form.frames():
        if isinstance(frame, Dropped):
            continue
        octets, length = form.recorded
        units = frame.time // 10 ** (9 - decimals)
        head = struct.pack("<IIIII", 0, units >> 32, units & 0xFFFFFFFF, len(octets), length)
        options = comment_options("<", comments.get(frame.number, ()))
        if frame.direction in FLAGS_OF:
            options += option("<", FLAGS, struct.pack("<I", FLAGS_OF[frame.direction]))
        yield block("<", Block.ENHANCED, head + octets + bytes(-len(octets) % 4) + (options and options + END))


REWRITERS: dict[type[object], Callable[[Any, Comments], Generator[bytes, None, None]]] = {
    Pcap: of_records, Snoop: of_records, Pcapng: of_pcapng,
}


def check(captures: Captures) -> None:
    """Refuses files whose frames have no link type."""
    for form in captures.forms():
        if type(form) not in REWRITERS:
            raise Refusal(Why.UNKNOWN_FORMAT, f"{form.source.name} says no link type, which pcapng needs")
        if type(form) is Snoop and not isinstance(form.link, int):
            raise Refusal(Why.UNKNOWN_FORMAT, f"{form.source.name}: pcapng has no number for link type {form.link}")


def write(captures: Captures, comments: Comments, out: BinaryIO) -> None:
    """Writes the files of a capture one after the other, each as a section of its own."""
    for form in captures.forms():
        with contextlib.closing(REWRITERS[type(form)](form, comments)) as blocks:
            first = next(blocks, section("<"))
            out.write(marked(form.order if type(form) is Pcapng else "<", first))
            for octets in blocks:
                out.write(octets)

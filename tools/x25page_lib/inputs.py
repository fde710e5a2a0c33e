"""The trace of a page: a named trace, or that of a capture, with what it has besides rows."""
from __future__ import annotations

import argparse
import contextlib
import os
import sys
import tempfile
from collections.abc import Iterator
from typing import BinaryIO, cast

from x25tools_lib import notes
from x25tools_lib.ledger import Ledger
from x25tools_lib.notes import MOST_CIRCUITS, Circuit, Head
from x25tools_lib.streams import Interrupted, Waiting, is_pipe, open_input
from x25trace_lib.captures import LOOK
from x25trace_lib.making import file_of, gathered
from x25trace_lib.passing import LONGEST_LINE, lines_of
from x25trace_lib.source import Source
from x25trace_lib.trace import LARGEST_TEXT

MOST_COMMENTS, LONGEST_COMMENT = 20, 300
# How the comment with the time and the frame of a row begins.
RECORDED_AT = notes.RECORDED_AT.encode()


def take_pipe(words: argparse.Namespace) -> None:
    """Opens a named pipe as standard input, whose first octets can be looked at and read again."""
    name = words.captures[0]
    if len(words.captures) == 1 and name != "-" and is_pipe(name):
        with open_input(name) as stream:
            os.dup2(stream.fileno(), 0)
        sys.stdin = open(0, encoding="ascii", errors="replace", closefd=False)
        words.captures = ["-"]


def start_of(source: Source) -> bytes:
    """The first octets of a source, which are read again; after an interruption those that had come."""
    with contextlib.suppress(Interrupted):
        return source.peek(LOOK)
    return source.ahead


def head_of(trace: BinaryIO) -> Head:
    """What a trace in an open file has besides rows; the file is left at its beginning."""
    head, circuit = Head(), None
    while line := trace.readline(LONGEST_LINE):
        if not line.startswith(b"#"):
            if not head.header:
                head.header = shown(line) or "-"
            elif circuit and (row := number_of(line)):
                if len(head.circuits) < MOST_CIRCUITS:
                    head.circuits.append(Circuit(row, *circuit))
                circuit = None
        elif not head.header:
            add_comment(head, line[1:].decode(errors="replace").strip())
        elif line.startswith(b"# connection "):
            words = shown(line[1:])
            channel = notes.channel_of_circuit(words)
            circuit = (channel, words) if channel is not None else circuit
        elif not line.startswith(RECORDED_AT) and (half := notes.half_of(shown(line[1:]))):
            head.halves.append(half)
    trace.seek(0)
    return head


def number_of(line: bytes) -> int | None:
    """The number that a row begins with."""
    number = line.partition(b" ")[0]
    return int(number) if number.isdigit() and len(number) <= 9 else None


def shown(octets: bytes) -> str:
    """A line as a page shows it."""
    return octets.decode(errors="replace").strip()[:LONGEST_COMMENT]


def add_comment(head: Head, words: str) -> None:
    """Reads a comment before the header, which may name the numbers that were estimated."""
    head.estimates += notes.estimates_of(words)
    if half := notes.half_of(words):
        head.halves.append(half)
    if words and len(head.comments) < MOST_COMMENTS:
        head.comments.append(words[:LONGEST_COMMENT])


@contextlib.contextmanager
def named_trace(name: str, source: Source, ledger: Ledger) -> Iterator[tuple[BinaryIO, Head]]:
    """Returns a trace in an open file, and what it has besides rows.

    The file is the named one, or a copy of standard input or of the contents of a gzip file.
    """
    if name != "-" and not source.is_packed:
        with open_input(name) as file:
            yield file, head_of(file)
        return
    with tempfile.TemporaryFile() as file_of_copy:
        copy, size = cast(BinaryIO, file_of_copy), 0
        for lines in lines_of(source, ledger):
            copy.write(lines)
            size += len(lines)
            # x25scan refuses it, and needs no more of it.
            if size > LARGEST_TEXT:
                break
        copy.seek(0)
        yield copy, head_of(copy)


@contextlib.contextmanager
def trace_of(
    words: argparse.Namespace, ledger: Ledger, waiting: Waiting, first: Source,
) -> Iterator[tuple[BinaryIO, Head]]:
    """The trace of the packets in captures, in an open file; each row has the time of its frame."""
    with file_of(gathered(words, ledger, waiting, True, first), words.captures) as (file, head):
        os.lseek(file.fileno(), 0, os.SEEK_SET)
        with open(file.fileno(), "rb", closefd=False) as octets:
            yield octets, head

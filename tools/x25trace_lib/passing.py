"""A trace that is read in place of a capture, and is copied unchanged."""
from __future__ import annotations

from collections.abc import Iterator

from x25tools_lib.ledger import Ledger, Reason, Topic
from x25tools_lib.streams import Interrupted

from .source import Source

HEADER = b"X25 "
# The most octets of comments before a header.
LOOK = 1 << 16
# The longest line of a trace that x25scan accepts, in octets.
LONGEST_LINE = 8501


def is_next(source: Source) -> bool:
    """Whether a trace follows: a header, perhaps after comments. Reads no further, as the trace may grow."""
    try:
        return has_header(source)
    except Interrupted:
        if not source.waiting.interrupted:
            raise
        return False


def has_header(source: Source) -> bool:
    """Whether a header follows, perhaps after comments."""
    start, before = source.look(len(HEADER)), -1
    while before < len(start) <= LOOK:
        lines = start.split(b"\n")
        while lines and lines[0].startswith(b"#"):
            del lines[0]
        if len(lines) > 1 or lines and not HEADER.startswith(lines[0]):
            return lines[0].startswith(HEADER)
        if lines == [HEADER]:
            return True
        before = len(start)
        start = source.look(before + 1)
    return False


def lines_of(source: Source, ledger: Ledger) -> Iterator[bytes]:
    """The text of a trace in whole lines, as they come.

    Where the reading is interrupted, or a gzip file is cut off or damaged, an incomplete last line is left out.
    """
    rest = b""
    try:
        while octets := source.rest():
            whole, end, after = octets.rpartition(b"\n")
            if end:
                yield rest + whole + end
                rest = after
            elif len(rest) > LONGEST_LINE:
                yield rest + octets
                rest = b""
            else:
                rest += octets
    except Interrupted:
        if not source.waiting.interrupted:
            raise
        ledger.report(Topic.INTERRUPTED, "interrupted: the trace is of what was read before")
    else:
        if rest and not source.damages:
            yield rest
    for words in source.damages:
        ledger.damaged(Reason.BAD_FILE, f"{source.name}: {words}")

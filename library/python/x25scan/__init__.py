"""Judges the packets of an X.25 interface: reports, rows and findings of traces, and of packets as they come.

    >>> import x25scan
    >>> observer = x25scan.Observer("X25 1 MOD 8 WIN 2 SIZE 128 PVC 0 SVC 4")
    >>> observer.packet(1, "T", bytes.fromhex("10010B0000"))
    []

Everything is judged by the shared library libx25scan.so.1. X25SCAN_LIBRARY names another file of it. An observer is used
by one thread at a time; several may run side by side.
"""
from __future__ import annotations

import io
import os
from collections.abc import Iterator
from pathlib import Path

from x25scan._library import Scan, ScanError, TraceError, words_of
from x25scan._rows import Account, Call, CallFacts, Circuit, Finding, Gap, Gaps, Object, Peak, Row, Setting, Sums, Uncounted, object_of

__all__ = [
    "Account", "Call", "CallFacts", "Circuit", "Finding", "Gap", "Gaps", "Object", "Observer", "Peak", "Row", "ScanError", "Setting", "Sums",
    "TraceError", "Uncounted", "open_capture", "rows", "scan", "words_of",
]

_PIECE = 1 << 16


def _pieces(source: str | os.PathLike[str] | bytes) -> Iterator[bytes]:
    """The bytes of a trace, which is a path or the bytes themselves."""
    with io.BytesIO(source) if isinstance(source, bytes) else Path(source).open("rb") as file:
        while piece := file.read(_PIECE):
            yield piece


def scan(source: str | os.PathLike[str] | bytes, *, form: str = "lines") -> str:
    """The report of a trace, as x25scan(1) prints it: `form` is "lines" or "json".

    Raises TraceError where a line is faulty, MemoryError, and OSError where the file cannot be read.
    """
    with Scan() as handle:
        for piece in _pieces(source):
            handle.feed(piece)
        return handle.end(form)


def rows(source: str | os.PathLike[str] | bytes) -> Iterator[Object]:
    """The objects of a trace: a Row for each packet, a Gap for each gap row and a Circuit for each circuit that a comment names, and then the Finding, Call, Setting, Account, Peak, Gaps and Sums of its report.

    The objects come while the trace is read, in constant memory. Raises as `scan`, at a faulty line after the objects of
    the rows before it.
    """
    with Scan(rows=True) as handle:
        yield from map(object_of, handle.rows(_pieces(source)))


class Observer:
    """Judges packets, or the text of a trace, as they come.

    `header` is the first line of a trace, as "X25 1 MOD 8 WIN 2 SIZE 128 PVC 0 SVC 4"; None, where `feed` reads it.
    Raises TraceError where the header is faulty.
    """

    def __init__(self, header: str | None = None) -> None:
        self._scan = Scan()
        if header is not None:
            try:
                self._scan.feed(header.encode() + b"\n")
            except BaseException:
                self._scan.close()
                raise

    def feed(self, text: bytes) -> list[Finding]:
        """Reads the next bytes of the text, and returns what the lines found that have ended. Raises TraceError, MemoryError."""
        self._scan.feed(text)
        return self._scan.found()

    def packet(self, number: int, side: str, octets: bytes) -> list[Finding]:
        """Reads a packet, and returns what is wrong with it: its number, 1 to 999,999,999 and above the one before; its
        side, "T" from the DTE or "N" from the DCE; and its octets, at most 4,200. Raises ScanError, TraceError, MemoryError.
        """
        self._scan.packet(number, side, octets)
        return self._scan.found()

    def report(self, form: str = "lines") -> str:
        """The report of all that was read so far, as "lines" or "json". Raises TraceError before a header was read."""
        return self._scan.report(form)

    def end(self, form: str = "lines") -> str:
        """The text has ended: its report. After it only `close` does anything."""
        return self._scan.end(form)

    def close(self) -> None:
        """Gives back the observer's memory; a second call does nothing."""
        self._scan.close()

    def __enter__(self) -> Observer:
        return self

    def __exit__(self, *raised: object) -> None:
        self.close()


def open_capture(path: str | os.PathLike[str]) -> Iterator[Object]:
    """The objects of a capture (pcap, pcapng, snoop or hex dump), of which x25trace makes a trace.

    Needs the programs of the package x25scan. Raises ScanError with the words of x25trace, and as `rows`.
    """
    from x25scan._captures import trace_of

    return rows(trace_of(path))

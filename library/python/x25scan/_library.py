"""The shared library, by ctypes: one class for its handle, and the exceptions of its errors."""
from __future__ import annotations

import ctypes
import functools
import os
from collections.abc import Iterable, Iterator
from pathlib import Path

from x25scan._rows import Finding

OK, MEMORY, TRACE, NONE_LEFT, SHORT = 0, 1, 2, 5, 6
FORMS = {"lines": 0, "json": 1, "rows": 2}
# The room for a piece of what was made, in bytes.
_ROOM = 1 << 18
_CODES = {257: "X1", 258: "X2", 259: "X3", 260: "X4", 261: "XL"}


class ScanError(Exception):
    """A call that the library refuses. `number` is its error, as enum x25scan_error of x25scan.h has it."""

    def __init__(self, number: int, words: str) -> None:
        super().__init__(words)
        self.number = number


class TraceError(ScanError, ValueError):
    """A faulty line: `line` counted from 1, `kind` 21 to 29 (docs/TRACE.md), and `advice`, which says what is wrong with it."""

    def __init__(self, line: int, kind: int, advice: str) -> None:
        super().__init__(TRACE, f"line {line}: kind {kind}: {advice}")
        self.line, self.kind, self.advice = line, kind, advice


class _Handle(ctypes.Structure):
    _fields_ = [("observer", ctypes.c_void_p), ("mark", ctypes.c_uint32)]


class _Finding(ctypes.Structure):
    _fields_ = [("packet", ctypes.c_uint32), ("code", ctypes.c_uint32), ("side", ctypes.c_uint8), ("state", ctypes.c_uint8), ("number", ctypes.c_uint8)]


@functools.cache
def _library() -> ctypes.CDLL:
    """The library; OSError where it is not installed."""
    beside = Path(__file__).with_name("libx25scan.so.1")
    library = ctypes.CDLL(os.environ.get("X25SCAN_LIBRARY") or (str(beside) if beside.exists() else beside.name))
    word, size, some, handle = ctypes.c_uint32, ctypes.c_size_t, ctypes.c_char_p, ctypes.POINTER(_Handle)
    words, sizes = ctypes.POINTER(word), ctypes.POINTER(size)
    for name, kinds in {
        "open_form": [handle, word],
        "feed_text": [handle, some, size],
        "feed_packet": [handle, word, ctypes.c_uint8, some, size],
        "take_finding": [handle, ctypes.POINTER(_Finding)],
        "make_report": [handle, word],
        "end_trace": [handle, word],
        "take_text": [handle, some, size, sizes, sizes],
        "take_fault": [handle, words, words, some, size, sizes],
        "close_scan": [handle],
        "copy_words": [word, some, size, sizes],
    }.items():
        function = getattr(library, f"x25scan_{name}")
        function.argtypes, function.restype = kinds, word
    return library


def words_of(error: int) -> str:
    """The words of an error's number."""
    needed = ctypes.c_size_t()
    buffer = ctypes.create_string_buffer(256)
    _library().x25scan_copy_words(error, buffer, len(buffer), ctypes.byref(needed))
    return buffer.raw[: needed.value].decode()


class Scan:
    """A handle of the library."""

    def __init__(self, rows: bool = False) -> None:
        self._library = _library()
        self._handle = _Handle()
        self._at = ctypes.byref(self._handle)
        self._finding = _Finding()
        self._check(self._library.x25scan_open_form(self._at, FORMS["rows"] if rows else 0))

    def _check(self, error: int) -> None:
        """Raises what an error is."""
        if error == OK:
            return
        if error == MEMORY:
            raise MemoryError(words_of(error))
        if error == TRACE:
            raise self._fault()
        raise ScanError(error, words_of(error))

    def _fault(self) -> TraceError:
        """The faulty line."""
        line, kind, needed = ctypes.c_uint32(), ctypes.c_uint32(), ctypes.c_size_t()
        buffer = ctypes.create_string_buffer(4096)
        take = self._library.x25scan_take_fault
        if take(self._at, line, kind, buffer, len(buffer), needed) == SHORT:
            buffer = ctypes.create_string_buffer(needed.value)
            take(self._at, line, kind, buffer, len(buffer), needed)
        return TraceError(line.value, kind.value, buffer.raw[: needed.value].decode(errors="replace"))

    def feed(self, text: bytes) -> None:
        """Reads the next bytes of the text."""
        self._check(self._library.x25scan_feed_text(self._at, text, len(text)))

    def packet(self, number: int, side: str, octets: bytes) -> None:
        """Reads a packet."""
        if not 0 <= number < 1 << 32 or side not in ("T", "N"):
            raise ScanError(7, words_of(7))
        self._check(self._library.x25scan_feed_packet(self._at, number, ord(side), octets, len(octets)))

    def found(self) -> list[Finding]:
        """The findings that were not returned yet."""
        findings, one, take = [], self._finding, self._library.x25scan_take_finding
        while (error := take(self._at, one)) == OK:
            state = "-" if one.state == ord("-") else f"{chr(one.state)}{one.number}"
            findings.append(Finding(one.packet, chr(one.side), state, _CODES.get(one.code, str(one.code))))
        if error != NONE_LEFT:
            self._check(error)
        return findings

    def report(self, form: str) -> str:
        """The report so far."""
        self._check(self._library.x25scan_make_report(self._at, FORMS[form]))
        return self._text()

    def end(self, form: str) -> str:
        """The report of the whole text."""
        self.end_trace(form)
        return self._text()

    def end_trace(self, form: str) -> None:
        """Ends the text, and makes its report or its rows."""
        self._check(self._library.x25scan_end_trace(self._at, FORMS[form]))

    def _text(self) -> str:
        """What was made."""
        return b"".join(self._made()).decode("ascii")

    def _made(self) -> Iterator[bytes]:
        """What was made, in pieces."""
        length, left = ctypes.c_size_t(), ctypes.c_size_t(1)
        buffer = ctypes.create_string_buffer(_ROOM)
        while left.value:
            self._check(self._library.x25scan_take_text(self._at, buffer, _ROOM, length, left))
            yield ctypes.string_at(buffer, length.value)

    def rows(self, pieces: Iterable[bytes]) -> Iterator[str]:
        """The lines that are made of a text while it is read."""
        for piece in pieces:
            try:
                self.feed(piece)
            finally:
                yield from self._text().splitlines()
        self.end_trace("rows")
        yield from self._text().splitlines()

    def close(self) -> None:
        """Gives back the memory."""
        self._library.x25scan_close_scan(self._at)

    def __enter__(self) -> Scan:
        return self

    def __exit__(self, *raised: object) -> None:
        self.close()

    def __del__(self) -> None:
        if hasattr(self, "_at"):
            self.close()

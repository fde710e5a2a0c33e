"""JSON, read by orjson, which is faster, where it is installed, else by Python's parser."""
from __future__ import annotations

from collections.abc import Iterator
from itertools import chain
from typing import Any, BinaryIO

try:
    from orjson import loads  # type: ignore[import]
except ImportError:
    from json import loads

# The octets that are parsed at once: this is faster than line by line.
CHUNK = 1 << 14


def read(text: str | bytes) -> Any:
    """The value of a JSON text. Raises ValueError where the text is not JSON."""
    return loads(text)


def names(*words: str) -> tuple[str, ...]:
    """Names of members as the parser keeps them: looking these up in its objects is faster."""
    members = ",".join([f'"{word}":0' for word in words])
    return tuple(read(f"{{{members}}}"))


def objects(stream: BinaryIO) -> Iterator[Any]:
    """The values of a stream with a JSON text in each line. Raises ValueError where a line is not JSON."""
    return chain.from_iterable(parts(stream))


def parts(stream: BinaryIO) -> Iterator[list[Any]]:
    """The same values, in lists of those that were parsed at once."""
    rest = b""
    while octets := stream.read(CHUNK):
        whole, end, after = octets.rpartition(b"\n")
        if not end:
            rest += octets
            continue
        yield values(rest + whole)
        rest = after
    if rest:
        yield values(rest)


def values(lines: bytes) -> list[Any]:
    """The values of lines, a JSON text each."""
    found: list[Any] = read(b"[%b]" % lines.replace(b"\n", b","))
    if len(found) != lines.count(b"\n") + 1:
        raise ValueError("a line with several values")
    return found

"""Reads and writes the text of a trace. It refuses what has no header, or a header, row or gap row of another form."""
from __future__ import annotations

import string
from dataclasses import dataclass

from model.packets import GapRow, Interface, PacketRow, Row, Side, decode

NO_HEADER = 21
NOT_A_HEADER = 22
NOT_A_ROW = 24
BAD_NUMBER = 25
BAD_SIDE = 26
BAD_OCTETS = 27
GAPS_FORM = 3
MOST_DIGITS = 9
MOST_OCTETS = 4200
FIRST_NAMES = ["MOD", "WIN", "SIZE", "PVC", "SVC"]
LATER_NAMES = ["MOD", "WIN", "SIZE", "PVC", "IN", "TWO", "OUT"]


class Refused(Exception):
    """A line that is refused, and the kind of its fault."""

    def __init__(self, kind: int, line: int = 0) -> None:
        super().__init__(kind, line)
        self.kind = kind
        self.line = line


@dataclass(frozen=True)
class Trace:
    """The interface of a trace, and its rows."""

    interface: Interface
    rows: tuple[Row, ...]


def read_number(word: str, kind: int) -> int:
    """Reads a number in decimal without a leading zero; another word is refused by this kind."""
    is_decimal = word.isascii() and word.isdigit() and len(word) <= MOST_DIGITS
    if not is_decimal or (word[0] == "0" and word != "0"):
        raise Refused(kind)
    return int(word)


def read_header(line: str) -> Interface:
    """Reads the header, in any of its three forms."""
    words = line.split(" ")
    if len(words) < 2 or words[0] != "X25" or words[1] not in ("1", "2", "3"):
        raise Refused(NOT_A_HEADER)
    form = int(words[1])
    is_joined = form > 1 and words[-1] == "JOIN"
    pairs = words[2:-1] if is_joined else words[2:]
    names = FIRST_NAMES if form == 1 else LATER_NAMES
    if pairs[::2] != names or len(pairs) != 2 * len(names):
        raise Refused(NOT_A_HEADER)
    numbers = [read_number(word, NOT_A_HEADER) for word in pairs[1::2]]
    if form == 1:
        # All channels that are no permanent circuits are two-way.
        numbers = [*numbers[:4], numbers[3], numbers[4], numbers[4]]
    modulus, window, size, permanent, incoming, two_way, channels = numbers
    return Interface(form, modulus, window, size, permanent, incoming, two_way, channels, is_joined)


def read_gap(interface: Interface, number: int, word: str) -> GapRow:
    """Reads the channel of a gap row."""
    if word == "*":
        return GapRow(number, None)
    channel = read_number(word, BAD_OCTETS)
    if not 1 <= channel <= interface.channels:
        raise Refused(BAD_OCTETS)
    return GapRow(number, channel)


def read_octets(word: str) -> bytes:
    """Reads the octets of a packet."""
    if word == "-":
        return b""
    if len(word) % 2 or len(word) > 2 * MOST_OCTETS or not set(word) <= set(string.hexdigits):
        raise Refused(BAD_OCTETS)
    return bytes.fromhex(word)


def read_row(interface: Interface, last_number: int, line: str) -> Row:
    """Reads the row after that of `last_number`."""
    words = line.split(" ")
    if len(words) != 3 or "" in words:
        raise Refused(NOT_A_ROW)
    number = read_number(words[0], BAD_NUMBER)
    if number <= last_number:
        raise Refused(BAD_NUMBER)
    if words[1] == "?" and interface.form == GAPS_FORM:
        return read_gap(interface, number, words[2])
    if words[1] not in ("T", "N"):
        raise Refused(BAD_SIDE)
    octets = read_octets(words[2])
    return PacketRow(number, Side(words[1]), octets, decode(interface, octets))


def read_trace(text: str) -> Trace:
    """Reads a trace. Fails with the first line that is refused."""
    interface: Interface | None = None
    rows: list[Row] = []
    lines = text.removesuffix("\n").split("\n") if text else []
    for number, line in enumerate(lines, 1):
        if line[:1] == "#":
            continue
        try:
            if interface is None:
                interface = read_header(line)
            else:
                rows.append(read_row(interface, rows[-1].number if rows else 0, line))
        except Refused as refused:
            refused.line = number
            raise
    if interface is None:
        raise Refused(NO_HEADER, len(lines) + 1)
    return Trace(interface, tuple(rows))


def header_of(interface: Interface) -> str:
    """The header of an interface, in the second or the third form."""
    one = interface
    numbers = [one.modulus, one.window, one.size, one.permanent, one.incoming, one.two_way, one.channels]
    words = [f"{name} {number}" for name, number in zip(LATER_NAMES, numbers)]
    return " ".join(["X25", str(one.form), *words] + ["JOIN"] * one.joined)


def row_line(row: Row) -> str:
    """The line of a row."""
    if isinstance(row, GapRow):
        return f"{row.number} ? {row.channel or '*'}"
    return f"{row.number} {row.side} {row.octets.hex() or '-'}"


def text_of(trace: Trace) -> str:
    """The text of a trace of the second or the third form."""
    return "".join(f"{line}\n" for line in [header_of(trace.interface), *map(row_line, trace.rows)])

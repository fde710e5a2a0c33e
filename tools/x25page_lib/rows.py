"""The rows of a page: what x25scan prints of each, and its array; words that many rows have are in tables."""
from __future__ import annotations

from collections.abc import Hashable, Iterable
from functools import lru_cache
from operator import itemgetter
from typing import Any, Protocol

from x25tools_lib.frames import Frames

from .texts import encoded, plain

SIDES = "TN"
# Packets that are no news while all goes well, and members that are.
FLOWING = {"data", "rr", "rnr", "interrupt", "interrupt_confirmation"}
SHORT = {"send": "s", "receive": "r", "octets": "o", "more": "m", "qualified": "q", "delivery": "d"}
BITS = (("more", "m"), ("qualified", "q"), ("delivery", "d"))
OCTETS_TEXT, FRAME_TEXT = '"o":', '"frame":'
# The members that each row has, and which a page keeps apart from the others.
EACH = ("packet", "side", "channel", "before", "after", "counted", "finding", "owed", "call", "time", "type", "hex")
BASE, APART = itemgetter(*EACH), frozenset((*EACH, "line", "epoch", "frame", "circuit"))
SECOND = 1_000_000
# The state of a channel after a gap.
ADRIFT = "adrift"
# Seconds: no recorder's clock is later, and up to it a float has whole microseconds.
LATEST = 1 << 32
# The most triples of a kind and two states that are cached.
REMEMBERED = 1 << 15
# The index of a quiet row's octets in its array.
OCTETS = 6
# A quiet row: its packet, its side, its time, its octets and segments of data, its ladder, its kind, its hex digits, and what
# else it has.
Flowing = tuple[int, int, "int | None", int, "int | None", Any, str, str, dict[str, Any]]


def microseconds(seconds: float | None) -> int | None:
    """A number of seconds in microseconds, which are what a page shows; None where there is none."""
    return round(seconds * SECOND) if seconds is not None and seconds < LATEST else None


def in_seconds(time: int | None) -> float | None:
    """Microseconds as seconds; None stays None."""
    return None if time is None else time / SECOND


class Level(Protocol):
    """How much of a row is kept."""

    @property
    def digits(self) -> int:
        """The hex digits of its octets."""


class Row:
    """A row that may be kept; `members` is the whole object of x25scan."""

    is_gap = False
    __slots__ = (
        "packet", "side", "channel", "before", "after", "segments", "finding", "code", "owed", "call", "time", "kind",
        "hex", "frame", "members", "octets", "receive", "is_data", "is_marked", "is_quiet", "forms",
    )

    def __init__(self, it: dict[str, Any], forms: RowForms) -> None:
        self.packet: int
        self.channel: int | None
        self.before: str
        self.after: str
        self.finding: dict[str, str] | None
        self.owed: bool
        self.call: int | None
        self.kind: str
        self.hex: str
        (
            self.packet, side, self.channel, self.before, self.after, counted, self.finding, self.owed, self.call, time,
            self.kind, self.hex,
        ) = BASE(it)
        self.side = SIDES.index(side)
        self.segments: int | None = counted and counted["segments"]
        self.code: str | None = None if self.finding is None else self.finding["code"]
        self.time = microseconds(time)
        self.members, self.forms = it, forms
        self.frame = forms.frame_of(self.packet, it.get("frame"))
        self.octets: int = it.get("octets", 0)
        self.receive: int | None = it.get("receive")
        self.is_data = self.kind == "data"
        self.is_marked: bool = (
            self.code is not None or self.before != self.after or self.kind not in FLOWING
            or it["begins"] or it["up"] or bool(it["ends"]) or "message" in it or "settings" in it
        )
        # The common case: counted data or an RR in d1, and nothing else to show.
        self.is_quiet: bool = (
            not self.is_marked and not self.owed and self.after == "d1" and (counted is not None or self.kind == "rr")
        )

    def kept(self, level: Level) -> Kept:
        """What a page keeps of the row, with the hex digits of a level; a finding keeps eight times as many."""
        return Kept(self.forms.text(self, level.digits * 8 if self.code else level.digits), self)


def cut(text: str, digits: int) -> str:
    """The text of a row with at most this number of digits of its octets."""
    if len(text) > digits:
        begin = text.index('"') + 1
        end = text.index('"', begin)
        if end - begin > digits:
            return text[:begin + digits] + text[end:]
    return text


def is_plain(text: str) -> bool:
    """Whether a text needs no escape in JSON, like hex digits."""
    # isalnum of bytes is ten times as fast.
    return text.encode("ascii", "replace").isalnum()


class Kept:
    """A row that a page keeps: its text, and what a sum needs of it."""

    is_gap = False
    __slots__ = ("packet", "side", "octets", "code", "is_data", "is_marked", "frame", "text")

    def __init__(self, text: str, row: Row | None = None) -> None:
        """Of a quiet row the text alone is known."""
        self.text = text
        if row is not None:
            self.packet, self.side, self.octets, self.code = row.packet, row.side, row.octets, row.code
            self.is_data, self.is_marked, self.frame = row.is_data, row.is_marked, row.frame
            return
        packet, side, _ = text[1:].split(",", 2)
        _, found, octets = text.rpartition(OCTETS_TEXT)
        self.packet, self.side, self.code, self.is_marked = int(packet), int(side), None, False
        self.octets, self.is_data = int(octets.split(",")[0]) if found else 0, bool(found)
        _, is_other, frame = text.rpartition(FRAME_TEXT)
        self.frame = int(frame.rstrip("}]")) if is_other else None

    @classmethod
    def flowing(cls, text: str, row: Flowing) -> Kept:
        """A quiet row with its text."""
        kept = cls.__new__(cls)
        kept.text, (kept.packet, kept.side, _, kept.octets, segments, *_, members) = text, row
        kept.code, kept.is_marked, kept.is_data, kept.frame = None, False, segments is not None, members.get("frame")
        return kept

    def kept(self, level: Level) -> Kept:
        """The row with the hex digits that a level keeps."""
        self.text = cut(self.text, level.digits * 8 if self.code else level.digits)
        return self


class Missing(Kept):
    """A gap in a ladder: packets of its channel may be missing there, or of all channels where it names none."""

    is_gap = True
    __slots__ = ()

    def __init__(self, packet: int, channel: int | None, frame: int | None) -> None:
        self.packet, self.frame = packet, frame
        self.side, self.octets, self.code, self.is_data, self.is_marked = 0, 0, None, False, True
        self.text = encoded({"missing": packet, "channel": channel, **({} if frame is None else {"frame": frame})})

    def kept(self, level: Level) -> Kept:
        """The same at each level."""
        return self


def members_of(it: dict[str, Any]) -> dict[str, Any]:
    """The other members of a quiet row, from its object."""
    if it["type"] != "data":
        return {"r": it["receive"]}
    bits = {short: True for name, short in BITS if it[name]}
    return {"s": it["send"], "r": it["receive"], **bits, "o": it["octets"], "c": it["counted"]["segments"]}


class Table:
    """Values, each with an index."""

    def __init__(self) -> None:
        self.places: dict[Hashable, int] = {}

    def place(self, value: Hashable) -> int:
        return self.places.setdefault(value, len(self.places))

    def values(self) -> list[Hashable]:
        return list(self.places)


class RowForms:
    """Makes the arrays of rows."""

    def __init__(self) -> None:
        self.types, self.states, self.faults = Table(), Table(), Table()
        self.frames = Frames()
        # The first time of the trace.
        self.begun: int | None = None
        self.step = lru_cache(REMEMBERED)(self.places)
        self.steps: dict[str, list[int]] = {}

    def begin(self, time: int) -> None:
        """Sets the first time of the trace."""
        if self.begun is None:
            self.begun = time

    def frame_of(self, packet: int, frame: int | None) -> int | None:
        """Reads the frame of the next packet; returns it as the page shows it.

        That is None where it is the packet's number, or where no packet so far has a frame; and 0 where it is unknown.
        """
        frames = self.frames
        if frame is None:
            frames.add(packet, None)
            return None if frames.begun is None else 0
        frames.add(packet, frame)
        return frame if frame != packet else None

    def since_begin(self, time: int) -> float:
        """A time after the first one, in seconds."""
        return (time - (self.begun or 0)) / SECOND

    def text(self, row: Row, digits: int) -> str:
        """The array of a row in the page, with this number of hex digits of its octets."""
        time = "null" if row.time is None else self.since_begin(row.time)
        shown = row.hex[:digits]
        text = f'"{shown}"' if is_plain(shown) else encoded(shown)
        step = self.step(row.kind, row.before, row.after)
        return f"[{row.packet},{row.side},{step},{time},{text},{len(row.hex) // 2},{self.more(row)}]"

    def places(self, kind: str, before: str, after: str) -> str:
        """The kind of packet and the states before and after it, by index."""
        return f"{self.types.place(kind)},{self.states.place(before)},{self.states.place(after)}"

    def quiet(self, row: Row, digits: int) -> str:
        """The array of a quiet row."""
        shown = row.hex[:digits]
        if not is_plain(shown):
            return self.text(row, digits)
        members = members_of(row.members)
        if row.frame is not None:
            members["frame"] = row.frame
        array, = self.arrays([(row.packet, row.side, row.time, 0, None, None, row.kind, row.hex, members)], digits)
        return plain(array)

    def arrays(self, rows: Iterable[Flowing], digits: int) -> list[list[Any]]:
        """The arrays of quiet rows, with this number of hex digits of their octets."""
        begun, steps = self.begun or 0, self.steps
        return [
            [packet, side, *(steps.get(kind) or self.quiet_step(kind)), None if time is None else (time - begun) / SECOND,
             octets[:digits], len(octets) // 2, members]
            for packet, side, time, _, _, _, kind, octets, members in rows
        ]

    def quiet_step(self, kind: str) -> list[int]:
        """The kind of a quiet row and its state, by index."""
        self.steps[kind] = [self.types.place(kind), *[self.states.place("d1")] * 2]
        return self.steps[kind]

    def more(self, row: Row) -> str:
        """The other members of a row that are not null, false or empty."""
        found: dict[str, Any] = {"owed": True} if row.owed else {}
        for name, value in row.members.items():
            if (value or value == 0 and value is not False) and name not in APART:
                found[SHORT.get(name, name)] = value
        if row.frame is not None:
            found["frame"] = row.frame
        if row.segments is not None:
            found["c"] = row.segments
        if row.finding is not None:
            found["f"] = self.fault(row.finding)
        return encoded(found) if found else "0"

    def fault(self, finding: dict[str, str]) -> list[int | str]:
        """The finding of a row: its index among all, and its words."""
        place = self.faults.place(tuple(finding[name] for name in ("code", "name", "then", "clause")))
        return [place, finding["wrong"]]

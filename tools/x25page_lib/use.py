"""What was used: octets a segment, packets and octets over time, calls by the cause of their end, and with it the waits."""
from __future__ import annotations

from array import array
from collections import Counter
from collections.abc import Iterator, Sequence
from typing import Any

from .rows import SECOND, SIDES, Row
from .waits import Waits
from .windows import Windows

SEGMENT, SMALL = 64, 32
# The lengths of the parts of a chart in seconds, each a multiple of the one before; and the most parts of the chart.
STEPS = (1, 5, 15, 60, 300, 900, 3600, 14_400, 86_400, 604_800)
MOST_PARTS = 480
# How a call ended whose last packet was not recorded.
UNRECORDED, CUT_OFF = "not recorded", "connection ended without a clear"
WAYS = ("T", "N", "collision", "restart", "gap", "open", UNRECORDED, CUT_OFF)
DATA_TRANSFER = frozenset(("data", "rr", "rnr"))


class Segments:
    """The segments of the data that was counted, and those that hold few octets, by side."""

    def __init__(self) -> None:
        # How many packets of a side there were, by their octets and segments; packets other than data have none.
        self.packets: Counter[tuple[int, int, int | None]] = Counter()

    def facts(self) -> list[list[int]]:
        """Of each side its octets, its segments, and the segments with fewer than 32 octets."""
        sums = [[0, 0, 0] for _ in SIDES]
        for (side, octets, segments), many in self.packets.items():
            if segments:
                # The last segment has the octets that do not fill one.
                is_small = octets - SEGMENT * (segments - 1) < SMALL
                sums[side] = [it + many * more for it, more in zip(sums[side], (octets, segments, is_small))]
        return sums


class Parts:
    """Packets and octets of data in equal parts of the time of a trace."""

    def __init__(self) -> None:
        self.at, self.unit = 0, STEPS[0] * SECOND
        # The packets and octets of each part that has a packet.
        self.parts: dict[int, list[int]] = {}

    @property
    def step(self) -> int:
        return STEPS[self.at]

    def add(self, time: int, octets: int) -> None:
        """Adds a packet by its time in microseconds."""
        part = time // self.unit
        counts = self.parts.get(part)
        if counts is None:
            counts = self.parts[part] = [0, 0]
            if len(self.parts) > MOST_PARTS:
                self.join()
                counts = self.parts[time // self.unit]
        counts[0] += 1
        counts[1] += octets

    def add_all(self, times: Sequence[int], octets: Sequence[int]) -> None:
        """Adds packets by their times and octets: at once where all are in one part, else half by half."""
        part, middle = min(times) // self.unit, len(times) // 2
        counts = self.parts.get(part)
        if counts is not None and max(times) // self.unit == part:
            counts[0] += len(times)
            counts[1] += sum(octets)
        elif middle:
            self.add_all(times[:middle], octets[:middle])
            self.add_all(times[middle:], octets[middle:])
        else:
            self.add(times[0], octets[0])

    def join(self) -> None:
        """Makes the parts longer until few are kept."""
        while len(self.parts) > MOST_PARTS // 2 and self.at + 1 < len(STEPS):
            self.lengthen()

    def finish(self) -> None:
        """Makes the parts so long that one chart shows the whole time, including parts without packets."""
        while self.span() > MOST_PARTS and self.at + 1 < len(STEPS):
            self.lengthen()

    def lengthen(self) -> None:
        many = STEPS[self.at + 1] // STEPS[self.at]
        joined: dict[int, list[int]] = {}
        self.at += 1
        self.unit = STEPS[self.at] * SECOND
        for part, (packets, octets) in self.parts.items():
            counts = joined.setdefault(part // many, [0, 0])
            counts[0] += packets
            counts[1] += octets
        self.parts = joined

    def span(self) -> int:
        return max(self.parts) - min(self.parts) + 1 if self.parts else 0

    def facts(self) -> dict[str, Any] | None:
        """The seconds of a part, the time of the first one, and for each part with a packet its index, packets and octets."""
        if not self.parts:
            return None
        first = min(self.parts)
        lines = [[part - first, *counts] for part, counts in sorted(self.parts.items())]
        return {"seconds": self.step, "begin": first * self.step, "parts": lines}


class Causes:
    """How many calls ended in each way."""

    def __init__(self) -> None:
        # How each call ended, as an index of WAYS, and its segments; calls are numbered from 1.
        self.ways, self.segments = bytearray(), array("Q")
        self.counts: dict[tuple[Any, ...], list[int]] = {}

    def add(self, call: dict[str, Any]) -> None:
        """Adds how a call ended."""
        if call["call"] != len(self.ways) + 1:
            raise ValueError("a call that is not the next one")
        self.ways.append(WAYS.index(call["how"]))
        self.segments.append(call["segments"])

    def facts_of(self, call: dict[str, Any]) -> None:
        """Adds the cause and the diagnostic code of the end of a call."""
        place = call["call"] - 1
        names = [None if it is None else (it["value"], it["name"]) for it in (call["cause"], call["diagnostic"])]
        counts = self.counts.setdefault((WAYS[self.ways[place]], *names), [0, 0, call["call"]])
        counts[0] += 1
        counts[1] += self.segments[place]

    def lines(self) -> list[list[Any]]:
        """The most frequent first: how, cause, diagnostic code, calls, segments and the first call."""
        ordered = sorted(self.counts.items(), key=lambda it: (-it[1][0], it[1][2]))
        return [[how, cause, diagnostic, *counts] for (how, cause, diagnostic), counts in ordered]


class Use:
    """What was used and waited for in a trace, from its rows and its calls."""

    def __init__(self) -> None:
        self.segments, self.parts, self.causes = Segments(), Parts(), Causes()
        self.waits, self.windows = Waits(), Windows()
        self.time: int | None = None

    def begin(self, window: int, modulus: int) -> None:
        """Sets the window and the modulus of the header."""
        self.windows = Windows(window, modulus)

    def flow(self, row: Row, key: str) -> None:
        """Adds a quiet row: data that was counted, or an RR."""
        self.count(row)
        if row.time is not None:
            self.windows.data(row, key, row.time)

    def count(self, row: Row) -> None:
        """Adds what a row used."""
        self.add(row.side, row.time, row.octets, row.segments)

    def add(self, side: int, time: int | None, octets: int, segments: int | None) -> None:
        """Adds the octets of a packet of a side, which count where they have segments."""
        if segments is not None:
            self.segments.packets[side, octets, segments] += 1
        if time is not None:
            self.time = time
            self.parts.add(time, 0 if segments is None else octets)

    def pass_time(self, times: Sequence[int], octets: Sequence[int]) -> None:
        """Adds the times of quiet rows, and their octets of data."""
        self.parts.add_all(times, octets)
        self.time = times[-1]

    def see(self, row: Row, key: str) -> None:
        """Reads what a row requests and answers, with the key of its ladder; not of a recording of one side."""
        time = row.time
        if row.kind in DATA_TRANSFER and row.before == row.after == "d1" and not row.code:
            if time is not None:
                self.windows.data(row, key, time)
            return
        self.waits.see(row, key)
        if time is not None:
            self.windows.signal(row, time)

    def miss(self, channel: int | None) -> None:
        """Reads a gap of a channel, or of all: what the missing packets answered is unknown."""
        self.waits.miss(channel)
        self.windows.miss(channel)

    def finish(self) -> None:
        """Ends the rows."""
        self.waits.finish(self.time)
        self.windows.finish(self.time)
        self.parts.finish()

    def packets(self) -> Iterator[int | None]:
        """The numbers of the packets that the waits and the windows name."""
        yield from (it.packet for it in self.waits.sums())
        yield from (packet for _, packet, *_ in self.waits.lines())
        yield from (packet for *_, first, last in self.windows.lines() for packet in (first, last))
        yield from (it.longest[1] for it in self.windows.spreads if it.longest)

    def facts(self) -> dict[str, Any]:
        """What a page has of it."""
        waited = [[it.of.name, it.of.seconds, it.of.request, it.of.side, it.requests, it.ends, it.late, it.longest,
                   it.packet, it.key] for it in self.waits.sums()]
        return {
            "waited": waited,
            "waits": self.waits.lines(),
            "waits_left_out": self.waits.left_out,
            "acknowledged": [it.facts() for it in self.windows.spreads],
            "closed": self.windows.lines(),
            "closed_left_out": self.windows.left_out,
            "segments": self.segments.facts(),
            "parts": self.parts.facts(),
            "causes": self.causes.lines(),
        }

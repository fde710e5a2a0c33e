"""The calls of a page: an array of each, within a budget of bytes, those with the most findings first."""
from __future__ import annotations

import heapq
from array import array
from collections.abc import Iterator
from typing import Any

from .rows import Table
from .texts import encoded

MEMBERS = ("call", "epoch", "channel", "direction", "called", "calling", "opened", "up", "ended", "how",
           "data_t", "octets_t", "data_n", "octets_n", "segments")
FACTS = ("pays", "payer", "cleared_by", "cause", "diagnostic", "findings", "start", "seconds", "gaps", "segments_t")
COLUMNS = (*MEMBERS, *FACTS)
PACKETS = tuple(map(MEMBERS.index, ("opened", "up", "ended")))
# Bytes: few arrays of calls are longer.
BYTES = 130
# Multiples of the first, modulo the second, are spread evenly over the range: the golden section of 2^32.
SPREADING, RANGE = 2_654_435_769, 1 << 32


class Calls:
    """The calls that a page has."""

    def __init__(self, budget: int) -> None:
        self.budget, self.left_out = budget, 0
        self.findings: dict[int, int] = {}
        # The segments of the DTE's data in each call, by its number.
        self.segments_t = array("Q")
        self.kept: dict[int, list[Any]] = {}
        self.names = Table()
        self.waiting: list[tuple[int, ...]] = []
        self.most = budget // BYTES

    def count(self, call: int) -> None:
        """Counts a finding of a row of the call."""
        self.findings[call] = self.findings.get(call, 0) + 1

    def share(self, call: int, segments: int) -> None:
        """Counts data of the DTE in the call."""
        if call >= len(self.segments_t):
            self.segments_t.frombytes(bytes(self.segments_t.itemsize * (call + 1 - len(self.segments_t))))
        self.segments_t[call] += segments

    def add(self, it: dict[str, Any]) -> None:
        """Adds what the report says of a call; those with the fewest findings and segments are left out.

        Of calls with equal numbers some are kept, spread evenly over the trace.
        """
        number = it["call"]
        rank = (self.findings.get(number, 0), it["segments"], number * SPREADING % RANGE, number)
        self.kept[number] = [it[name] for name in MEMBERS]
        heapq.heappush(self.waiting, rank)
        if len(self.waiting) > self.most:
            self.leave_out()

    def leave_out(self) -> None:
        *_, number = heapq.heappop(self.waiting)
        del self.kept[number]
        self.left_out += 1

    def facts(self, it: dict[str, Any]) -> None:
        """Adds what objects other than the call's line of the report have of the call."""
        if it["call"] in self.kept:
            it["segments_t"] = self.segments_t[it["call"]] if it["call"] < len(self.segments_t) else 0
            it["cause"], it["diagnostic"] = map(self.named, (it["cause"], it["diagnostic"]))
            it["findings"] = {finding["code"]: finding["count"] for finding in it["findings"]} or None
            self.kept[it["call"]] += [it[name] for name in FACTS]

    def named(self, value: dict[str, Any] | None) -> int | None:
        """The index of a cause or a diagnostic code, with its name, in its table."""
        return None if value is None else self.names.place((value["value"], value["name"]))

    def packets(self) -> Iterator[int | None]:
        """The packets that opened the calls, brought them up and ended them."""
        return (array[place] for array in self.kept.values() for place in PACKETS)

    def text(self) -> str:
        """The arrays of the calls in their order, without more than the budget allows."""
        texts = {call: encoded(array) for call, array in self.kept.items()}
        size = sum(map(len, texts.values())) + len(texts)
        while size > self.budget:
            *_, number = heapq.heappop(self.waiting)
            size -= len(texts.pop(number)) + 1
            self.left_out += 1
        return f"[{','.join(texts.values())}]"

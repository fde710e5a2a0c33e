"""Requests and how long they waited for an answer: the time-outs of X.25 Annex D name them. None of this is a finding."""
from __future__ import annotations

import heapq
from dataclasses import dataclass, field
from typing import Any

from .rows import SECOND, SIDES, Row

DTE, DCE = (SIDES.index(side) for side in "TN")
# The most waits that are listed: those without an answer and those past their time-out, the longest first.
MOST_LISTED = 2000
ANSWERED, GIVEN_UP, RESTARTED, OPEN = "answered", "given up", "restart", "open"


@dataclass(frozen=True)
class TimeOut:
    """A time-out of X.25 Annex D: its name, its seconds, what it waits for, and the states in which it runs."""

    name: str
    seconds: int
    request: str
    side: int
    states: tuple[str, ...]


# By the packet that starts it: Table D-1 has those of the DCE, Table D-2 those of the DTE.
TIME_OUTS = {
    "restart_indication": TimeOut("T10", 60, "restart indication", DCE, ("r3",)),
    "incoming_call": TimeOut("T11", 180, "incoming call", DCE, ("p3",)),
    "reset_indication": TimeOut("T12", 60, "reset indication", DCE, ("d3",)),
    "clear_indication": TimeOut("T13", 60, "clear indication", DCE, ("p7",)),
    "restart_request": TimeOut("T20", 180, "restart request", DTE, ("r2",)),
    "call_request": TimeOut("T21", 200, "call request", DTE, ("p2", "p5")),
    "reset_request": TimeOut("T22", 180, "reset request", DTE, ("d2",)),
    "clear_request": TimeOut("T23", 180, "clear request", DTE, ("p6",)),
}


@dataclass(slots=True)
class Wait:
    """A request without an answer so far; it may be sent several times."""

    of: TimeOut
    packet: int
    key: str
    channel: int | None
    # The time of its first packet, in microseconds.
    begun: int | None
    sent: int = 1


@dataclass
class Waited:
    """The requests of a time-out: how many there were, how they ended, and the longest wait."""

    of: TimeOut
    requests: int = 0
    ends: dict[str, int] = field(default_factory=lambda: dict.fromkeys((ANSWERED, GIVEN_UP, RESTARTED, OPEN), 0))
    # Those that waited for longer than the time-out, however they ended.
    late: int = 0
    longest: float | None = None
    packet: int | None = None
    key: str | None = None

    @property
    def unanswered(self) -> int:
        return self.requests - self.ends[ANSWERED]


class Waits:
    """The requests of a trace, each from its packet to what ends its wait."""

    def __init__(self) -> None:
        self.open: dict[int | None, Wait] = {}
        self.kinds = {kind: Waited(it) for kind, it in TIME_OUTS.items()}
        self.by_name = {it.of.name: it for it in self.kinds.values()}
        # A heap of the listed waits, the shortest first, which are left out first.
        self.listed: list[tuple[float, int, list[Any]]] = []
        self.left_out = 0

    def see(self, row: Row, key: str) -> None:
        """Reads a row other than flowing data, which may end a wait and begin one."""
        if row.channel is None and row.kind.startswith("restart_") and row.before == "r1" and row.after != "r1":
            self.end_channels(row.time)
        wait = self.open.get(row.channel)
        if wait is not None and row.after not in wait.of.states:
            del self.open[row.channel]
            self.end(wait, ANSWERED if row.side != wait.of.side else GIVEN_UP, row.time)
            wait = None
        time_out = TIME_OUTS.get(row.kind)
        if time_out is None or row.code or row.after not in time_out.states:
            return
        if wait is None:
            self.open[row.channel] = Wait(time_out, row.packet, key, row.channel, row.time)
        elif wait.of is time_out:
            wait.sent += 1

    def end_channels(self, time: int | None) -> None:
        """Ends the waits on all channels after a restart."""
        for channel in [it for it in self.open if it is not None]:
            self.end(self.open.pop(channel), RESTARTED, time)

    def miss(self, channel: int | None) -> None:
        """Reads a gap of a channel, or of all: its requests may have been answered, and are dropped."""
        if channel is None:
            self.open.clear()
        else:
            self.open.pop(channel, None)

    def finish(self, time: int | None) -> None:
        """Ends the trace, whose last time is known now."""
        for wait in self.open.values():
            self.end(wait, OPEN, time)
        self.open.clear()

    def end(self, wait: Wait, how: str, time: int | None) -> None:
        seconds = None if time is None or wait.begun is None else max(0, time - wait.begun) / SECOND
        waited = self.by_name[wait.of.name]
        waited.requests += 1
        waited.ends[how] += 1
        if seconds is not None and (waited.longest is None or seconds > waited.longest):
            waited.longest, waited.packet, waited.key = seconds, wait.packet, wait.key
        is_late = seconds is not None and seconds > wait.of.seconds
        waited.late += is_late
        if is_late or how != ANSWERED:
            self.keep(wait, how, seconds)

    def keep(self, wait: Wait, how: str, seconds: float | None) -> None:
        line = [wait.of.name, wait.packet, wait.key, wait.channel, wait.sent, seconds, how]
        heapq.heappush(self.listed, (-1 if seconds is None else seconds, -wait.packet, line))
        if len(self.listed) > MOST_LISTED:
            heapq.heappop(self.listed)
            self.left_out += 1

    def sums(self) -> list[Waited]:
        """The time-outs that had a request."""
        return [it for it in self.kinds.values() if it.requests]

    def lines(self) -> list[list[Any]]:
        """The listed waits, the longest first: time-out, packet, ladder, channel, times sent, seconds, and how it ended."""
        return [line for *_, line in sorted(self.listed, reverse=True)]

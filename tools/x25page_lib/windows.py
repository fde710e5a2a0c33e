"""Data and its acknowledgement: how long each took, and how long a window was closed, by call and side."""
from __future__ import annotations

import heapq
import math
from array import array
from collections import deque
from operator import itemgetter
from typing import Any

from .evenly import Evenly
from .rows import ADRIFT, SECOND, SIDES, Row

# The most times of a side that are kept, spread evenly over the trace.
MOST_TIMES = 1 << 18
MOST_CLOSED = 1000
MOST_WAITING = 256
OPENING = ("call_request", "incoming_call")
ACCEPTING = ("call_accepted", "call_connected")
DTE, DCE = (SIDES.index(side) for side in "TN")
Pair = tuple[int, int]


class Spread(Evenly):
    """Times in microseconds, for their median and other ranks."""

    def __init__(self) -> None:
        super().__init__(array("q"), MOST_TIMES)
        self.longest: tuple[int, int, str] | None = None
        # Times that are not added yet, with their packets and ladders: adding many at once is faster.
        self.waiting: list[tuple[int, int, str]] = []

    def add(self, time: int, packet: int, key: str) -> None:
        """Adds a time with its packet and its ladder."""
        self.waiting.append((time, packet, key))
        if len(self.waiting) >= MOST_WAITING:
            self.settle()

    def settle(self) -> None:
        """Adds the times that are not added yet."""
        waiting, self.waiting = self.waiting, []
        if waiting:
            longest = max(waiting, key=itemgetter(0))
            if self.longest is None or longest[0] > self.longest[0]:
                self.longest = longest
            self.add_all([time for time, _, _ in waiting])

    def ranks(self, *parts: float) -> list[float]:
        """The times that these parts of all times do not exceed."""
        ordered = sorted(self.kept)
        return [ordered[max(0, math.ceil(part * len(ordered)) - 1)] / SECOND for part in parts]

    def facts(self) -> list[Any] | None:
        """How many there are, the median, the 95th percentile, and the longest with its packet and its ladder."""
        self.settle()
        if self.longest is None:
            return None
        time, packet, key = self.longest
        return [self.seen, *self.ranks(0.5, 0.95), time / SECOND, packet, key]


class Direction:
    """The data of one side on a channel in d1: the packets without an acknowledgement, and since when the window is closed."""

    __slots__ = ("waiting", "edge", "window", "modulus", "is_not_ready", "closed", "longest", "spread", "key")

    def __init__(self, window: int, modulus: int, spread: Spread, key: str, edge: int | None = 0) -> None:
        # The packets without an acknowledgement, with their times.
        self.waiting: deque[Pair] = deque()
        # The last P(R) of the other side, None where a gap hides it.
        self.edge, self.is_not_ready = edge, False
        # The packet that closed the window, with its time; and the longest closed time, with the packets at its beginning and end.
        self.closed: Pair | None = None
        self.longest: tuple[int, int, int | None] | None = None
        self.window, self.modulus, self.spread, self.key = window, modulus, spread, key

    def acknowledge(self, receive: int, time: int) -> None:
        """Reads a P(R) of the other side, which acknowledges data."""
        waiting, edge = self.waiting, self.edge
        self.edge = receive
        if edge is None:
            waiting.clear()
            return
        many = (receive - edge) % self.modulus
        while many and waiting:
            many -= 1
            packet, sent = waiting.popleft()
            self.spread.add(time - sent if time > sent else 0, packet, self.key)

    def look(self, packet: int, time: int) -> None:
        """Checks whether the window is closed after a packet."""
        is_closed = self.is_not_ready or len(self.waiting) >= self.window
        closed = self.closed
        if is_closed and closed is None:
            self.closed = (packet, time)
        elif closed is not None and not is_closed:
            self.closed = None
            self.open_again(closed, packet, time)

    def open_again(self, closed: Pair, packet: int | None, time: int) -> None:
        took, longest = time - closed[1] if time > closed[1] else 0, self.longest
        if longest is None or took > longest[0]:
            self.longest = (took, closed[0], packet)


class Flow:
    """The data of both sides on a channel in d1."""

    __slots__ = ("directions", "key")

    def __init__(
        self, windows: Pair, modulus: int, spreads: tuple[Spread, Spread], key: str, edge: int | None = 0,
    ) -> None:
        self.directions = [Direction(*each, key, edge) for each in zip(windows, (modulus, modulus), spreads)]
        self.key = key

    def data(self, side: int, sent: Pair, receive: int | None) -> None:
        """Reads accepted data of a side, with its packet and its time."""
        own, other = self.directions[side], self.directions[1 - side]
        if receive is not None and receive != other.edge:
            other.acknowledge(receive, sent[1])
        own.waiting.append(sent)
        if own.closed is None and len(own.waiting) >= own.window:
            own.closed = sent
        if other.closed is not None or other.is_not_ready:
            other.look(*sent)

    def ready(self, side: int, sent: Pair, receive: int | None, is_ready: bool = True) -> None:
        """Reads an RR or an RNR of a side, with its packet and its time."""
        other = self.directions[1 - side]
        if receive is not None and receive != other.edge:
            other.acknowledge(receive, sent[1])
        other.is_not_ready = not is_ready
        if other.closed is not None or not is_ready:
            other.look(*sent)


class Windows:
    """The flow of data on all channels of a trace with times."""

    def __init__(self, window: int = 2, modulus: int = 8) -> None:
        self.standard, self.modulus = (window, window), modulus
        self.flows: dict[int | None, Flow] = {}
        # The windows that a call agreed on, by its channel: of the DTE's data and of the DCE's.
        self.agreed: dict[int | None, Pair] = {}
        # The channels with a gap since their numbers began.
        self.unsure: set[int | None] = set()
        self.spreads = (Spread(), Spread())
        self.closed: list[tuple[int, int, list[Any]]] = []
        self.left_out = 0

    def data(self, row: Row, key: str, time: int) -> None:
        """Reads accepted data, an RR or an RNR in d1."""
        flow, sent = self.flow(row.channel, key), (row.packet, time)
        if row.is_data:
            flow.data(row.side, sent, row.receive)
        else:
            flow.ready(row.side, sent, row.receive, row.kind != "rnr")

    def flow(self, channel: int | None, key: str) -> Flow:
        """The flow of a channel; a new one where there is none."""
        flow = self.flows.get(channel)
        if flow is None:
            windows = self.agreed.get(channel, self.standard)
            edge = None if channel in self.unsure else 0
            flow = self.flows[channel] = Flow(windows, self.modulus, self.spreads, key, edge)
        return flow

    def signal(self, row: Row, time: int) -> None:
        """Reads another row: a change of state ends the flow of its channel, and a restart that of all channels."""
        if row.channel is None:
            if row.before != row.after:
                for channel in list(self.flows):
                    self.end(channel, time)
                self.agreed.clear()
                self.unsure.clear()
            return
        if row.before != row.after:
            # A channel that was settled has the numbers of its data, and one that was reset begins anew.
            (self.unsure.add if row.before == ADRIFT else self.unsure.discard)(row.channel)
        if row.before != row.after and row.channel in self.flows:
            self.end(row.channel, time)
        if row.kind in OPENING and not row.code:
            self.agreed.pop(row.channel, None)
        if (row.kind in OPENING or row.kind in ACCEPTING) and not row.code:
            self.agree(row)

    def agree(self, row: Row) -> None:
        """Reads the windows that a call packet carries."""
        windows = row.members.get("windows")
        if not windows:
            return
        is_calling = row.kind in ("call_request", "call_connected")
        dte, dce = ("calling", "called") if is_calling else ("called", "calling")
        self.agreed[row.channel] = (windows[dte], windows[dce])

    def miss(self, channel: int | None) -> None:
        """Reads a gap of a channel, or of all: a missing packet may have opened a closed window."""
        for each in list(self.flows) if channel is None else self.flows.keys() & {channel}:
            for direction in self.flows[each].directions:
                direction.closed = None
            self.end(each, 0)

    def end(self, channel: int | None, time: int) -> None:
        """Ends the flow of a channel: a closed window counts as closed until now."""
        flow = self.flows.pop(channel)
        for side, it in enumerate(flow.directions):
            if it.closed is not None:
                it.open_again(it.closed, None, time)
            if it.longest is not None:
                took, first, last = it.longest
                self.keep(took, first, [flow.key, channel, side, took / SECOND, first, last])

    def keep(self, took: int, first: int, line: list[Any]) -> None:
        """Lists a window, and drops the shortest one where there are too many."""
        heapq.heappush(self.closed, (took, -first, line))
        if len(self.closed) > MOST_CLOSED:
            heapq.heappop(self.closed)
            self.left_out += 1

    def finish(self, time: int | None) -> None:
        """Ends the trace."""
        for channel in list(self.flows):
            self.end(channel, time or 0)
        for spread in self.spreads:
            spread.settle()

    def lines(self) -> list[list[Any]]:
        """The longest time that the window of each call or channel and side was closed, the longest first.

        A line has the ladder, the channel, the side, the seconds, the packet that closed the window and the one that
        opened it, or none.
        """
        found: dict[tuple[str, int], list[Any]] = {}
        for *_, line in sorted(self.closed, reverse=True):
            # A reset ends the flow of a call, and another one begins.
            found.setdefault((line[0], line[2]), line)
        return list(found.values())

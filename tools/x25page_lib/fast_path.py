"""The fast path of data that was counted and of RR in d1, for which no Row is made."""
from __future__ import annotations

from collections.abc import Iterator
from dataclasses import dataclass
from operator import itemgetter
from typing import TYPE_CHECKING, Any

from x25tools_lib.json_text import names

from .ladders import Flowing, Ladder
from .rows import LATEST, SECOND, Row, members_of
from .windows import Flow

if TYPE_CHECKING:
    from .facts import Facts

LINE, TYPE, FRAME = names("line", "type", "frame")
# The members that are equal in all quiet rows.
STATES, QUIET = itemgetter(*names("before", "after", "finding")), ("d1", "d1", None)
# The members of an accepted packet: of RR, and of data.
EACH = ("packet", "side", "channel", "call", "time", "hex", "receive")
READY = itemgetter(*names(*EACH))
DATA = itemgetter(*names(*EACH, "octets", "send", "more", "qualified", "delivery", "counted"))
# The most rows that are kept back at once.
MOST_WAITING = 256


@dataclass(slots=True)
class FastChannel:
    """A channel without findings and changes of state: its call, and the counters that its rows are added to."""

    call: int | None
    ladder: Ladder
    flow: Flow | None


class FastPath:
    """The channels whose last row was quiet, by number."""

    def __init__(self, facts: Facts) -> None:
        self.facts = facts
        self.channels: dict[int | None, FastChannel] = {}
        # The rows that were read and not counted yet: counting many at once is faster.
        self.waiting: list[Flowing] = []

    def begin(self, row: Row, key: str) -> None:
        """Has the rows of a channel use the fast path, after a quiet row."""
        ladder = self.facts.ladders.ladders.get(key)
        if ladder is not None:
            self.channels[row.channel] = FastChannel(row.call, ladder, self.facts.use.windows.flows.get(row.channel))
            if row.call is not None:
                self.facts.calls.share(row.call, 0)

    def end(self, channel: int | None) -> None:
        """Has a channel leave the fast path, before a row that is not quiet; without a channel, all leave it."""
        if channel is None:
            self.channels.clear()
        else:
            self.channels.pop(channel, None)

    def take(self, objects: Iterator[dict[str, Any]]) -> dict[str, Any] | None:
        """Reads the quiet rows of the channels on the fast path; returns the first other object, or None at the end."""
        channels, frames, frame_of = self.channels, self.facts.forms.frames, self.facts.forms.frame_of
        shares = self.facts.calls.segments_t
        for it in objects:
            if it[LINE] != "row" or STATES(it) != QUIET:
                return it
            kind, octets, segments = it[TYPE], 0, None
            if kind == "data":
                packet, letter, channel, call, seconds, digits, receive, octets, send, more, qualified, delivery, counted = DATA(it)
                if qualified or counted is None:
                    return it
                segments = counted["segments"]
                members = members_of(it) if more or delivery else {"s": send, "r": receive, "o": octets, "c": segments}
            elif kind == "rr":
                packet, letter, channel, call, seconds, digits, receive = READY(it)
                members = {"r": receive}
            else:
                return it
            fast, is_timed = channels.get(channel), seconds is not None and seconds < LATEST
            if fast is None or fast.call != call or (fast.flow is not None) is not is_timed:
                return it
            flow, side, time = fast.flow, 0 if letter == "T" else 1, None
            if flow is not None:
                time = round(seconds * SECOND)
                if segments is None:
                    flow.ready(side, (packet, time), receive)
                else:
                    flow.data(side, (packet, time), receive)
            if segments and not side and call is not None:
                shares[call] += segments
            frame = it.get(FRAME)
            if frame != packet or frames.distance:
                frame = frame_of(packet, frame)
                if frame is not None:
                    members["frame"] = frame
            self.waiting.append((packet, side, time, octets, segments, fast.ladder, kind, digits, members))
            if len(self.waiting) == MOST_WAITING:
                self.settle()
        return None

    def settle(self) -> None:
        """Counts the rows that were kept back, and adds them to their ladders."""
        rows, self.waiting = self.waiting, []
        if rows:
            self.facts.count(rows)
        ladders = self.facts.ladders
        while rows:
            keeps = ladders.keeps
            rows = rows[ladders.flow(rows, self.facts.forms):]
            if ladders.keeps is not keeps:
                self.channels.clear()

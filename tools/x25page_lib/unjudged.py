"""Calls that both ends had and x25scan does not list: their request has a finding, or came in a state that ignores it."""
from __future__ import annotations

from dataclasses import dataclass, field
from typing import Any

from .rows import Row

# The packets that open a call, each with the packet of the other side that accepts it.
ACCEPTED_BY = {"call_request": "call_connected", "incoming_call": "call_accepted"}
CLEARS = {"clear_request": "T", "clear_indication": "N"}
MOST_KEPT = 500
# Why a call was not judged, in words after a number.
WHYS = {"found": "accepted though the request broke the protocol", "waiting": "begun on a channel that waits for an indication",
        "state": "begun in a state that allows no call"}


@dataclass
class Unjudged:
    """A call that was opened and accepted, and that the report does not have."""

    packet: int
    key: str
    channel: int
    side: int
    called: str | None
    calling: str | None
    # The code of the finding of its request, else the state of the channel before it and the packet that is still unanswered.
    code: str | None
    state: str
    waits_for: int | None
    accepted_by: str
    is_up: bool = False
    ended: int | None = None
    how: str = "open"
    data: list[int] = field(default_factory=lambda: [0, 0])
    octets: list[int] = field(default_factory=lambda: [0, 0])

    @property
    def why(self) -> str:
        """Why it was not judged: a word of WHYS."""
        return "waiting" if self.waits_for is not None else "found" if self.code is not None else "state"

    def line(self) -> list[Any]:
        """The array of a page."""
        return [self.channel, self.side, self.calling, self.called, self.packet, self.ended, self.how, *self.data, *self.octets,
                self.code, self.state, self.waits_for, self.key]


class UnjudgedCalls:
    """The calls of a trace that were not judged."""

    def __init__(self) -> None:
        self.open: dict[int, Unjudged] = {}
        self.all: list[Unjudged] = []
        self.many = self.data = self.octets = 0
        self.whys = dict.fromkeys(WHYS, 0)

    def see(self, row: Row, key: str, waits_for: int | None) -> None:
        """Reads a row that is not quiet, with the key of its ladder and the error that its channel waits to be answered."""
        channel = row.channel
        if channel is None:
            if row.before != row.after:
                for each in list(self.open):
                    self.end(each, row.packet, "restart")
            return
        if row.kind in ACCEPTED_BY:
            self.end(channel, row.packet, "open")
            if row.call is None:
                self.begin(row, channel, key, waits_for)
        elif channel in self.open:
            self.go_on(row, channel, self.open[channel])

    def begin(self, row: Row, channel: int, key: str, waits_for: int | None) -> None:
        """Begins a call with its request."""
        names = row.members
        self.open[channel] = Unjudged(row.packet, key, channel, row.side, names.get("called"), names.get("calling"), row.code,
                                      row.before, waits_for, ACCEPTED_BY[row.kind])

    def go_on(self, row: Row, channel: int, call: Unjudged) -> None:
        """Reads a row of a channel with such a call."""
        if row.kind == call.accepted_by and not call.is_up:
            call.is_up = True
            self.many += 1
            self.whys[call.why] += 1
            if len(self.all) < MOST_KEPT:
                self.all.append(call)
        elif row.call is not None:
            self.end(channel, row.packet, "open")
        elif row.kind in CLEARS:
            self.end(channel, row.packet, CLEARS[row.kind])
        elif row.is_data and call.is_up:
            call.data[row.side] += 1
            call.octets[row.side] += row.octets
            self.data += 1
            self.octets += row.octets

    def miss(self, channel: int | None) -> None:
        """Reads a gap of a channel, or of all: what follows may be of another call."""
        for each in list(self.open) if channel is None else self.open.keys() & {channel}:
            self.end(each, None, "gap")

    def end(self, channel: int, packet: int | None, how: str) -> None:
        """Ends the call of a channel, if there is one."""
        if call := self.open.pop(channel, None):
            call.ended, call.how = packet if how != "open" else None, how

    @property
    def left_out(self) -> int:
        return self.many - len(self.all)

    def lines(self) -> list[list[Any]]:
        return [it.line() for it in self.all]

    def sentence(self) -> str:
        """How many there are, why they were not judged, and what they carried."""
        reasons = [f"{self.whys[why]:,} {words}" for why, words in WHYS.items() if self.whys[why]]
        head = "One call was not judged" if self.many == 1 else f"{self.many:,} calls were not judged"
        of_them = "its" if self.many == 1 else "their"
        carried = (f"{of_them} {self.data:,} data packet{'' if self.data == 1 else 's'} with {self.octets:,} "
                   f"octet{'' if self.octets == 1 else 's'} {'is' if self.data == 1 else 'are'} in no sum")
        return f"{head}: {', '.join(reasons)}{f'; {carried}' if self.data else ''}"

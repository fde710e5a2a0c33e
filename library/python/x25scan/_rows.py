"""The objects of `--rows` as dataclasses. A member that x25scan(1) prints as null is None."""
from __future__ import annotations

import json
import re
from collections.abc import Callable
from dataclasses import dataclass
from typing import Any, Union


@dataclass(slots=True)
class Finding:
    """What is wrong with a packet: its number, its side, the state before it, and the code (docs/CODES.md)."""

    packet: int
    side: str
    state: str | None
    code: str


@dataclass(slots=True)
class Row:
    """A packet as it was judged. `octets` and `segments` are what its user data counted, 0 where none did; `code` is its
    finding's, and `text` its object, as `members` reads it.
    """

    packet: int
    side: str
    channel: int | None
    before: str
    after: str
    octets: int
    segments: int
    code: str | None
    text: str

    @property
    def members(self) -> dict[str, Any]:
        """All members of docs/rows.schema.json, as `epoch`, `call`, `time`, `circuit`, `type` and those of the packet's type."""
        members: dict[str, Any] = json.loads(self.text)
        return members


@dataclass(slots=True)
class Gap:
    """Packets of a logical channel may not have been recorded, or of any, where `channel` is None; `time`, `frame` and `circuit` where they are known."""

    packet: int
    channel: int | None
    time: float | None = None
    frame: int | None = None
    circuit: int | None = None


@dataclass(slots=True)
class Circuit:
    """A circuit of XOT that a comment names: its number, its logical channel, if it has one, and the addresses and ports of its ends."""

    circuit: int
    channel: int | None
    dte: str
    dte_port: int
    dce: str
    dce_port: int


@dataclass(slots=True)
class Call:
    """A call: its logical channel, its addresses, the packets that opened and ended it, its data of both sides, and its segments of 64 octets."""

    call: int
    epoch: int
    channel: int
    direction: str
    called: str | None
    calling: str | None
    opened: int
    up: int | None
    ended: int | None
    how: str
    data_t: int
    octets_t: int
    data_n: int
    octets_n: int
    segments: int


@dataclass(slots=True)
class Setting:
    """What is known of a PAD parameter at the end of a call."""

    call: int
    side: str
    parameter: int
    word: str
    value: int


@dataclass(slots=True)
class Account:
    """The calls and segments that an address pays for."""

    address: str | None
    calls: int
    segments: int


@dataclass(slots=True)
class Peak:
    """The most calls that were up at once, and the packet where that was first so."""

    count: int
    packet: int | None


@dataclass(slots=True)
class Gaps:
    """How many gap rows there are, where the header has the third form."""

    gaps: int


@dataclass(slots=True)
class Sums:
    """The sums of a report."""

    packets: int
    findings: int
    calls: int
    octets: int
    segments: int


@dataclass(slots=True)
class Uncounted:
    """Data packets that were not counted, by the reason, and their octets."""

    reason: str
    packets: int
    octets: int


@dataclass(slots=True)
class CallFacts:
    """What the report does not say of a call: who pays, what cleared it, its findings, and when it was, where that is known."""

    call: int
    members: dict[str, Any]


Object = Union[Row, Gap, Circuit, Finding, Call, Setting, Account, Peak, Gaps, Sums, Uncounted, CallFacts]


# The members that the proof of the rows names; they come first.
_ROW = re.compile(
    r'\{"line":"row","packet":(\d+),"side":"([TN])","channel":(?:(\d+)|null),"before":"(\w+)","after":"(\w+)",'
    r'"counted":(?:null|\{"octets":(\d+),"segments":(\d+)\}),"epoch":\d+,"owed":(?:true|false),"finding":(?:null|\{[^}]*?"code":"(\w+)")'
).match


def _fields(kind: Callable[..., Object]) -> Callable[[dict[str, Any]], Object]:
    def made(members: dict[str, Any]) -> Object:
        del members["line"]
        return kind(**members)

    return made


_KINDS: dict[str, Callable[[dict[str, Any]], Object]] = {
    "gap": _fields(Gap),
    "circuit": _fields(Circuit),
    "finding": _fields(Finding),
    "call": _fields(Call),
    "setting": _fields(Setting),
    "account": _fields(Account),
    "peak": _fields(Peak),
    "gaps": _fields(Gaps),
    "sums": _fields(Sums),
    "not_counted": _fields(Uncounted),
    "call_facts": lambda members: CallFacts(members["call"], members),
}


def object_of(text: str) -> Object:
    """The dataclass of an object."""
    row = _ROW(text)
    if row is None:
        members = json.loads(text)
        return _KINDS[members["line"]](members)
    packet, side, channel, before, after, octets, segments, code = row.groups()
    return Row(int(packet), side, int(channel) if channel else None, before, after, int(octets or 0), int(segments or 0), code, text)

"""The state tables of X.25: what a packet does in each state of the interface and of a logical channel."""
from __future__ import annotations

from collections.abc import Iterable
from dataclasses import dataclass
from enum import Enum, auto

from model import codes
from model.packets import Kind, Side


class State(str, Enum):
    """The states of the interface (r), of call set-up and clearing (p), and of data transfer (d).

    `UNKNOWN` is a channel whose recording begins in the middle, as the second form of the header says it.
    """

    R1 = "r1"
    R2 = "r2"
    R3 = "r3"
    P1 = "p1"
    P2 = "p2"
    P3 = "p3"
    P4 = "p4"
    P5 = "p5"
    P6 = "p6"
    P7 = "p7"
    D1 = "d1"
    D2 = "d2"
    D3 = "d3"
    UNKNOWN = "unknown"

    def __str__(self) -> str:
        return self.value

    def is_data_transfer(self) -> bool:
        """Whether this is d1, d2 or d3."""
        return self in (State.D1, State.D2, State.D3)

    def is_set_up(self) -> bool:
        """Whether this is one of p1 to p7."""
        return self.value[0] == "p"


class Effect(Enum):
    """What a table's entry says of a packet."""

    ENTER = auto()
    ERROR = auto()
    NORMAL = auto()
    NONE = auto()
    # The next table judges: that of data transfer after that of set-up, or the channel's after the interface's.
    NEXT_TABLE = auto()
    # The indication that the DCE owed has come.
    INDICATION_SENT = auto()


@dataclass(frozen=True)
class Entry:
    """An entry: its effect, and the state that is entered or the code of the error."""

    effect: Effect
    state: State | None = None
    code: int | None = None


SET_UP = (Kind.CALL, Kind.ACCEPTED, Kind.CLEAR, Kind.CLEAR_CONFIRMATION)
FLOW = (Kind.DATA, Kind.INTERRUPT, Kind.INTERRUPT_CONFIRMATION, Kind.RECEIVE_READY, Kind.RECEIVE_NOT_READY)
TRANSFER = (*FLOW, Kind.REJECT, Kind.RESET, Kind.RESET_CONFIRMATION)
BAD = (Kind.TWO_OCTETS, Kind.UNDEFINED, Kind.RESTART_ON_CHANNEL)
OWN_CODES = {
    Kind.TWO_OCTETS: codes.TOO_SHORT,
    Kind.UNDEFINED: codes.UNIDENTIFIABLE_PACKET,
    Kind.RESTART_ON_CHANNEL: codes.RESTART_ON_LOGICAL_CHANNEL,
}
EFFECTS = {"normal": Effect.NORMAL, "-": Effect.NONE, "next": Effect.NEXT_TABLE, "sent": Effect.INDICATION_SENT}

Table = dict[tuple[Kind, State], str]


def table(states: str, *rows: tuple[Iterable[Kind], str]) -> Table:
    """A table, of the states of its columns and, for each row, the kinds of packets and the entries.

    An entry is a state that is entered, the code of an error (with `?`: unless the DCE owes its indication), `own` for
    the error of the packet's own code, `normal`, `-` for nothing, `next` for the next table, or `sent` for the
    indication that the DCE owed.
    """
    found = {}
    for kinds, entries in rows:
        for kind in kinds:
            for state, entry in zip(states.split(), entries.split(), strict=True):
                found[kind, State(state)] = entry
    return found


SET_UP_TABLES = {
    Side.DTE: table(
        "p1 p2 p3 p4 p5 p6 p7",
        ([Kind.CALL], "p2 21 p5 23 24 25 -"),
        ([Kind.ACCEPTED], "20 21 p4 23 24 25 -"),
        ([Kind.CLEAR], "p6 p6 p6 p6 p6 - p1"),
        ([Kind.CLEAR_CONFIRMATION], "20 21 22 23 24 25 p1"),
        (TRANSFER, "20 21 22 next 24 25 -"),
        (BAD, "own own own next own own -"),
    ),
    Side.DCE: table(
        "p1 p2 p3 p4 p5 p6 p7",
        ([Kind.CALL], "p3 p5 22 23 24 - 26?"),
        ([Kind.ACCEPTED], "20 p4 22 23 p4 - 26?"),
        ([Kind.CLEAR], "p7 p7 p7 p7 p7 p1 sent"),
        ([Kind.CLEAR_CONFIRMATION], "20 21 22 23 24 p1 26?"),
        (TRANSFER, "20 21 22 next 24 - 26?"),
        (BAD, "own own own next own - 26?"),
    ),
}
TRANSFER_TABLES = {
    Side.DTE: table(
        "d1 d2 d3",
        ([Kind.RESET], "d2 - d1"),
        ([Kind.RESET_CONFIRMATION], "27 28 d1"),
        ([Kind.REJECT], "37 28 -"),
        (FLOW, "normal 28 -"),
        (BAD, "own own -"),
        (SET_UP, "35 35 -"),
    ),
    Side.DCE: table(
        "d1 d2 d3",
        ([Kind.RESET], "d3 d1 sent"),
        ([Kind.RESET_CONFIRMATION], "27 d1 29?"),
        ([Kind.REJECT], "37 - 29?"),
        (FLOW, "normal - 29?"),
        (BAD, "own - 29?"),
        (SET_UP, "35 - 29?"),
    ),
}
INTERFACE_TABLES = {
    Side.DTE: table(
        "r1 r2 r3",
        ([Kind.RESTART], "r2 - r1"),
        ([Kind.RESTART_CONFIRMATION], "17 18 r1"),
        (SET_UP + TRANSFER, "next 18 -"),
        (BAD, "next own -"),
    ),
    Side.DCE: table(
        "r1 r2 r3",
        ([Kind.RESTART], "r3 r1 sent"),
        ([Kind.RESTART_CONFIRMATION], "17 r1 19?"),
        (SET_UP + TRANSFER, "next - 19?"),
        (BAD, "next - 19?"),
    ),
}


def entry(rows: Table, kind: Kind, state: State, is_owed: bool) -> Entry:
    """The entry of a packet, where the DCE owes its indication or does not."""
    word = rows.get((kind, state), "-")
    if word in EFFECTS:
        return Entry(EFFECTS[word])
    if word == "own":
        return Entry(Effect.ERROR, code=OWN_CODES[kind])
    if word.endswith("?") and is_owed:
        return Entry(Effect.NONE)
    if word.rstrip("?").isdigit():
        return Entry(Effect.ERROR, code=int(word.rstrip("?")))
    return Entry(Effect.ENTER, state=State(word))


def channel_entry(side: Side, state: State, is_owed: bool, kind: Kind) -> Entry:
    """The entry of a packet in a state of a logical channel."""
    tables = SET_UP_TABLES if state.is_set_up() else TRANSFER_TABLES
    return entry(tables[side], kind, state, is_owed)

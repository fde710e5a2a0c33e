"""The interface: restarts, their gaps, and what each row shows."""
from __future__ import annotations

import copy
from dataclasses import dataclass, replace

from model import codes
from model.channel import Channel
from model.events import CallEnded, Event, Found
from model.formats import kind_length_fault
from model.gaps import GapChannel, adrift_from_start, after_gap
from model.packets import GapRow, Interface, Kind, PacketRow, Row, Side
from model.settled import gap_channel_step
from model.tables import INTERFACE_TABLES, Effect, State, entry
from model.traces import GAPS_FORM

# The findings of packets that no state judges.
STATELESS = {
    Kind.SHORT: codes.TOO_SHORT,
    Kind.WRONG_FORMAT: codes.INVALID_FORMAT_IDENTIFIER,
    Kind.UNASSIGNED: codes.UNASSIGNED_CHANNEL,
}
RESTARTS = (Kind.RESTART, Kind.RESTART_CONFIRMATION)


@dataclass(frozen=True)
class InterfaceState:
    """The interface's state.

    `is_owed` says that the DCE owes its restart indication; `is_joined` that the recording began in the middle, in the
    second form; `is_adrift` that a restart may be missing, and `was_owed` that the indication was owed at that gap.
    """

    state: State = State.R1
    is_owed: bool = False
    is_joined: bool = False
    is_adrift: bool = False
    was_owed: bool = False


@dataclass(frozen=True)
class Shown:
    """An event, with the epoch, the logical channel (0: the interface) and the row that shows it."""

    epoch: int
    channel: int
    row: int
    event: Event


class Observer:
    """Follows an interface row by row.

    An epoch begins with each restart. `begins_adrift` and `restart_owed` say how the channels of this epoch begin.
    """

    def __init__(self, interface: Interface) -> None:
        has_gap = interface.joined and interface.form == GAPS_FORM
        self.interface = interface
        self.state = InterfaceState(is_joined=interface.joined and not has_gap, is_adrift=has_gap)
        self.begins_adrift = has_gap
        self.restart_owed = False
        self.epoch = 1
        self.channels: dict[int, GapChannel] = {}
        self.shown: list[Shown] = []
        self.row = 0
        self.peak: tuple[int, int | None] = (0, None)

    def copy(self) -> Observer:
        """A copy of the observer, which goes on separately."""
        other = copy.copy(self)
        other.channels = dict(self.channels)
        other.shown = list(self.shown)
        return other

    def is_like(self, other: Observer) -> bool:
        """Whether another observer is in the same state and has shown as much."""
        ours = (self.epoch, self.state, self.channels, len(self.shown))
        return ours == (other.epoch, other.state, other.channels, len(other.shown))

    def read(self, row: Row) -> None:
        """Reads the next row."""
        self.row = row.number
        if isinstance(row, GapRow):
            self.read_gap(row)
        else:
            self.read_packet(row)
        count = self.calls_up()
        if count > self.peak[0]:
            self.peak = (count, row.number)

    def calls_up(self) -> int:
        """How many calls are up."""
        if self.state.state is not State.R1:
            return 0
        channels = self.channels.items()
        return sum(
            each.channel.state.is_data_transfer() for number, each in channels if not self.interface.is_permanent(number)
        )

    def channel(self, number: int) -> GapChannel:
        """A logical channel of the epoch."""
        if number not in self.channels:
            self.channels[number] = self.fresh_channel(number)
        return self.channels[number]

    def fresh_channel(self, number: int) -> GapChannel:
        """A logical channel as the epoch begins."""
        if self.begins_adrift:
            return adrift_from_start(self.interface, number, self.restart_owed)
        if self.state.is_joined:
            return GapChannel(Channel(State.UNKNOWN))
        return GapChannel(Channel(State.D1 if self.interface.is_permanent(number) else State.P1))

    def begin_epoch(self, is_adrift: bool, is_owed: bool = False) -> None:
        """Begins the next epoch in r1, adrift or not."""
        self.epoch += 1
        self.begins_adrift, self.restart_owed = is_adrift, is_owed
        self.channels = {}
        self.state = InterfaceState(is_adrift=is_adrift, was_owed=is_owed)

    def show(self, channel: int, events: list[Event]) -> None:
        """Keeps what the row shows of a channel."""
        self.shown += [Shown(self.epoch, channel, self.row, event) for event in events]

    def end_calls(self, how: str) -> None:
        """Ends all open calls."""
        for number in sorted(self.channels):
            if self.channels[number].channel.request is not None:
                self.show(number, [CallEnded(how)])

    def leave_r1(self) -> None:
        """Ends all open calls by a restart."""
        if self.state.state is State.R1:
            self.end_calls("restart")
            self.channels = {}

    def read_gap(self, row: GapRow) -> None:
        """Reads a gap row. One of a channel does nothing outside r1; one of all enters r1 with the next epoch there."""
        if self.state.state is not State.R1:
            if row.channel is None:
                self.begin_epoch(True, self.state.state is State.R3 and self.state.is_owed)
            return
        numbers = range(1, self.interface.channels + 1) if row.channel is None else [row.channel]
        for number in numbers:
            before = self.channel(number)
            self.channels[number] = after_gap(self.interface, number, row.channel is None, before)
        if row.channel is None:
            self.state = replace(self.state, is_adrift=True)

    def read_packet(self, row: PacketRow) -> None:
        """Reads a row that holds a packet."""
        kind, state = row.packet.kind, self.state
        if kind in STATELESS:
            self.show(0, [Found(row.side, "-", str(STATELESS[kind]))])
        elif kind is Kind.DIAGNOSTIC and row.side is Side.DTE:
            self.show(0, [Found(row.side, "-", str(codes.UNASSIGNED_CHANNEL))])
        elif kind in (Kind.DIAGNOSTIC, Kind.REGISTRATION):
            return
        elif state.is_adrift and state.state is State.R1 and kind in RESTARTS:
            self.read_restart_adrift(row)
        elif not (state.is_joined and kind is Kind.RESTART_CONFIRMATION):
            self.read_by_table(row)

    def read_by_table(self, row: PacketRow) -> None:
        """Reads a packet by the table of restarts."""
        kind, state = row.packet.kind, self.state
        found = entry(INTERFACE_TABLES[row.side], kind, state.state, state.is_owed)
        if found.effect is Effect.NEXT_TABLE:
            number = row.packet.channel
            events, self.channels[number] = gap_channel_step(self.interface, number, self.channel(number), row)
            self.show(number, events)
        elif found.effect is Effect.INDICATION_SENT:
            self.state = replace(state, is_owed=False)
        elif found.effect is Effect.ERROR:
            self.fail(row, found.code)
        elif found.state is not None:
            self.move(row, found.state)

    def fail(self, row: PacketRow, code: int | None) -> None:
        """A finding. After one of the DTE the DCE owes its restart indication."""
        self.show(0, [Found(row.side, str(self.state.state), str(code))])
        if row.side is Side.DTE:
            self.leave_r1()
            self.state = InterfaceState(State.R3, is_owed=True)

    def move(self, row: PacketRow, state: State) -> None:
        """Enters a state by a restart or its confirmation; one with a fault of format is a finding and does nothing else."""
        fault = kind_length_fault(row.packet.kind, len(row.octets))
        if fault is not None:
            self.show(0, [Found(row.side, str(self.state.state), str(fault))])
        elif state is State.R1:
            self.begin_epoch(False)
        else:
            self.leave_r1()
            self.state = InterfaceState(state)

    def read_restart_adrift(self, row: PacketRow) -> None:
        """Reads a restart or its confirmation while the interface is adrift, where neither is a finding."""
        kind = row.packet.kind
        if kind_length_fault(kind, len(row.octets)) is not None:
            return
        if kind is Kind.RESTART:
            self.end_calls("restart")
            self.begin_epoch(True)
        elif not (self.state.was_owed and row.side is Side.DCE):
            self.end_calls("gap")
            self.begin_epoch(False)

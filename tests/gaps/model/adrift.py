"""What a packet does on a logical channel adrift, where nothing is a finding."""
from __future__ import annotations

from collections.abc import Callable
from dataclasses import replace

from model.channel import both, ending, entering, opening, packet_fault, with_side
from model.events import CallUp, DataSent, Event
from model.formats import length_fault
from model.gaps import Adrift, GapChannel, LastData, Owed, Settled, largest_acceptance, missing_data, with_hidden_terms
from model.packets import Interface, Kind, PacketRow, Side
from model.tables import FLOW, SET_UP, State

LARGEST_SIZE = 4096

GapStep = tuple[list[Event], GapChannel]


def doubts_of(before: GapChannel) -> Adrift:
    """What is in doubt of a channel adrift."""
    assert isinstance(before.doubts, Adrift)
    return before.doubts


def has_fault(interface: Interface, number: int, before: GapChannel, row: PacketRow) -> bool:
    """Whether a packet has a fault of direction or format, by what is known."""
    if row.packet.kind is Kind.DATA:
        return length_fault(interface.header, interface.header + LARGEST_SIZE, len(row.octets)) is not None
    return packet_fault(interface, number, before.channel, row) is not None


def call(before: GapChannel, row: PacketRow) -> GapStep:
    """A call: it ends the open call, and opens one that is not up."""
    is_outgoing = row.side is Side.DTE
    state = State.P2 if is_outgoing else State.P3
    ends, ended = ending("gap", entering(state, False, before.channel))
    opens, opened = opening(is_outgoing, row.octets, ended)
    return ends + opens, replace(before, channel=opened, doubts=Adrift(doubts_of(before).owed))


def acceptance(interface: Interface, before: GapChannel, row: PacketRow) -> GapStep:
    """An acceptance: it brings up a call that is not up."""
    doubts, channel = doubts_of(before), before.channel
    if channel.request is None or channel.state.is_data_transfer():
        return [], before
    is_of_caller = (row.side is Side.DTE) == channel.request.is_outgoing
    is_hidden = doubts.is_hidden or is_of_caller
    terms = largest_acceptance(interface) if is_hidden else row.octets
    after = replace(entering(State.P4, False, channel), acceptance=terms)
    return [CallUp()], replace(before, channel=after, doubts=replace(doubts, is_hidden=is_hidden))


def owed_after_clearing(owed: Owed, is_seen: bool) -> Owed:
    """What is owed after a packet of clearing, which shows or does not show that the indication was sent."""
    return Owed.NOTHING if is_seen and owed is not Owed.RESTART else owed


def clear(before: GapChannel, row: PacketRow) -> GapStep:
    """A clear: it ends the call by its side."""
    events, ended = ending(row.side.value, entering(State.P1, False, before.channel))
    owed = owed_after_clearing(doubts_of(before).owed, True)
    return events, replace(before, channel=ended, doubts=Adrift(owed))


def clear_confirmation(before: GapChannel, row: PacketRow) -> GapStep:
    """A clear confirmation: a clear was missed, and the channel is in p1 for certain unless it may restart."""
    events, ended = ending("gap", entering(State.P1, False, before.channel))
    owed = owed_after_clearing(doubts_of(before).owed, row.side is Side.DTE)
    is_adrift = before.may_restart or owed is not Owed.NOTHING
    return events, replace(before, channel=ended, doubts=Adrift(owed) if is_adrift else None)


def set_up(interface: Interface, before: GapChannel, row: PacketRow) -> GapStep:
    """A packet of call set-up or clearing, on a channel that is no permanent circuit."""
    if row.packet.kind is Kind.CALL:
        return call(before, row)
    if row.packet.kind is Kind.ACCEPTED:
        return acceptance(interface, before, row)
    if row.packet.kind is Kind.CLEAR:
        return clear(before, row)
    return clear_confirmation(before, row)


def bring_up(interface: Interface, number: int, before: GapChannel) -> GapStep:
    """Brings up the call that is not up: its acceptance was missed, so another call may be hidden."""
    if interface.is_permanent(number) or before.channel.state.is_data_transfer():
        return [], before
    channel = replace(with_hidden_terms(interface, number, before.channel), state=State.D1)
    return [CallUp()], replace(before, channel=channel, doubts=replace(doubts_of(before), is_hidden=True))


def resetting(interface: Interface, number: int, before: GapChannel, row: PacketRow) -> GapStep:
    """A reset, after which its side resets, or a reset confirmation, after which no side resets."""
    is_reset = row.packet.kind is Kind.RESET
    doubts = doubts_of(before)
    if doubts.owed is Owed.RESET and (is_reset or row.side is Side.DTE):
        doubts = replace(doubts, owed=Owed.NOTHING)
    after = replace(before, doubts=doubts)
    if not interface.is_permanent(number) and before.channel.request is None:
        return [], after
    events, after = bring_up(interface, number, after)
    state = State.D1
    if is_reset:
        state = State.D2 if row.side is Side.DTE else State.D3
    doubts = replace(doubts_of(after), last_data=both(None))
    return events, replace(after, channel=replace(after.channel, state=state), doubts=doubts)


def transfer(interface: Interface, number: int, before: GapChannel, row: PacketRow) -> GapStep:
    """Data, RR, RNR, an interrupt or its confirmation; it does not count while the other side resets."""
    if not interface.is_permanent(number) and before.channel.request is None:
        return [], before
    events, after = bring_up(interface, number, before)
    if after.channel.state is (State.D3 if row.side is Side.DTE else State.D2):
        return events, after
    after = replace(after, channel=replace(after.channel, state=State.D1))
    if row.packet.kind in (Kind.INTERRUPT, Kind.INTERRUPT_CONFIRMATION):
        return events, after
    is_data = row.packet.kind is Kind.DATA
    data: list[Event] = [DataSent(row.side, len(row.octets) - interface.header)] if is_data else []
    return events + data, after_numbers(interface, after, row)


def after_numbers(interface: Interface, before: GapChannel, row: PacketRow) -> GapChannel:
    """The channel after the P(S) and P(R) of a packet, which settle it or are kept."""
    doubts, side = doubts_of(before), row.side
    acknowledged = doubts.last_data[side.other()]
    is_acknowledgement = acknowledged is not None and acknowledged.next_send == row.packet.receive
    if acknowledged is not None and is_acknowledgement and doubts.owed is Owed.NOTHING:
        return settle(interface, before, row, acknowledged)
    last = doubts.last_data[side]
    if row.packet.kind is Kind.DATA:
        last = LastData((row.packet.send + 1) % interface.modulus, row.packet.receive)
    elif last is not None:
        last = replace(last, receive=row.packet.receive)
    return replace(before, doubts=replace(doubts, last_data=with_side(doubts.last_data, side, last)))


def settle(interface: Interface, before: GapChannel, row: PacketRow, acknowledged: LastData) -> GapChannel:
    """The channel in d1 again, since a packet's P(R) acknowledges the data of the other side.

    Data packets that were missed make the numbers of both sides what they are now known to be.
    """
    side, other, packet = row.side, row.side.other(), row.packet
    is_data = packet.kind is Kind.DATA
    count = acknowledged.receive
    if is_data:
        count += (packet.send + 1 - acknowledged.receive) % interface.modulus
    channel = replace(
        entering(State.D1, False, before.channel),
        accepted=(missing_data(other),) * packet.receive + (missing_data(side),) * count,
        acknowledged={side: acknowledged.receive, other: packet.receive},
    )
    doubts = Settled(doubts_of(before).is_hidden, {side: is_data, other: True}, both(False), both(False))
    return replace(before, channel=channel, doubts=doubts)


def adrift_step(interface: Interface, number: int, before: GapChannel, row: PacketRow) -> GapStep:
    """What a packet does on a channel adrift."""
    kind = row.packet.kind
    if has_fault(interface, number, before, row):
        return [], before
    if kind in SET_UP:
        return ([], before) if interface.is_permanent(number) else set_up(interface, before, row)
    steps: dict[Kind, Callable[[Interface, int, GapChannel, PacketRow], GapStep]] = dict.fromkeys(FLOW, transfer)
    steps |= {Kind.RESET: resetting, Kind.RESET_CONFIRMATION: resetting}
    return steps[kind](interface, number, before, row) if kind in steps else ([], before)

"""What a packet does on a logical channel that is settled again, and on any channel of a recording with gaps."""
from __future__ import annotations

from dataclasses import replace

from model import codes, pad
from model.adrift import GapStep, adrift_step
from model.channel import AcceptedData, Channel, Step, acknowledged_or_fault, begun_sequence, channel_step
from model.channel import completed_message, data_of, failing, judged, numbered, packet_fault, sent, size_in_force
from model.channel import transferring, with_side
from model.events import DataSent, Event, has_finding
from model.gaps import Adrift, GapChannel, Settled, missing_data
from model.packets import Interface, Kind, PacketRow, Side
from model.tables import Effect, State


def completed_to(interface: Interface, side: Side, number: int, channel: Channel) -> Channel:
    """The channel with as many missed data packets of a side as make `number` its next P(S)."""
    count = (number - sent(side, channel)) % interface.modulus
    return replace(channel, accepted=channel.accepted + (missing_data(side),) * count)


def completed(interface: Interface, doubts: Settled, channel: Channel, row: PacketRow) -> Channel:
    """The channel with the packets that may be missing before this one, so that it is right where it can be."""
    side, other, packet = row.side, row.side.other(), row.packet
    unconfirmed = channel.unconfirmed
    if packet.kind is Kind.INTERRUPT and not doubts.interrupts[side]:
        return replace(channel, unconfirmed=with_side(unconfirmed, side, False))
    if packet.kind is Kind.INTERRUPT_CONFIRMATION and not doubts.interrupts[other]:
        return replace(channel, unconfirmed=with_side(unconfirmed, other, True))
    if packet.is_cut or packet.kind not in (Kind.DATA, Kind.RECEIVE_READY, Kind.RECEIVE_NOT_READY):
        return channel
    if packet.kind is Kind.DATA and not doubts.numbers[side]:
        channel = completed_to(interface, side, packet.send, channel)
    if not doubts.numbers[other]:
        channel = completed_to(interface, other, packet.receive, channel)
    return channel


def is_inconsistent(interface: Interface, doubts: Settled, channel: Channel, data: AcceptedData) -> bool:
    """Whether a data packet's Q bit differs from that of its sequence for certain."""
    if not doubts.sequences[data.side] or doubts.is_hidden:
        return False
    before = begun_sequence(lambda each: may_be_category_a(interface, doubts, channel, each), data.side, channel)
    return any(each.qualified != data.qualified for each in before)


def may_be_category_a(interface: Interface, doubts: Settled, channel: Channel, data: AcceptedData) -> bool:
    """Whether a data packet is of category A, or may be where another call may be hidden."""
    is_full = doubts.is_hidden or data.length == size_in_force(interface, channel, data.side)
    return data.more and not data.delivery and is_full


def message_settings(interface: Interface, doubts: Settled, channel: Channel, data: AcceptedData) -> list[Event]:
    """The settings of the PAD message that a data packet completes, which gives no finding."""

    def is_a(each: AcceptedData) -> bool:
        return may_be_category_a(interface, doubts, channel, each)

    if not doubts.sequences[data.side]:
        return []
    alike = begun_sequence(lambda each: is_a(each) and each.qualified == data.qualified, data.side, channel)
    message = completed_message(is_a, alike, channel, data)
    if message is None or pad.form_fault(message) is not None:
        return []
    return pad.settings_of(data.side, message)


def settled_data(interface: Interface, doubts: Settled, channel: Channel, row: PacketRow) -> tuple[Step, Settled]:
    """A data packet without fault of format, on a channel completed by what may be missing."""
    side, state = row.side, channel.state
    judge = numbered if doubts.numbers[side] else acknowledged_or_fault
    after = judge(interface, channel, row)
    if isinstance(after, int):
        return failing(side, state, after, channel), doubts
    data = data_of(interface, row)
    if is_inconsistent(interface, doubts, channel, data):
        return failing(side, state, codes.INCONSISTENT_QUALIFIER, channel), doubts
    events = [DataSent(side, data.length), *message_settings(interface, doubts, channel, data)]
    after = replace(after, accepted=(*after.accepted, data))
    count = sent(side, after)
    outstanding = (count - after.acknowledged[side]) % interface.modulus
    after = replace(after, acknowledged=with_side(after.acknowledged, side, count - outstanding))
    ends_sequence = not may_be_category_a(interface, doubts, channel, data)
    doubts = replace(
        doubts,
        numbers=with_side(doubts.numbers, side, True),
        sequences=with_side(doubts.sequences, side, doubts.sequences[side] or ends_sequence),
    )
    return (events, after), doubts


def settled_transfer(
    interface: Interface, doubts: Settled, channel: Channel, row: PacketRow
) -> tuple[Step, Settled]:
    """A packet of data transfer without fault of format on a settled channel."""
    before = completed(interface, doubts, channel, row)
    if row.packet.kind is Kind.DATA and not row.packet.is_cut:
        return settled_data(interface, doubts, before, row)
    step = transferring(interface, channel.state, row, before)
    if has_finding(step[0]) or row.packet.kind not in (Kind.INTERRUPT, Kind.INTERRUPT_CONFIRMATION):
        return step, doubts
    side = row.side if row.packet.kind is Kind.INTERRUPT else row.side.other()
    return step, replace(doubts, interrupts=with_side(doubts.interrupts, side, True))


def settled_step(
    interface: Interface, number: int, doubts: Settled, before: GapChannel, row: PacketRow
) -> GapStep:
    """What a packet does on a settled channel. A finding of the DCE in d1 leaves the channel as it was."""
    channel = before.channel
    _, entry = judged(interface.is_permanent(number), channel, row.side, row.packet.kind)
    if entry.effect is Effect.NORMAL and packet_fault(interface, number, channel, row) is None:
        (events, after), doubts = settled_transfer(interface, doubts, channel, row)
    else:
        events, after = channel_step(interface, number, channel, row)
    if has_finding(events) and after.state is State.D1:
        after = channel
    if after.state is not State.D1:
        doubts = Settled(doubts.is_hidden)
    is_kept = after.request is not None or after.state is State.D1
    return events, replace(before, channel=after, doubts=doubts if is_kept else None)


def gap_channel_step(interface: Interface, number: int, before: GapChannel, row: PacketRow) -> GapStep:
    """What a packet does on a logical channel of a recording that may have gaps."""
    if isinstance(before.doubts, Adrift):
        return adrift_step(interface, number, before, row)
    if isinstance(before.doubts, Settled):
        return settled_step(interface, number, before.doubts, before, row)
    events, channel = channel_step(interface, number, before.channel, row)
    return events, replace(before, channel=channel)

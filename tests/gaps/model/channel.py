"""A logical channel whose packets were all recorded."""
from __future__ import annotations

from collections.abc import Callable, Mapping
from dataclasses import dataclass, field, replace
from typing import TypeVar

from model import codes, pad
from model.call_fields import CallFields, fields_of
from model.events import CallEnded, CallOpened, CallUp, DataSent, Event, Found
from model.formats import direction_fault, format_fault
from model.packets import Interface, Kind, PacketRow, Side, octet
from model.tables import Effect, Entry, State, channel_entry

Value = TypeVar("Value")
# The first octet of a PAD call's user data.
PAD_PROTOCOL = 1


def both(value: Value) -> dict[Side, Value]:
    """The same value for both sides."""
    return {Side.DTE: value, Side.DCE: value}


def with_side(values: Mapping[Side, Value], side: Side, value: Value) -> dict[Side, Value]:
    """The values with another one for a side."""
    return {**values, side: value}


@dataclass(frozen=True)
class AcceptedData:
    """A data packet that was accepted; the octets of user data are kept where the Q bit is set."""

    side: Side
    qualified: bool
    more: bool
    delivery: bool
    length: int
    octets: bytes


@dataclass(frozen=True)
class CallRequest:
    """The packet that opened a call."""

    is_outgoing: bool
    octets: bytes


@dataclass(frozen=True)
class Channel:
    """A logical channel.

    `is_owed` says that the DCE owes its clear or reset indication. `accepted` are the data packets since data transfer
    began, `acknowledged` how many of each side's were acknowledged (the lower edge of its window), and `unconfirmed`
    which side's interrupt is not confirmed.
    """

    state: State
    is_owed: bool = False
    request: CallRequest | None = None
    acceptance: bytes | None = None
    accepted: tuple[AcceptedData, ...] = ()
    acknowledged: Mapping[Side, int] = field(default_factory=lambda: both(0))
    unconfirmed: Mapping[Side, bool] = field(default_factory=lambda: both(False))
    pad_messages: tuple[tuple[Side, bytes], ...] = ()


Step = tuple[list[Event], Channel]
IsCategoryA = Callable[[AcceptedData], bool]


def entering(state: State, is_owed: bool, channel: Channel) -> Channel:
    """The channel in another state, with fresh numbers and interrupts; p4 is entered as d1."""
    return replace(
        channel,
        state=State.D1 if state is State.P4 else state,
        is_owed=is_owed,
        accepted=(),
        acknowledged=both(0),
        unconfirmed=both(False),
    )


def ending(how: str, channel: Channel) -> Step:
    """Ends the call that is open, if one is."""
    if channel.request is None:
        return [], channel
    return [CallEnded(how)], replace(channel, request=None, acceptance=None, pad_messages=())


def opening(is_outgoing: bool, octets: bytes, channel: Channel) -> Step:
    """Opens a call."""
    fields = fields_of(octets)
    opened = CallOpened(is_outgoing, fields.called, fields.calling, fields.is_reverse_charged)
    return [opened], replace(channel, request=CallRequest(is_outgoing, octets))


def agreed(channel: Channel, read: Callable[[CallFields], tuple[int, int] | None]) -> tuple[int, int] | None:
    """What the acceptance of a call says, or else the call."""
    if channel.acceptance is not None and read(fields_of(channel.acceptance)) is not None:
        return read(fields_of(channel.acceptance))
    return read(fields_of(channel.request.octets)) if channel.request else None


def for_side(channel: Channel, side: Side, pair: tuple[int, int]) -> int:
    """Of a pair from the called and the calling side, that of a side of the interface."""
    is_outgoing = channel.request is not None and channel.request.is_outgoing
    return pair[1] if is_outgoing == (side is Side.DTE) else pair[0]


def size_in_force(interface: Interface, channel: Channel, side: Side) -> int:
    """The most octets of user data in a packet of a side."""
    sizes = agreed(channel, lambda fields: fields.sizes)
    return interface.size if sizes is None else for_side(channel, side, sizes)


def window_in_force(interface: Interface, channel: Channel, side: Side) -> int:
    """The window of a side."""
    windows = agreed(channel, lambda fields: fields.windows)
    return interface.window if windows is None else for_side(channel, side, windows)


def is_fast_select(channel: Channel) -> bool:
    """Whether the open call asked for fast select."""
    return channel.request is not None and fields_of(channel.request.octets).is_fast_select


def is_pad_call(channel: Channel) -> bool:
    """Whether the open call is one of a PAD."""
    return channel.request is not None and octet(1, fields_of(channel.request.octets).user_data) == PAD_PROTOCOL


def packet_fault(interface: Interface, number: int, channel: Channel, row: PacketRow) -> int | None:
    """The fault of a packet's direction or format."""
    kind = row.packet.kind
    fault = direction_fault(interface, number, row.side, kind)
    if fault is not None:
        return fault
    size = size_in_force(interface, channel, row.side)
    return format_fault(interface, kind, row.octets, size, is_fast_select(channel))


def judged(is_permanent: bool, channel: Channel, side: Side, kind: Kind) -> tuple[State, Entry]:
    """The state in which a packet is judged, and the entry of its table."""
    state, is_owed = channel.state, channel.is_owed
    if state is State.UNKNOWN:
        assumed = State.D1 if is_permanent else State.P1
        awaited = (Kind.RESET,) if is_permanent else (Kind.CALL, Kind.CLEAR)
        return assumed, channel_entry(side, assumed, is_owed, kind) if kind in awaited else Entry(Effect.NONE)
    if state.is_set_up() or is_permanent:
        return state, channel_entry(side, state, is_owed, kind)
    found = channel_entry(side, State.P4, is_owed, kind)
    if found.effect is Effect.NEXT_TABLE:
        return state, channel_entry(side, state, is_owed, kind)
    return State.P4, found


def failing(side: Side, state: State, code: object, channel: Channel) -> Step:
    """A finding. After one of the DTE the DCE owes its clear or reset indication."""
    events: list[Event] = [Found(side, str(state), str(code))]
    if side is Side.DCE:
        return events, channel
    if state.is_data_transfer():
        return events, entering(State.D3, True, channel)
    ends, after = ending("N", entering(State.P7, True, channel))
    return events + ends, after


def accepted_of(side: Side, channel: Channel) -> list[AcceptedData]:
    """The accepted data packets of a side."""
    return [data for data in channel.accepted if data.side is side]


def sent(side: Side, channel: Channel) -> int:
    """How many data packets of a side were accepted."""
    return len(accepted_of(side, channel))


def is_full_with_more(size: int) -> IsCategoryA:
    """Whether a data packet is of category A: full, with M set and D clear."""
    return lambda data: data.more and not data.delivery and data.length == size


def begun_sequence(is_category_a: IsCategoryA, side: Side, channel: Channel) -> list[AcceptedData]:
    """The packets of a side's packet sequence that has begun: those of category A at the end."""
    found: list[AcceptedData] = []
    for data in reversed(accepted_of(side, channel)):
        if not is_category_a(data):
            break
        found.insert(0, data)
    return found


def acknowledge(modulus: int, channel: Channel, side: Side, receive: int) -> Channel | None:
    """The channel after a P(R) of a side, which moves the other side's window, or None where it may not be."""
    other = side.other()
    for edge in range(channel.acknowledged[other], sent(other, channel) + 1):
        if edge % modulus == receive:
            return replace(channel, acknowledged=with_side(channel.acknowledged, other, edge))
    return None


def numbered(interface: Interface, channel: Channel, row: PacketRow) -> Channel | int:
    """The channel after the P(S) and P(R) of a data packet, or their fault."""
    count = sent(row.side, channel)
    is_outside = count - channel.acknowledged[row.side] >= window_in_force(interface, channel, row.side)
    if row.packet.send != count % interface.modulus or is_outside:
        return codes.INVALID_SEND_NUMBER
    return acknowledged_or_fault(interface, channel, row)


def acknowledged_or_fault(interface: Interface, channel: Channel, row: PacketRow) -> Channel | int:
    """The channel after a packet's P(R), or its fault."""
    after = acknowledge(interface.modulus, channel, row.side, row.packet.receive)
    return codes.INVALID_RECEIVE_NUMBER if after is None else after


def data_of(interface: Interface, row: PacketRow) -> AcceptedData:
    """What is kept of a data packet."""
    packet, user_data = row.packet, bytes(row.octets[interface.header:])
    kept = user_data if packet.qualified else b""
    return AcceptedData(row.side, packet.qualified, packet.more, packet.delivery, len(user_data), kept)


def completed_message(is_a: IsCategoryA, before: list[AcceptedData], channel: Channel, data: AcceptedData) -> bytes | None:
    """The PAD message that a data packet completes, after the packets of its sequence."""
    if not (is_pad_call(channel) and data.qualified) or is_a(data):
        return None
    return b"".join(each.octets for each in [*before, data])


def message_events(data: AcceptedData, channel: Channel, message: bytes | None) -> list[Event]:
    """What a data packet shows, with the PAD message that it completes."""
    sent_data = DataSent(data.side, data.length)
    if message is None:
        return [sent_data]
    fault = pad.message_fault(data.side, channel.pad_messages, message)
    findings: list[Event] = [Found(data.side, State.D1, fault)] if fault else []
    settings = pad.settings_of(data.side, message) if fault in (None, "X3") else []
    return [*findings, sent_data, *settings]


def data_step(interface: Interface, state: State, row: PacketRow, channel: Channel) -> Step:
    """A data packet without fault of format."""
    if row.packet.is_cut:
        return [], channel
    after = numbered(interface, channel, row)
    if isinstance(after, int):
        return failing(row.side, state, after, channel)
    data = data_of(interface, row)
    is_category_a = is_full_with_more(size_in_force(interface, channel, row.side))
    before = begun_sequence(is_category_a, row.side, channel)
    if any(each.qualified != data.qualified for each in before):
        return failing(row.side, state, codes.INCONSISTENT_QUALIFIER, channel)
    message = completed_message(is_category_a, before, channel, data)
    messages = channel.pad_messages if message is None else (*channel.pad_messages, (row.side, message))
    events = message_events(data, channel, message)
    return events, replace(after, accepted=(*after.accepted, data), pad_messages=messages)


def transferring(interface: Interface, state: State, row: PacketRow, channel: Channel) -> Step:
    """A packet of data transfer without fault of format."""
    side, kind, other = row.side, row.packet.kind, row.side.other()
    if kind is Kind.DATA:
        return data_step(interface, state, row, channel)
    if kind is Kind.INTERRUPT:
        if channel.unconfirmed[side]:
            return failing(side, state, codes.UNAUTHORISED_INTERRUPT, channel)
        return [], replace(channel, unconfirmed=with_side(channel.unconfirmed, side, True))
    if kind is Kind.INTERRUPT_CONFIRMATION:
        if not channel.unconfirmed[other]:
            return failing(side, state, codes.UNAUTHORISED_INTERRUPT_CONFIRMATION, channel)
        return [], replace(channel, unconfirmed=with_side(channel.unconfirmed, other, False))
    after = acknowledged_or_fault(interface, channel, row)
    return failing(side, state, after, channel) if isinstance(after, int) else ([], after)


def moving(row: PacketRow, state: State, channel: Channel) -> Step:
    """A packet that enters a state."""
    entered = entering(state, False, channel)
    if row.packet.kind is Kind.CALL and (row.side is Side.DTE or state is State.P3):
        ends, ended = ending("collision", entered)
        opens, opened = opening(row.side is Side.DTE, row.octets, ended)
        return ends + opens, opened
    if row.packet.kind is Kind.ACCEPTED and state is State.P4:
        return [CallUp()], replace(entered, acceptance=row.octets)
    if state is State.P6:
        return ending("T", entered)
    if state is State.P7:
        return ending("N", entered)
    return [], entered


def channel_step(interface: Interface, number: int, channel: Channel, row: PacketRow) -> Step:
    """What a packet does to its logical channel."""
    state, found = judged(interface.is_permanent(number), channel, row.side, row.packet.kind)
    if found.effect is Effect.ERROR:
        return failing(row.side, state, found.code, channel)
    if found.effect is Effect.INDICATION_SENT:
        return [], replace(channel, is_owed=False)
    if found.effect not in (Effect.ENTER, Effect.NORMAL):
        return [], channel
    fault = packet_fault(interface, number, channel, row)
    if fault is not None:
        return failing(row.side, state, fault, channel)
    if found.state is not None:
        return moving(row, found.state, channel)
    return transferring(interface, state, row, channel)

"""What a gap leaves of a logical channel, and what is known of the channel after it."""
from __future__ import annotations

from collections.abc import Mapping
from dataclasses import dataclass, field, replace
from enum import Enum, auto

from model.channel import AcceptedData, Channel, both, entering
from model.packets import Interface, Side
from model.tables import State


class Owed(Enum):
    """The indication that the DCE owed as the gap came."""

    NOTHING = auto()
    CLEAR = auto()
    RESET = auto()
    RESTART = auto()


@dataclass(frozen=True)
class LastData:
    """The last data packet of a side on a channel adrift: the P(S) after it, and the last P(R) of its side since."""

    next_send: int
    receive: int


@dataclass(frozen=True)
class Adrift:
    """A channel of which a gap left only the open call, and whether it came up.

    `is_hidden` says that another call may be hidden in the gap.
    """

    owed: Owed = Owed.NOTHING
    is_hidden: bool = False
    last_data: Mapping[Side, LastData | None] = field(default_factory=lambda: both(None))


@dataclass(frozen=True)
class Settled:
    """A channel in d1 again: for each side, whether its next P(S), its interrupts and its sequences are certain."""

    is_hidden: bool = False
    numbers: Mapping[Side, bool] = field(default_factory=lambda: both(True))
    interrupts: Mapping[Side, bool] = field(default_factory=lambda: both(True))
    sequences: Mapping[Side, bool] = field(default_factory=lambda: both(True))


@dataclass(frozen=True)
class GapChannel:
    """A logical channel with what is in doubt of it; `doubts` is None where nothing is.

    `may_restart` says that a gap of all channels made it adrift, so that the interface may be restarting.
    """

    channel: Channel
    may_restart: bool = False
    doubts: Adrift | Settled | None = None


def missing_data(side: Side) -> AcceptedData:
    """A data packet that was not recorded; it ends a sequence."""
    return AcceptedData(side, False, False, False, 0, b"")


def largest_acceptance(interface: Interface) -> bytes:
    """An acceptance with the largest packet sizes and windows."""
    identifier = 0x10 if interface.modulus == 8 else 0x20
    window = interface.modulus - 1
    return bytes([identifier, 1, 0x0F, 0, 6, 0x42, 12, 12, 0x43, window, window])


def with_hidden_terms(interface: Interface, number: int, channel: Channel) -> Channel:
    """The channel where another call may be hidden: the largest packet sizes and windows are in force."""
    if interface.is_permanent(number) or channel.request is None:
        return channel
    return replace(channel, acceptance=largest_acceptance(interface))


def state_after_gap(interface: Interface, number: int, channel: Channel) -> State:
    """The state that represents a channel adrift: d1 where its call is up, p1 to p3 where it is not."""
    if channel.request is None:
        return State.D1 if interface.is_permanent(number) else State.P1
    if channel.state.is_data_transfer():
        return State.D1
    return State.P2 if channel.request.is_outgoing else State.P3


def owed_in(channel: Channel) -> Owed:
    """The indication that the DCE owes on a channel."""
    if not channel.is_owed:
        return Owed.NOTHING
    return Owed.CLEAR if channel.state is State.P7 else Owed.RESET


def after_gap(interface: Interface, number: int, is_of_all: bool, before: GapChannel) -> GapChannel:
    """The channel after a gap of it, or of all channels."""
    channel = before.channel
    owed = before.doubts.owed if isinstance(before.doubts, Adrift) else owed_in(channel)
    left = entering(state_after_gap(interface, number, channel), False, channel)
    is_hidden = not interface.is_permanent(number) and channel.request is not None
    return GapChannel(
        channel=with_hidden_terms(interface, number, left),
        may_restart=before.may_restart or is_of_all,
        doubts=Adrift(owed, is_hidden),
    )


def adrift_from_start(interface: Interface, number: int, is_restart_owed: bool) -> GapChannel:
    """A channel of an epoch that begins adrift."""
    state = State.D1 if interface.is_permanent(number) else State.P1
    return GapChannel(Channel(state), True, Adrift(Owed.RESTART if is_restart_owed else Owed.NOTHING))

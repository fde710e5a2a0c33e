"""Packets: the interface's numbers, the kinds of packets, and what their headers hold."""
from __future__ import annotations

from dataclasses import dataclass
from enum import Enum, auto


class Side(str, Enum):
    """The side that sent a packet."""

    DTE = "T"
    DCE = "N"

    def __str__(self) -> str:
        return self.value

    def other(self) -> Side:
        """The opposite side."""
        return Side.DCE if self is Side.DTE else Side.DTE


class Kind(Enum):
    """The kinds of packets, of which the first five belong to no logical channel's state."""

    SHORT = auto()
    WRONG_FORMAT = auto()
    UNASSIGNED = auto()
    DIAGNOSTIC = auto()
    REGISTRATION = auto()
    RESTART = auto()
    RESTART_CONFIRMATION = auto()
    CALL = auto()
    ACCEPTED = auto()
    CLEAR = auto()
    CLEAR_CONFIRMATION = auto()
    DATA = auto()
    INTERRUPT = auto()
    INTERRUPT_CONFIRMATION = auto()
    RECEIVE_READY = auto()
    RECEIVE_NOT_READY = auto()
    REJECT = auto()
    RESET = auto()
    RESET_CONFIRMATION = auto()
    TWO_OCTETS = auto()
    UNDEFINED = auto()
    RESTART_ON_CHANNEL = auto()


@dataclass(frozen=True)
class Interface:
    """The numbers of a trace's header. Channels up to `permanent` are permanent circuits."""

    form: int
    modulus: int
    window: int
    size: int
    permanent: int
    incoming: int
    two_way: int
    channels: int
    joined: bool

    @property
    def header(self) -> int:
        """How many octets a data packet has before its user data."""
        return 3 if self.modulus == 8 else 4

    def is_permanent(self, channel: int) -> bool:
        """Whether a logical channel is a permanent circuit."""
        return 1 <= channel <= self.permanent


@dataclass(frozen=True)
class Packet:
    """A packet's header. `send` is its P(S) and `receive` its P(R); `is_cut` says that it ends before them."""

    kind: Kind
    channel: int = 0
    send: int = 0
    receive: int = 0
    more: bool = False
    delivery: bool = False
    qualified: bool = False
    is_cut: bool = False


@dataclass(frozen=True)
class PacketRow:
    """A row of a trace that holds a packet."""

    number: int
    side: Side
    octets: bytes
    packet: Packet


@dataclass(frozen=True)
class GapRow:
    """A row which says that packets of a logical channel may be missing, or of all channels (no channel)."""

    number: int
    channel: int | None


Row = PacketRow | GapRow

INTERFACE_TYPES = {
    0xFB: Kind.RESTART,
    0xFF: Kind.RESTART_CONFIRMATION,
    0xF1: Kind.DIAGNOSTIC,
    0xF3: Kind.REGISTRATION,
    0xF7: Kind.REGISTRATION,
}
CHANNEL_TYPES = {
    0x0B: Kind.CALL,
    0x0F: Kind.ACCEPTED,
    0x13: Kind.CLEAR,
    0x17: Kind.CLEAR_CONFIRMATION,
    0x23: Kind.INTERRUPT,
    0x27: Kind.INTERRUPT_CONFIRMATION,
    0x1B: Kind.RESET,
    0x1F: Kind.RESET_CONFIRMATION,
    0xFB: Kind.RESTART_ON_CHANNEL,
    0xFF: Kind.RESTART_ON_CHANNEL,
}
FLOW_TYPES = {1: Kind.RECEIVE_READY, 5: Kind.RECEIVE_NOT_READY, 9: Kind.REJECT}


def octet(position: int, octets: bytes) -> int:
    """The octet at a position from 1 on, or 0 after the last."""
    return octets[position - 1] if len(octets) >= position else 0


def decode(interface: Interface, octets: bytes) -> Packet:
    """Reads a packet's header."""
    if len(octets) < 2:
        return Packet(Kind.SHORT)
    if octets[0] >> 4 & 3 != (1 if interface.modulus == 8 else 2):
        return Packet(Kind.WRONG_FORMAT)
    channel = (octets[0] & 15) * 256 + octets[1]
    if channel > interface.channels:
        return Packet(Kind.UNASSIGNED)
    if channel == 0:
        return Packet(INTERFACE_TYPES.get(octet(3, octets), Kind.UNASSIGNED))
    if len(octets) == 2:
        return Packet(Kind.TWO_OCTETS, channel)
    if octets[2] & 1 == 0:
        return decode_data(interface, channel, octets)
    if octets[2] in CHANNEL_TYPES:
        return Packet(CHANNEL_TYPES[octets[2]], channel)
    return decode_flow(interface, channel, octets)


def decode_data(interface: Interface, channel: int, octets: bytes) -> Packet:
    """Reads the header of a data packet."""
    qualified = octets[0] & 128 != 0
    delivery = octets[0] & 64 != 0
    third = octets[2]
    if interface.modulus == 8:
        return Packet(Kind.DATA, channel, third >> 1 & 7, third >> 5, third & 16 != 0, delivery, qualified)
    if len(octets) < 4:
        return Packet(Kind.DATA, channel, is_cut=True)
    return Packet(Kind.DATA, channel, third >> 1, octets[3] >> 1, octets[3] & 1 != 0, delivery, qualified)


def decode_flow(interface: Interface, channel: int, octets: bytes) -> Packet:
    """Reads the header of RR, RNR, REJ, or of a packet whose type is undefined."""
    third = octets[2]
    kind = FLOW_TYPES.get(third & 31 if interface.modulus == 8 else third, Kind.UNDEFINED)
    if kind not in (Kind.RECEIVE_READY, Kind.RECEIVE_NOT_READY):
        return Packet(kind, channel)
    if interface.modulus == 8:
        return Packet(kind, channel, receive=third >> 5)
    if len(octets) < 4:
        return Packet(kind, channel, is_cut=True)
    return Packet(kind, channel, receive=octets[3] >> 1)

"""An X.25 packet with its frame and side, and functions that read its octets."""
from __future__ import annotations

import enum
import ipaddress
from dataclasses import dataclass
from typing import TYPE_CHECKING

from x25tools_lib.sides import Side

if TYPE_CHECKING:
    from .xot import Circuit

# The limits of a row of a trace.
LONGEST = 4200


class Type(enum.IntEnum):
    """The third octet of a packet, with sequence numbers of 0."""

    READY = 0x01
    CALL = 0x0B
    ACCEPTED = 0x0F
    CLEAR = 0x13
    CLEAR_CONFIRM = 0x17
    RESET = 0x1B
    RESET_CONFIRM = 0x1F
    INTERRUPT = 0x23
    INTERRUPT_CONFIRM = 0x27
    RESTART = 0xFB
    RESTART_CONFIRM = 0xFF
    DIAGNOSTIC = 0xF1
    REGISTRATION = 0xF3
    REGISTERED = 0xF7


SET_UP = frozenset((Type.CALL, Type.ACCEPTED, Type.CLEAR, Type.CLEAR_CONFIRM))
PACKET_SIZES = 0x42
WINDOWS = 0x43


@dataclass(slots=True)
class Packet:
    """One packet; the circuit is that of its XOT connection, None on a line."""

    frame: int
    side: Side
    octets: bytes
    circuit: Circuit | None = None
    time: int | None = None


@dataclass(slots=True)
class Missing:
    """A place where packets may be missing: of an XOT circuit, of a channel of a line, or, where both are None, of all.

    The frame is the one that shows the gap, or the last one before it.
    """

    frame: int
    time: int | None
    circuit: Circuit | None = None
    channel: int | None = None
    # Whether the gap is what a circuit had before the recording began.
    is_beginning: bool = False
    # The frame of a link after which the packets may be missing, where it is not known before which packet they are.
    since: int | None = None


# What a capture has, in its order.
Item = Packet | Missing


def channel_of(octets: bytes) -> int:
    return (octets[0] & 15) << 8 | octets[1]


def left_out(frame: int, time: int | None, octets: bytes) -> Missing:
    """The gap of a packet of a line that is left out: on the channel in its octets, else on all."""
    return Missing(frame, time, None, channel_of(octets) or None if len(octets) >= 2 else None)


def without(packet: Packet) -> Missing:
    """The gap of a packet that is left out."""
    if packet.circuit:
        return Missing(packet.frame, packet.time, packet.circuit)
    return left_out(packet.frame, packet.time, packet.octets)


# The modulus by the general format identifier.
MODULI = {0x10: 8, 0x20: 128}


def modulus_of(octets: bytes) -> int | None:
    """The modulus by the general format identifier: 8, 128, or None."""
    return MODULI.get(octets[0] & 0x30)


def facilities_of(octets: bytes) -> set[int]:
    """The codes of a call packet's facilities up to a marker; none where its A bit is 1 or its blocks are cut."""
    codes: set[int] = set()
    if octets[0] & 0x80 or len(octets) < 4:
        return codes
    digits = (octets[3] >> 4) + (octets[3] & 15)
    at = 4 + (digits + 1) // 2
    if at >= len(octets):
        return codes
    end = min(at + 1 + octets[at], len(octets))
    at += 1
    while at < end and octets[at]:
        codes.add(octets[at])
        size = octets[at] >> 6
        if size < 3:
            at += 2 + size
        elif at + 1 < end:
            at += 2 + octets[at + 1]
        else:
            break
    return codes


def address_text(end: bytes) -> str:
    """The address of a connection's end, as RFC 5952 writes it."""
    address = ipaddress.ip_address(end[:-2])
    mapped = address.ipv4_mapped if isinstance(address, ipaddress.IPv6Address) else None
    return f"::ffff:{mapped}" if mapped else str(address)

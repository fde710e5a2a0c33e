"""What a frame carries, by its link type: an Internet packet, a LAPB frame or an X.25 packet."""
from __future__ import annotations

import enum
import struct
from collections.abc import Callable

from x25tools_lib.choices import KINDS

from .frames import KINDS_OF_PACKET, Direction, Frame

UNIT = struct.Struct(">H")
VLAN_TAGS = frozenset((0x8100, 0x88A8, 0x9100))


class Carried(enum.Enum):
    """What comes after the link header of a frame."""

    IP = "ip"
    LAPB = "lapb"
    HDLC = "hdlc"
    X25 = "x25"
    DEVICE = "a Linux X.25 device"
    OTHER = "other"
    BROKEN = "broken"
    UNKNOWN = "unknown"

    __hash__ = object.__hash__


# What a link header is followed by, and the offset of that.
Found = tuple[Carried, int]
Opener = Callable[[Frame], Found]
# Protocols of Ethernet and cooked captures: IPv4, IPv6, X.25, LAPB on a Linux HDLC device.
PROTOCOLS = {0x0800: Carried.IP, 0x86DD: Carried.IP, 0x0805: Carried.DEVICE, 0x0019: Carried.LAPB}
LAPB_OVER_ETHERNET = 0x6000
PPPOE_SESSION = 0x8864
MPLS = frozenset((0x8847, 0x8848))
PPP_MPLS = frozenset((0x0281, 0x0283))
PPP_PROTOCOLS = {0x0021: Carried.IP, 0x0057: Carried.IP}
IPV4 = (Carried.IP, 14)
# A cooked header has room for eight octets of an address.
LONGEST_ADDRESS = 8
# The most tunnels in tunnels: no network nests more.
DEEPEST = 8


def by_protocol(frame: Frame, protocol: int, at: int) -> Found:
    """What an Ethernet type carries."""
    if protocol in PROTOCOLS:
        return PROTOCOLS[protocol], at
    if protocol in VLAN_TAGS:
        return typed(frame, at + 2)
    if protocol in MPLS:
        return mpls(frame, at)
    if protocol == PPPOE_SESSION:
        # Version, type, code, session and length come before the protocol of PPP.
        return by_ppp(frame, at + 6)
    if protocol == LAPB_OVER_ETHERNET:
        return lapb_over_ethernet(frame, at)
    return Carried.OTHER, at


def lapb_over_ethernet(frame: Frame, at: int) -> Found:
    """LAPB over Ethernet, after its length, the low octet first."""
    if len(frame.octets) < at + 2:
        return Carried.BROKEN, at
    end = at + 2 + int.from_bytes(frame.octets[at:at + 2], "little")
    if end > frame.length:
        return Carried.OTHER, at
    frame.octets, frame.length = frame.octets[:end], end
    return Carried.LAPB, at + 2


def typed(frame: Frame, at: int) -> Found:
    """What follows the addresses: an Ethernet type, perhaps after VLAN tags."""
    octets = frame.octets
    while True:
        if len(octets) < at + 2:
            return Carried.BROKEN, at
        protocol = octets[at] << 8 | octets[at + 1]
        if protocol not in VLAN_TAGS:
            return by_protocol(frame, protocol, at + 2)
        at += 4


def ethernet(frame: Frame) -> Found:
    # Most frames hold IPv4, with nothing before it.
    return IPV4 if frame.octets[12:14] == b"\x08\0" else typed(frame, 12)


def mpls(frame: Frame, at: int) -> Found:
    """What follows the labels: IPv4, IPv6, or Ethernet after a control word."""
    octets = frame.octets
    while len(octets) >= at + 5:
        last = octets[at + 2] & 1
        at += 4
        if not last:
            continue
        version = octets[at] >> 4
        if version in (4, 6):
            return Carried.IP, at
        frame.depth += 1
        if version or frame.depth > DEEPEST:
            return Carried.OTHER, at
        return typed(frame, at + 4 + 12)
    return Carried.BROKEN, at


def by_ppp(frame: Frame, at: int) -> Found:
    """What a protocol of PPP carries."""
    if len(frame.octets) < at + 2:
        return Carried.BROKEN, at
    protocol = UNIT.unpack_from(frame.octets, at)[0]
    if protocol in PPP_MPLS:
        return mpls(frame, at + 2)
    return PPP_PROTOCOLS.get(protocol, Carried.OTHER), at + 2


def cooked(frame: Frame, kind_at: int, protocol_at: int, size: int) -> Found:
    """A Linux cooked header, with its packet type and its protocol at given offsets."""
    if len(frame.octets) < size:
        return Carried.BROKEN, 0
    frame.direction = KINDS_OF_PACKET.get(frame.octets[kind_at], Direction.UNKNOWN)
    return by_protocol(frame, UNIT.unpack_from(frame.octets, protocol_at)[0], size)


def cooked_1(frame: Frame) -> Found:
    return cooked(frame, 1, 14, 16)


def cooked_2(frame: Frame) -> Found:
    frame.device = int.from_bytes(frame.octets[4:8], "big")
    return cooked(frame, 10, 0, 20)


def raw_ip(frame: Frame) -> Found:
    return Carried.IP, 0


def loopback(frame: Frame) -> Found:
    """A BSD loopback: an address family of four octets, whose numbers differ, then IPv4 or IPv6."""
    return Carried.IP, 4


def cisco(frame: Frame) -> Found:
    """Cisco HDLC: address 0F or 8F and a protocol; other addresses mean LAPB."""
    octets = frame.octets
    if len(octets) < 2:
        return Carried.BROKEN, 0
    if octets[0] in (0x0F, 0x8F) and len(octets) >= 4:
        return by_protocol(frame, UNIT.unpack_from(octets, 2)[0], 4)
    return Carried.LAPB, 0


def ppp(frame: Frame) -> Found:
    """PPP, with or without its address and control octets; the addresses 01 and 03 mean LAPB."""
    octets = frame.octets
    if octets[:1] in (b"\x01", b"\x03"):
        return Carried.LAPB, 0
    return by_ppp(frame, 2 if octets[:2] == b"\xff\x03" else 0)


def directed(frame: Frame, carried: Carried) -> Found:
    """The direction by a first octet, which is 0 for a received frame."""
    if not frame.octets:
        return Carried.BROKEN, 0
    frame.direction = Direction.SENT if frame.octets[0] else Direction.RECEIVED
    return carried, 1


def lapb_directed(frame: Frame) -> Found:
    return directed(frame, Carried.LAPB)


def x25_directed(frame: Frame) -> Found:
    return directed(frame, Carried.X25)


def lapb(frame: Frame) -> Found:
    return Carried.LAPB, 0


def hdlc(frame: Frame) -> Found:
    return Carried.HDLC, 0


def x25(frame: Frame) -> Found:
    return Carried.X25, 0


LINKS: dict[int | str | None, Opener] = {
    0: loopback,
    1: ethernet,
    9: ppp,
    12: raw_ip,
    14: raw_ip,
    50: ppp,
    101: raw_ip,
    104: cisco,
    108: loopback,
    113: cooked_1,
    207: lapb_directed,
    228: raw_ip,
    229: raw_ip,
    276: cooked_2,
}

# Link types for private use: DLT_USER0 to DLT_USER15.
USER_LINKS = range(147, 163)

# Where the source address is in a link header: of Ethernet, and after its length in a cooked header.
COOKED_SOURCES: dict[Opener, tuple[int, int]] = {cooked_1: (5, 6), cooked_2: (11, 12)}


def source_of(opener: Opener, octets: bytes) -> bytes:
    """The source address of a link header; none where it has none."""
    if opener is ethernet:
        return octets[6:12]
    if opener not in COOKED_SOURCES:
        return b""
    length_at, begin = COOKED_SOURCES[opener]
    return octets[begin:begin + min(octets[length_at], LONGEST_ADDRESS)]


# What reads the frames of each kind, in the order of the kinds.
OPENERS: dict[str, Opener] = dict(
    zip(KINDS, (ethernet, cooked_1, cooked_2, raw_ip, lapb, lapb_directed, hdlc, x25, x25_directed), strict=True)
)

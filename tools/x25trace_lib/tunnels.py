"""Tunnels in Internet packets: IP in IP, GRE and VXLAN; each is read like a link header."""
from __future__ import annotations

from .frames import Frame
from .links import DEEPEST, Carried, Found, by_protocol, typed

IP_IN_IP = 4
IPV6_IN_IP = 41
GRE = 47
UDP = 17
# The port of VXLAN, and the one that Linux used before it was assigned.
VXLAN_PORTS = frozenset((4789, 8472))
ETHERNET_IN_GRE = 0x6558
# Flags of GRE, each with a field of four octets; one of them is obsolete.
CHECKSUM, ROUTING, KEY, SEQUENCE = 0x80, 0x40, 0x20, 0x10


def ip(frame: Frame) -> Found:
    return Carried.IP, 0


def gre(frame: Frame) -> Found:
    """GRE of version 0: the fields of its flags, then a packet of its protocol, perhaps an Ethernet frame."""
    octets = frame.octets
    if len(octets) < 4:
        return Carried.BROKEN, 0
    flags, version, protocol = octets[0], octets[1] & 7, octets[2] << 8 | octets[3]
    if version or flags & ROUTING:
        return Carried.OTHER, 0
    at = 4 + 4 * sum(bool(flags & flag) for flag in (CHECKSUM, KEY, SEQUENCE))
    return typed(frame, at + 12) if protocol == ETHERNET_IN_GRE else by_protocol(frame, protocol, at)


def vxlan(frame: Frame) -> Found:
    """UDP to a port of VXLAN: two headers of eight octets, then an Ethernet frame."""
    octets = frame.octets
    if len(octets) < 16 or octets[2] << 8 | octets[3] not in VXLAN_PORTS or not octets[8] & 8:
        return Carried.OTHER, 0
    return typed(frame, 16 + 12)


OPENERS = {IP_IN_IP: ip, IPV6_IN_IP: ip, GRE: gre, UDP: vxlan}


def opened(protocol: int, frame: Frame) -> Found:
    """What a tunnel in an Internet packet carries, as for a link header; OTHER where the packet is not a tunnel."""
    opener = OPENERS.get(protocol)
    if opener is None or frame.depth > DEEPEST:
        return Carried.OTHER, 0
    return opener(frame)

"""From an Internet packet to its TCP segment: IPv4 and IPv6, extension headers, fragments, tunnels."""
from __future__ import annotations

import struct
from collections import OrderedDict
from collections.abc import Iterable
from dataclasses import dataclass

from x25tools_lib.ledger import Ledger, Reason, Topic

from .frames import Frame
from .links import Carried
from .other_ports import OtherPorts
from .tunnels import GRE, IP_IN_IP, IPV6_IN_IP, opened

TCP = 6
# The protocols whose fragments are reassembled.
KEPT = frozenset((TCP, GRE, IP_IN_IP, IPV6_IN_IP))
FRAGMENT_HEADER = 44
# Extension headers whose second octet counts units of eight octets after the first eight.
EXTENSIONS = frozenset((0, 43, 60, 135, 139, 140))
AUTHENTICATION = 51
# Version and header length, total length, identification, flags and offset, protocol, and the two addresses.
IPV4_HEADER = struct.Struct(">BxHHHxBxx4s4s")
MORE, PLACE = 0x2000, 0x1FFF
# The two ports, sequence and acknowledgement number, header length and flags.
TCP_HEADER = struct.Struct(">2s2sIIBB")
SYN, FIN, RST, ACK = 2, 1, 4, 16


# The key of a datagram's fragments: the protocol, the two addresses, and the identification.
Identity = tuple[int, bytes, bytes, "int | bytes"]


@dataclass(slots=True, eq=False)
class Segment:
    """A TCP segment; its ends are an address and a port each, in octets; missing octets of its payload were cut off."""

    frame: int
    source: bytes
    target: bytes
    sequence: int
    acknowledged: int | None
    flags: int
    payload: bytes
    missing: int
    time: int | None = None


def port_of(end: bytes) -> int:
    return int.from_bytes(end[-2:], "big")


# The fragments of a datagram as they came: at its place the octets of each, and whether it is the last one.
Parts = dict[int, tuple[bytes, bool]]


def joined(parts: Parts, size: int) -> bytes:
    """The octets of a datagram; of an octet that several fragments have, the copy that came first counts."""
    whole = bytearray(size)
    for begin, (part, _) in reversed(parts.items()):
        whole[begin:begin + len(part)] = part
    return bytes(whole[:size])


class Fragments:
    """Datagrams of which not all fragments were seen, up to a limit; the oldest is given up first."""

    MOST = 64
    LARGEST = 65_535

    def __init__(self, ledger: Ledger) -> None:
        self.ledger = ledger
        self.waiting: OrderedDict[Identity, tuple[int, Parts]] = OrderedDict()

    def add(self, frame: Frame, identity: Identity, place: int, octets: bytes, last: bool) -> bytes | None:
        """The whole datagram's octets once this fragment completes it, else None."""
        _, parts = self.waiting.setdefault(identity, (frame.number, {}))
        parts.setdefault(place, (octets, last))
        size = self.size(parts)
        if size is not None:
            del self.waiting[identity]
            return joined(parts, size)
        if len(self.waiting) > self.MOST:
            self.give_up_oldest()
        return None

    def size(self, parts: Parts) -> int | None:
        """The size of a datagram whose parts are all there; None where one is missing."""
        size = 0
        for begin, (part, ends) in sorted(parts.items()):
            if begin > size or begin + len(part) > self.LARGEST:
                return None
            size = max(size, begin + len(part))
            if ends:
                return begin + len(part)
        return None

    def give_up_oldest(self) -> None:
        _, (frame, parts) = self.waiting.popitem(last=False)
        words = f"frame {frame}: it begins a datagram of which not all fragments are there"
        self.ledger.damaged(Reason.FRAGMENT, words, len(parts))

    def end(self) -> None:
        while self.waiting:
            self.give_up_oldest()


class Internet:
    """Finds the TCP segments of the wanted ports."""

    def __init__(self, ledger: Ledger, ports: Iterable[int]) -> None:
        self.ledger = ledger
        self.ports = frozenset(port.to_bytes(2, "big") for port in ports)
        self.fragments = Fragments(ledger)
        self.other_ports = OtherPorts()

    def end(self) -> None:
        """The recording has ended."""
        self.fragments.end()
        for port, many in self.other_ports.ports():
            words = f"TCP port {port} looks like XOT, in {many} segments: --port {port} reads it"
            self.ledger.report(Topic.PORT, words)

    def bad(self, frame: Frame, words: str) -> Segment | None:
        """Counts a packet with a damaged header; there is no segment."""
        self.ledger.damaged(Reason.BAD_HEADER, f"frame {frame.number}: {words}")
        return None

    def segment(self, frame: Frame, at: int) -> Segment | None:
        """The segment of an Internet packet; None, counted, where there is none."""
        octets = frame.octets
        there = len(octets) - at
        version = octets[at] >> 4 if there > 0 else 0
        if version == 4 and there >= 20:
            return self.version_4(frame, octets, at)
        if version == 6 and there >= 40:
            return self.version_6(frame, octets, at)
        if version in (4, 6) or not version:
            return self.bad(frame, "its Internet header is cut")
        return self.bad(frame, f"its Internet header has version {version}")

    def version_4(self, frame: Frame, octets: bytes, at: int) -> Segment | None:
        first, total, number, place, protocol, source, target = IPV4_HEADER.unpack_from(octets, at)
        header = 4 * (first & 15)
        total = total or frame.length - at
        if header < 20 or total < header:
            return self.bad(frame, f"its IPv4 header has length {header}, its packet {total}")
        begin, end = at + header, at + total
        if place & (MORE | PLACE):
            identity = (protocol, source, target, number)
            return self.fragment(frame, identity, (begin, end), 8 * (place & PLACE), not place & MORE)
        if protocol == TCP:
            return self.tcp(frame, octets, begin, end, (source, target))
        return self.tunnel(frame, protocol, octets, begin, end)

    def version_6(self, frame: Frame, octets: bytes, at: int) -> Segment | None:
        follows, begin = octets[at + 6], at + 40
        end = begin + (octets[at + 4] << 8 | octets[at + 5] or frame.length - begin)
        ends = octets[at + 8:at + 24], octets[at + 24:at + 40]
        while follows in EXTENSIONS or follows in (FRAGMENT_HEADER, AUTHENTICATION):
            if len(octets) < begin + 8:
                return self.bad(frame, "its IPv6 extension headers are cut")
            size = 4 * (octets[begin + 1] + 2) if follows == AUTHENTICATION else 8 * (octets[begin + 1] + 1)
            if follows == FRAGMENT_HEADER:
                size = 8
                place = octets[begin + 2] << 8 | octets[begin + 3]
                if place & 0xFFF9:
                    identity = (octets[begin], *ends, octets[begin + 4:begin + 8])
                    return self.fragment(frame, identity, (begin + 8, end), place & 0xFFF8, not place & 1)
            follows, begin = octets[begin], begin + size
        if follows == TCP:
            return self.tcp(frame, octets, begin, end, ends)
        return self.tunnel(frame, follows, octets, begin, end)

    def fragment(self, frame: Frame, identity: Identity, span: tuple[int, int], place: int, last: bool) -> Segment | None:
        """Keeps a fragment; the segment of the datagram that it completes.

        `span` is where its octets are in the frame, `place` where they are in the datagram.
        """
        protocol, source, target, _ = identity
        begin, end = span
        if protocol not in KEPT:
            self.ledger.left_out(Reason.OTHER_PROTOCOL)
            return None
        if end > len(frame.octets):
            self.ledger.damaged(Reason.FRAGMENT, f"frame {frame.number}: a fragment that was cut off")
            return None
        whole = self.fragments.add(frame, identity, place, frame.octets[begin:end], last)
        if whole is None:
            return None
        if protocol == TCP:
            return self.tcp(frame, whole, 0, len(whole), (source, target))
        return self.tunnel(frame, protocol, whole, 0, len(whole))

    def tunnel(self, frame: Frame, protocol: int, octets: bytes, begin: int, end: int) -> Segment | None:
        """The segment in a packet of another protocol, which may be a tunnel."""
        inner = frame.within(begin, end, octets)
        carried, at = opened(protocol, inner)
        if carried is Carried.IP:
            return self.segment(inner, at)
        if carried is Carried.BROKEN:
            return self.bad(frame, "the header of its tunnel is cut")
        self.ledger.left_out(Reason.OTHER_PROTOCOL)
        return None

    def tcp(self, frame: Frame, octets: bytes, begin: int, end: int, ends: tuple[bytes, bytes]) -> Segment | None:
        """The segment at an offset; None where it is of another port, or damaged."""
        there = len(octets)
        if there < begin + 20 or end < begin + 20:
            return self.bad(frame, "its TCP header is cut")
        from_port, to_port, sequence, acknowledged, size, flags = TCP_HEADER.unpack_from(octets, begin)
        payload = begin + (size >> 4) * 4
        if from_port not in self.ports and to_port not in self.ports:
            self.ledger.left_out(Reason.OTHER_PORT)
            if flags & SYN:
                self.other_ports.servers.add(from_port if flags & ACK else to_port)
            elif octets[payload:payload + 2] == b"\0\0":
                self.other_ports.see(from_port, to_port, octets[payload:end])
            return None
        if payload > end or size < 0x50:
            return self.bad(frame, f"its TCP header has length {(size >> 4) * 4}")
        return Segment(
            frame.number,
            ends[0] + from_port,
            ends[1] + to_port,
            sequence,
            acknowledged if flags & ACK else None,
            flags,
            octets[payload:end],
            0 if end <= there else end - max(there, payload),
            frame.time,
        )

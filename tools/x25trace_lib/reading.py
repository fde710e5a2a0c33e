"""From the frames of a capture to its packets, whatever carries them."""
from __future__ import annotations

import ipaddress
from collections.abc import Iterable, Iterator, Sequence

from x25tools_lib.choices import KINDS_TEXT, Carrier, Choices
from x25tools_lib.ledger import Ledger, Reason, Topic
from x25tools_lib.refusals import Refusal, Why
from x25tools_lib.sides import Side

from .frames import Direction, Dropped, Frame
from .interfaces import Interfaces
from .internet import Internet
from .lapb import Lapb, kind_of, unframe
from .link_ends import Ends
from .lines import Line, Lines
from .links import LINKS, OPENERS, USER_LINKS, Carried, Found, Opener, source_of
from .packets import LONGEST, Item, Missing, Packet, left_out, without
from .xot import Xot

CARRIERS = {
    Carried.IP: Carrier.XOT,
    Carried.LAPB: Carrier.LAPB,
    Carried.HDLC: Carrier.LAPB,
    Carried.X25: Carrier.X25,
    Carried.DEVICE: Carrier.X25,
}


class Reading:
    """The packets of a capture, each with what carried it; `has_parts` means that each interface has a link of its own."""

    def __init__(self, ledger: Ledger, choices: Choices, has_parts: bool = False) -> None:
        self.ledger, self.choices, self.has_parts = ledger, choices, has_parts
        self.interfaces = Interfaces()
        self.internet = Internet(ledger, choices.ports)
        self.xot = Xot(ledger, choices.ports, choices.dte, choices.swapped)
        # The links, by what carries their packets and by the devices that had them.
        self.lines = Lines()
        self.line_of: dict[tuple[Carrier, int | None], Line] = {}
        # The first link without link headers. Interfaces without packets are taken for parts of it.
        self.first: Line | None = None
        self.frames = 0
        # Whether frames may be missing before the next one; only sequence numbers in them would show it.
        self.is_damaged = False
        self.openers: dict[int | str | None, Opener] = dict(LINKS)
        self.openers.update({link: OPENERS[kind] for link, kind in choices.kinds.items() if link is not None})
        self.other = OPENERS.get(choices.kinds.get(None, ""))
        self.unknown_links: set[int | str | None] = set()
        # The kinds found by first frames for link types that --as does not name.
        self.tried: set[str] = set()

    @property
    def parts(self) -> list[int]:
        """The interfaces that have a link each and are read as one link; none where options say which side sends on them."""
        return [] if self.has_parts or self.choices.senders else self.interfaces.parted()

    def place(self, frame: Frame) -> int | None:
        """The device or interface by which the link of a frame is known."""
        return frame.interface if self.has_parts and frame.device is None else frame.device

    def line(self, carrier: Carrier, frame: Frame) -> Line:
        """The link that had a frame."""
        key = carrier, None if carrier is Carrier.XOT else self.place(frame)
        line = self.line_of.get(key)
        if line is None:
            line = self.line_of[key] = Line(*key)
            if carrier is Carrier.LAPB:
                choices = self.choices
                ends = Ends(self.ledger, choices.side_by, choices.swapped, choices.stations)
                line.lapb = Lapb(self.ledger, choices.link_modulus, ends)
            self.lines.add(line)
        return line

    def interface(self, frame: Frame, has_packet: bool) -> Line:
        """The link that had a frame without a link header."""
        key = Carrier.X25, self.place(frame)
        if key in self.line_of:
            return self.line_of[key]
        if self.first is None or has_packet and self.first in self.line_of.values():
            line = Line(Carrier.X25)
            self.lines.add(line)
        else:
            line = self.first
        self.first = self.first or line
        if has_packet:
            self.line_of[key], line.device = line, key[1]
        return line

    def packets(self, frames: Iterable[Frame | Dropped]) -> Iterator[tuple[Line | None, Item]]:
        """Pairs of a link and a packet or a gap; a gap of dropped frames has no link."""
        wanted, only, openers = self.choices.interfaces, self.choices.only, self.openers
        segment_of, take = self.internet.segment, self.xot.take
        for frame in frames:
            if isinstance(frame, Dropped):
                self.is_damaged |= not frame.many
                if frame.many and (not wanted or frame.interface in wanted):
                    yield None, self.dropped(frame)
                continue
            self.frames += 1
            opener = openers.get(frame.link, self.other) or self.unknown
            carried, at = opener(frame)
            if wanted and (frame.interface if frame.device is None else frame.device) not in wanted:
                self.ledger.left_out(Reason.OTHER_INTERFACE)
                continue
            carrier = CARRIERS.get(carried)
            if carrier is None:
                self.not_carried(frame, carried)
                continue
            if only is not None and carrier is not only:
                self.ledger.left_out(Reason.OTHER_CARRIER)
                continue
            if carrier is Carrier.X25:
                self.interfaces.see(carrier, frame, at)
                for packet in self.short_enough(self.from_packet(frame, carried, at)):
                    yield self.interface(frame, isinstance(packet, Packet)), packet
                continue
            line = self.line(carrier, frame)
            if carrier is Carrier.XOT:
                segment = segment_of(frame, at)
                packets = take(segment) if segment else ()
            else:
                frame.source = source_of(opener, frame.octets)
                self.interfaces.see(carrier, frame, at)
                packets = self.from_link(line, frame, carried, at)
            for packet in self.short_enough(packets):
                yield line, packet
        self.internet.end()
        for packets in self.xot.end():
            for packet in self.short_enough(packets):
                yield self.line_of[Carrier.XOT, None], packet
        for line in self.lines.all:
            if line.lapb:
                line.lapb.end()

    def short_enough(self, packets: Iterable[Item]) -> list[Item]:
        """What a frame gives, once it has reported all; a packet that is too long becomes a gap."""
        return [
            packet if isinstance(packet, Missing) or len(packet.octets) <= LONGEST else self.too_long(packet)
            for packet in packets
        ]

    def too_long(self, packet: Packet) -> Missing:
        self.ledger.damaged(Reason.LONG_PACKET, f"frame {packet.frame}: a packet of {len(packet.octets)} octets")
        return without(packet)

    def dropped(self, dropped: Dropped) -> Missing:
        """The gap where frames were dropped."""
        words = f"frame {dropped.number}: the capture says that {dropped.many} frames were dropped"
        self.ledger.damaged(Reason.DROPPED, words, dropped.many)
        return Missing(dropped.number, dropped.time)

    def no_packet(self) -> Refusal:
        """The refusal of a capture that has no packet."""
        kinds = " and ".join(sorted(self.tried.union(self.choices.kinds.values())))
        frames = f"{self.frames} frames" if self.frames > 1 else "1 frame"
        words = f"no packet of X.25 in {frames}" if self.frames else "the capture has no frame"
        if kinds:
            words += f", with frames read as {kinds}: another KIND of --as may be right"
        elif self.xot.hosts:
            hosts = [str(ipaddress.ip_address(host)) for host in sorted(self.xot.hosts, key=lambda host: (len(host), host))]
            words = f"no connection of XOT has the host of --dte; the hosts are {', '.join(hosts)}"
        elif self.ledger.counts[Reason.OTHER_PORT]:
            ports = " or ".join(map(str, self.choices.ports))
            words += f": XOT is looked for on TCP port {ports}, and --port N names another"
        return Refusal(Why.NO_PACKET, words)

    def unknown(self, frame: Frame) -> Found:
        """What a frame of an unknown link type holds. The first frame of a user link type decides whether it is LAPB."""
        link = frame.link
        if link in self.unknown_links:
            return Carried.UNKNOWN, 0
        self.unknown_links.add(link)
        option = f"--as {link}=KIND" if isinstance(link, int) else "--as KIND"
        kind = kind_of(frame.octets) if link in USER_LINKS else None
        if kind is None:
            words = f"frame {frame.number}: link type {link} is not known; {option} says what it holds: {KINDS_TEXT}"
            self.ledger.report(Topic.UNKNOWN_LINK, words)
            return Carried.UNKNOWN, 0
        words = f"frame {frame.number} looks like LAPB, so link type {link} is read as {kind}"
        self.ledger.report(Topic.UNKNOWN_LINK, f"{words}; {option} reads it as something else")
        self.tried.add(kind)
        self.openers[link] = OPENERS[kind]
        return self.openers[link](frame)

    def not_carried(self, frame: Frame, carried: Carried) -> None:
        if carried is Carried.BROKEN:
            self.is_damaged = True
            self.ledger.damaged(Reason.BAD_HEADER, f"frame {frame.number}: its link header is cut")
        else:
            self.ledger.left_out(Reason.UNKNOWN_LINK if carried is Carried.UNKNOWN else Reason.OTHER_PROTOCOL)

    def from_link(self, line: Line, frame: Frame, carried: Carried, at: int) -> Sequence[Item]:
        octets, cut = frame.octets[at:], len(frame.octets) < frame.length
        if carried is Carried.HDLC:
            unframed = None if cut else unframe(octets)
            if unframed is None:
                self.ledger.damaged(Reason.BAD_FCS, f"frame {frame.number}: its frame check sequence is wrong")
                return ()
            octets = unframed
        assert line.lapb
        return line.lapb.take(frame, octets, cut)

    def from_packet(self, frame: Frame, carried: Carried, at: int) -> Sequence[Item]:
        """A packet without a link header, or its gap; before one of a Linux device an octet says what it is."""
        octets = frame.octets
        if carried is Carried.DEVICE and len(octets) > at and octets[at] < 4:
            if octets[at]:
                self.ledger.left_out(Reason.DEVICE_WORD)
                return ()
            at += 1
            carried = Carried.X25
        if self.is_damaged:
            # Such packets have no link numbers that would show whether one is missing.
            self.is_damaged = False
            return [Missing(frame.number, frame.time), *self.from_packet(frame, carried, at)]
        side = self.side(frame)
        if side is None:
            self.ledger.left_out(Reason.NO_SIDE)
            return (left_out(frame.number, frame.time, octets[at:]),)
        if len(octets) < frame.length:
            self.ledger.damaged(Reason.CUT_PACKET, f"frame {frame.number}: a packet that was cut off")
            return (left_out(frame.number, frame.time, octets[at:]),)
        return (Packet(frame.number, side, octets[at:], None, frame.time),)

    def side(self, frame: Frame) -> Side | None:
        """The host that recorded is the DTE; or the interface says which side sends on it."""
        if frame.interface in self.choices.senders:
            return self.choices.senders[frame.interface]
        side = {Direction.SENT: Side.T, Direction.RECEIVED: Side.N}.get(frame.direction)
        return side.other if side and self.choices.swapped else side

"""LAPB: the packets in the I frames of a link, each once, as its receiver accepted them.

What the recorder knows of one direction, on the circle of the sequence numbers:

    acknowledged        next
    .....|#################|.......
           repeats           held: either the receiver refuses them, or frames before them were not recorded

An N(R) of the other side beyond next shows that the receiver took frames that were not recorded: packets of any channel
may be missing there.
"""
from __future__ import annotations

import enum
from collections.abc import Sequence
from dataclasses import dataclass, field

from x25tools_lib.ledger import Ledger, Reason, Topic
from x25tools_lib.sides import Side

from .frames import Frame
from .link_ends import COMMAND_SIDES, RESPONSE_SIDES, Ends, Opening
from .packets import Item, Missing, Packet, Type, left_out

POLL = 0x10
REJECT = 0x09
SUPERVISORY = (0x01, 0x05, REJECT)
# The octets of a frame reject, modulo 8 and modulo 128.
REJECTED = (5, 7)
FLAG = b"\x7e"
# The packets that show which end opened the link.
OPENINGS = {bytes((Type.RESTART,)): Opening.RESTART, bytes((Type.CALL,)): Opening.CALL}


class Unnumbered(enum.IntEnum):
    """The frames that set up, end or reject a link, without their poll bit."""

    SABM = 0x2F
    SABME = 0x6F
    DISC = 0x43
    UA = 0x63
    DM = 0x0F
    FRMR = 0x87


COMMANDS = frozenset((Unnumbered.SABM, Unnumbered.SABME, Unnumbered.DISC))
NAMES = {kind.value: kind.name for kind in Unnumbered}


def remainder(rest: int) -> int:
    """A step of the frame check sequence: eight bits divided by x^16 + x^12 + x^5 + 1, low bit first."""
    for _ in range(8):
        rest = rest >> 1 ^ 0x8408 if rest & 1 else rest >> 1
    return rest


REMAINDERS = [remainder(octet) for octet in range(256)]


def is_checked(octets: bytes) -> bool:
    """Whether the last two octets are the check sequence of those before."""
    rest = 0xFFFF
    for octet in octets[:-2]:
        rest = rest >> 8 ^ REMAINDERS[(rest ^ octet) & 255]
    return len(octets) >= 4 and rest ^ 0xFFFF == int.from_bytes(octets[-2:], "little")


def unframe(octets: bytes) -> bytes | None:
    """The octets between the flags of a frame, without its check sequence, which may end like a flag; None if wrong."""
    octets = octets.lstrip(FLAG)
    while not is_checked(octets):
        if octets[-1:] != FLAG:
            return None
        octets = octets[:-1]
    return octets[:-2]


def is_frame(octets: bytes) -> bool:
    """Whether octets look like a frame of LAPB: by address, control field and length, and of an I frame by its packet."""
    if len(octets) < 2 or octets[0] not in COMMAND_SIDES:
        return False
    control, length = octets[1], len(octets)
    if not control & 1:
        # The general format identifier of a packet, after a control field of one octet or two.
        return any(length >= at + 3 and octets[at] >> 4 & 3 in (1, 2) for at in (2, 3))
    if control & 3 == 1:
        return length == 2 and control & 0x0F in SUPERVISORY or length == 3 and control in SUPERVISORY
    kind = control & ~POLL
    return kind in NAMES and (length in REJECTED if kind == Unnumbered.FRMR else length == 2)


def kind_of(octets: bytes) -> str | None:
    """The kind of --as by which octets look like a frame of LAPB, with a right check sequence or without; or None."""
    unframed = unframe(octets)
    if unframed is not None and is_frame(unframed):
        return "hdlc"
    return "lapb" if is_frame(octets) else None


@dataclass(slots=True)
class Held:
    """What an I frame carries: the octets of its packet, and whether the recorder cut them."""

    frame: int
    side: Side
    octets: bytes
    is_cut: bool
    time: int | None
    # The number of gaps of the link written before it.
    gaps: int
    # Whether its receiver had asked for another frame before.
    is_after_reject: bool = False


@dataclass(slots=True)
class Way:
    """One direction of the link: the N(S) that comes next, the last N(R) for it, and the frames held."""

    next: int | None = None
    # The frame that brought the last accepted N(S), or the one that showed that it was accepted, before those that are held.
    last: int | None = None
    acknowledged: int | None = None
    held: dict[int, Held] = field(default_factory=dict)
    # Whether a frame of the sender was recorded, and whether some of its I frames surely were not.
    is_seen: bool = False
    is_missed: bool = False
    # Whether the place of the held frames is uncertain.
    is_doubtful: bool = False
    # Whether the receiver rejected the frames from the next one on, which has not come since.
    is_rejected: bool = False
    # The last frame of each number, and whether all since the set-up of the link were recorded.
    sent: dict[int, Held] = field(default_factory=dict)
    is_set_up: bool = False

    def is_same(self, send: int, packet: Held) -> bool:
        """Whether a frame with a number used before may repeat the last frame with it: it carries the same packet."""
        last = self.sent.get(send)
        if last is None:
            return not self.is_set_up
        length = min(len(last.octets), len(packet.octets)) if last.is_cut or packet.is_cut else None
        return last.octets[:length] == packet.octets[:length]

    @property
    def following(self) -> int:
        """The N(S) that comes next, of a direction whose numbers are known."""
        assert self.next is not None
        return self.next


class Lapb:
    """One link."""

    def __init__(self, ledger: Ledger, modulus: int | None, ends: Ends) -> None:
        self.ledger, self.ends, self.named = ledger, ends, ends.named
        self.modulus = self.given = modulus
        self.circle = modulus or 8
        self.gaps = 0
        self.ways = {side: Way() for side in Side}

    def side(self, frame: Frame, address: int, is_command: bool) -> Side:
        """The side of a frame that is surely a command, or surely a response."""
        side, is_news = self.ends.sender(frame, address, is_command)
        if is_news:
            # An RR of this end, recorded before, may have been taken for one of the other end.
            self.ways[side] = Way(is_set_up=self.ways[side].is_set_up)
            self.ways[side].next = self.ways[side].acknowledged = 0 if self.ways[side].is_set_up else None
        return side

    def take(self, frame: Frame, octets: bytes, cut: bool) -> Sequence[Item]:
        """The packets that a frame (address, control, information) completes, and the gaps between them."""
        wide = self.modulus == 128
        if len(octets) < 2 or wide and octets[1] & 3 != 3 and len(octets) < 3:
            self.ledger.damaged(Reason.BAD_HEADER, f"frame {frame.number}: its LAPB header is cut")
            return ()
        if octets[0] not in COMMAND_SIDES:
            self.ledger.left_out(Reason.OTHER_ADDRESS)
            return ()
        control = octets[1]
        if control & 3 == 3:
            self.ledger.left_out(Reason.LINK_FRAME)
            return self.unnumbered(frame, octets[0], control & ~POLL)
        receive = octets[2] >> 1 if wide else control >> 5
        if control & 1:
            self.ledger.left_out(Reason.LINK_FRAME)
            final = octets[2] & 1 if wide else control & POLL
            return self.supervisory(frame, octets, receive, final)
        send = control >> 1 if wide else control >> 1 & 7
        side = self.side(frame, octets[0], True)
        before: Sequence[Item] = ()
        if receive != self.ways[side.other].acknowledged:
            before = self.acknowledge(frame, side.other, receive, True)
        packet = Held(frame.number, self.named(side), octets[3 if wide else 2:], cut, frame.time, self.gaps)
        packets = self.information(frame, side, send, packet)
        return [*before, *packets] if before else packets

    def unnumbered(self, frame: Frame, address: int, kind: int) -> Sequence[Item]:
        """Reads an unnumbered frame, and reports it; one that sets up the link resets its numbers.

        Held frames may have been accepted, with those before them.
        """
        if kind not in NAMES:
            return ()
        side = self.side(frame, address, kind in COMMANDS)
        self.ways[side].is_seen = True
        self.ledger.report(Topic.LINK_FRAME, f"frame {frame.number}: {NAMES[kind]} of {self.named(side).name}")
        if kind in (Unnumbered.SABM, Unnumbered.SABME):
            self.ends.opens(Opening.LINK, side)
        if kind in (Unnumbered.SABM, Unnumbered.SABME) and self.given is None:
            self.modulus = self.circle = 8 if kind == Unnumbered.SABM else 128
        if kind not in (Unnumbered.SABM, Unnumbered.SABME, Unnumbered.UA):
            return ()
        gaps = [self.gap(frame.number, frame.time, way.last) for way in self.ways.values() if way.held]
        for way in self.ways.values():
            self.drop_held(way)
            way.next, way.acknowledged, way.last = 0, 0, frame.number
            way.sent.clear()
            way.is_set_up, way.is_rejected = True, False
        return gaps

    def supervisory(self, frame: Frame, octets: bytes, receive: int, final: int) -> Sequence[Item]:
        """Reads an RR, RNR, REJ or SREJ. Where it may be a command or a response, it proves no loss."""
        side = self.ends.known(frame)
        proves = side is not None
        if side is None:
            if final:
                return ()
            side = RESPONSE_SIDES[octets[0]]
        self.ways[side].is_seen = True
        way = self.ways[side.other]
        if octets[1] & 0x0F == REJECT and way.acknowledged is None:
            # What is rejected was sent before, so this N(R) is for frames before the next one.
            way.acknowledged = receive
            return ()
        if octets[1] & 0x0F == REJECT and way.next == receive:
            # The receiver refused all held frames; they will be repeated.
            self.drop_held(way)
            way.is_rejected = True
        return self.acknowledge(frame, side.other, receive, proves)

    def acknowledge(self, frame: Frame, side: Side, receive: int, proves: bool) -> Sequence[Item]:
        """Reads an N(R) for the frames of a side; one beyond the next frame proves that frames were not recorded."""
        way = self.ways[side]
        if way.next is None:
            before, way.acknowledged = way.acknowledged, receive
            if before is None or before == receive:
                return ()
            self.lose(frame, side, receive, (receive - before) % self.circle)
            return [self.gap(frame.number, frame.time)]
        if way.acknowledged is None:
            # Where recording began in the middle a first N(R) may be for frames before; not for one that is held.
            beyond = (receive - 1) % self.circle in way.held
            inside = not beyond and (way.next - receive) % self.circle <= self.circle // 2
            proves = proves and beyond
        else:
            inside = (receive - way.acknowledged) % self.circle <= (way.next - way.acknowledged) % self.circle
        if inside:
            way.acknowledged = receive
        elif proves:
            return self.catch_up(frame, side, way, receive)
        return ()

    def catch_up(self, frame: Frame, side: Side, way: Way, receive: int) -> Sequence[Item]:
        """Advances to the frame that the receiver expects: held frames are returned, the others are lost."""
        lost, items, before = 0, list[Item](), self.gaps
        is_missing = is_doubtful = way.is_doubtful
        while way.next != receive:
            packet = way.held.pop(way.following, None)
            if packet is None:
                lost, is_missing = lost + 1, True
            else:
                # A gap of the other side between two held frames is kept between them.
                if is_missing or packet.gaps > before:
                    items.append(self.gap(packet.frame, packet.time, way.last))
                items += self.given_out(packet)
                is_missing, before = False, packet.gaps
                if not is_doubtful:
                    way.last = packet.frame
            way.next = (way.following + 1) % self.circle
        way.acknowledged = receive
        if lost:
            self.lose(frame, side, receive, lost)
        way.is_doubtful &= bool(way.held)
        if is_missing or is_doubtful:
            items.append(self.gap(frame.number, frame.time, way.last))
        if not way.held:
            way.last = frame.number
        return items

    def gap(self, frame: int, time: int | None, since: int | None = None) -> Missing:
        """A gap of all channels, of packets that a side sent after a frame."""
        self.gaps += 1
        return Missing(frame, time, since=since)

    def lose(self, frame: Frame, side: Side, receive: int, lost: int) -> None:
        """Reports frames of a side that were not recorded."""
        self.ways[side].is_missed = True
        words = f"{lost} I frames of {self.named(side).name} before N(S) {receive} were not recorded"
        self.ledger.damaged(Reason.LOST_FRAME, f"frame {frame.number}: {words}, but acknowledged", lost)

    def information(self, frame: Frame, side: Side, send: int, packet: Held) -> Sequence[Item]:
        """Reads an I frame: the next one, a repetition, or one to hold."""
        way, packets = self.ways[side], tuple[Item, ...]()
        way.is_seen = True
        self.drop_refused(way, send, packet)
        if way.next not in (None, send):
            is_held = send in way.held
            if is_held or self.repeats(way, send):
                if way.is_same(send, packet):
                    self.ledger.left_out(Reason.UNTAKEN_FRAME if is_held else Reason.REPEATED_FRAME)
                    return ()
                # All numbers have passed since that frame: held frames were accepted, and the others are missing.
                packets = (*self.catch_up(frame, side, way, (send + is_held) % self.circle),)
                packets += (*self.catch_up(frame, side, way, send),)
        way.sent[send] = packet
        if way.next is not None and (send != way.next or send != way.acknowledged) and self.reaches(way, send):
            packets += (*self.catch_up(frame, side, way, self.taken(way, send)),)
        if way.next not in (None, send):
            way.is_doubtful |= self.is_late(way, send)
            way.held[send] = packet
            return packets
        if way.held:
            # The held frames were refused, or accepted, or a whole modulus of frames has passed since them.
            packets = (*packets, self.gap(packet.frame, packet.time, way.last))
            way.is_doubtful = True
        if way.held:
            # A held one with this number and another packet is no longer waited for.
            self.ledger.left_out(Reason.UNTAKEN_FRAME, int(way.held.pop(send, None) is not None))
        way.next = (send + 1) % self.circle
        if not way.held:
            way.last = packet.frame
        return [*packets, *self.given_out(packet)] if packets else self.given_out(packet)

    def is_late(self, way: Way, send: int) -> bool:
        """Whether a frame with a later number is held."""
        ahead = (send - way.following) % self.circle
        return any((it - way.following) % self.circle > ahead for it in way.held)

    def reaches(self, way: Way, send: int) -> bool:
        """Whether a new frame shows that the next expected one was accepted.

        No window reaches to all numbers: the sender had an N(R) that lets it go so far, which may not have been recorded.
        """
        least, after = (send + 2) % self.circle, (send - way.following) % self.circle + 2
        if after > self.circle:
            return True
        if way.acknowledged is not None and after + (way.following - way.acknowledged) % self.circle > self.circle:
            way.acknowledged = least
        return False

    def taken(self, way: Way, send: int) -> int:
        """The number up to which frames were accepted before such a frame, including recorded ones that follow."""
        number = (send + 2) % self.circle
        while number in way.held:
            number = (number + 1) % self.circle
        return number

    def repeats(self, way: Way, send: int) -> bool:
        """Whether N(S) is one that was accepted: not acknowledged yet, or just before those, where no window reaches."""
        follows_held = (send - 1) % self.circle in way.held
        if way.acknowledged is None:
            return not follows_held and (way.following - send) % self.circle <= self.circle // 2
        from_acknowledged = (send - way.acknowledged) % self.circle
        if from_acknowledged < (way.following - way.acknowledged) % self.circle:
            return True
        return not follows_held and from_acknowledged == self.circle - 1

    def lacks(self, side: Side) -> bool:
        """Whether frames of a side surely were not recorded, or none were."""
        way = self.ways[self.named(side)]
        return way.is_missed or not way.is_seen

    def drop_refused(self, way: Way, send: int, packet: Held) -> None:
        """Removes held frames that their receiver refused, as a frame shows that comes.

        A held frame was refused where its number comes again with its packet. Those that came after a reject were refused
        where the frame that the reject asks for comes.
        """
        if send in way.held and way.is_same(send, packet):
            del way.held[send]
            self.ledger.left_out(Reason.UNTAKEN_FRAME)
        if way.is_rejected and way.next == send:
            refused = [number for number, held in way.held.items() if held.is_after_reject]
            self.ledger.left_out(Reason.UNTAKEN_FRAME, len(refused))
            for number in refused:
                del way.held[number]
        packet.is_after_reject = way.is_rejected and way.next != send
        way.is_rejected &= way.next != send
        way.is_doubtful &= bool(way.held)

    def drop_held(self, way: Way) -> None:
        if way.held:
            self.ledger.left_out(Reason.UNTAKEN_FRAME, len(way.held))
            way.held.clear()
            way.is_doubtful = False

    def given_out(self, packet: Held) -> Sequence[Item]:
        """A packet that the receiver accepted; a gap where the recorder cut it."""
        if packet.is_cut:
            words = f"frame {packet.frame}: an I frame of {packet.side.name} that was cut off"
            self.ledger.damaged(Reason.CUT_PACKET, words)
            self.gaps += 1
            return (left_out(packet.frame, packet.time, packet.octets),)
        how = OPENINGS.get(packet.octets[2:3])
        if how and how not in self.ends.openers:
            self.ends.opens(how, self.named(packet.side))
        return (Packet(packet.frame, packet.side, packet.octets, None, packet.time),)

    def end(self) -> None:
        for way in self.ways.values():
            self.drop_held(way)
        self.ends.end()

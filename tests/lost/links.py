"""Simulates a LAPB link that loses frames: on the wire, so that they are sent again, or in the recorder alone.

The recorder stands between the ends. Each packet has its number in its user data, so the rows of a trace show what a side
sent and its receiver accepted.
"""
from __future__ import annotations

import random
from collections.abc import Iterator
from dataclasses import dataclass, field
from enum import Enum

from forms import address, information

MODULUS = 8
SIDES = {"T": "N", "N": "T"}
READY, REJECT, SELECTIVE_REJECT = 0x01, 0x09, 0x0D
# How often a receiver acknowledges a packet at once, and an end asks again after a silence.
ACKNOWLEDGED, ASKED = 0.4, 0.7
# The shares of frames that are lost on the wire and in the recorder.
LOSSES = ((0, 0), (0.05, 0), (0, 0.05), (0.05, 0.05), (0.1, 0.02), (0.02, 0.1))
WINDOWS = (2, 3, 4, 7)
PACKETS = (8, 20, 40)
# After so many silences the ends give up.
SILENCES = 200


class Recovery(Enum):
    """How a receiver asks for a frame that is missing: not at all, where the sender's timer does it."""

    TIMER = READY
    REJECT = REJECT
    SELECTIVE = SELECTIVE_REJECT


@dataclass
class Sent:
    """A frame: an I frame with the number of its packet, or a supervisory one."""

    side: str
    receive: int
    send: int | None = None
    packet: int = 0
    kind: int = READY

    def octets(self) -> bytes:
        """The frame, behind an octet of its direction."""
        lead = bytes((self.side == "N",))
        if self.send is None:
            return lead + address(self.side, False) + bytes((self.receive << 5 | self.kind,))
        packet = bytes((0x10, 1, self.packet % MODULUS << 1, self.packet >> 8, self.packet & 0xFF))
        return lead + information(self.side, self.send, self.receive, packet.hex())


@dataclass
class End:
    """An end of the link."""

    side: str
    recovery: Recovery
    window: int
    packets: int
    next: int = 0
    acknowledged: int = 0
    expected: int = 0
    made: int = 0
    sent: dict[int, int] = field(default_factory=dict)
    # The packets that came out of sequence and are kept, and the numbers that were asked for.
    kept: dict[int, int] = field(default_factory=dict)
    asked: set[int] = field(default_factory=set)
    out: list[Sent] = field(default_factory=list)

    @property
    def outstanding(self) -> int:
        """How many I frames are not acknowledged."""
        return (self.next - self.acknowledged) % MODULUS

    def may_send(self) -> bool:
        """Whether it has a packet to send, and the window lets it."""
        return self.made < self.packets and self.outstanding < self.window

    def send(self) -> None:
        """Sends the next packet."""
        self.sent[self.next] = self.made
        self.made += 1
        self.repeat(self.next)
        self.next = (self.next + 1) % MODULUS

    def repeat(self, number: int) -> None:
        """Sends the I frame with a number."""
        self.out.append(Sent(self.side, self.expected, number, self.sent[number]))

    def repeat_from(self, number: int) -> None:
        """Sends the I frames again from a number on."""
        while number != self.next:
            self.repeat(number)
            number = (number + 1) % MODULUS

    def supervise(self, kind: int) -> None:
        """Sends a supervisory frame."""
        self.out.append(Sent(self.side, self.expected, kind=kind))

    def receive(self, source: random.Random, frame: Sent) -> None:
        """Reads a frame of the other end."""
        if (frame.receive - self.acknowledged) % MODULUS <= self.outstanding:
            self.acknowledged = frame.receive
            if frame.kind == REJECT:
                self.repeat_from(frame.receive)
            elif frame.kind == SELECTIVE_REJECT and self.outstanding:
                self.repeat(frame.receive)
        if frame.send == self.expected:
            self.accept(frame.send)
            if source.random() < ACKNOWLEDGED:
                self.supervise(READY)
        elif frame.send is not None:
            self.miss(frame.send, frame.packet)

    def accept(self, number: int) -> None:
        """Accepts the frame that it expects, and those that it kept after it."""
        self.asked.discard(number)
        self.expected = (number + 1) % MODULUS
        while self.kept.pop(self.expected, None) is not None:
            self.expected = (self.expected + 1) % MODULUS

    def miss(self, number: int, packet: int) -> None:
        """Asks for the frame that it expects, once, where another comes."""
        if (number - self.expected) % MODULUS >= self.window:
            self.supervise(READY)
            return
        if self.recovery is Recovery.SELECTIVE:
            self.kept[number] = packet
        if self.recovery is not Recovery.TIMER and self.expected not in self.asked:
            self.asked.add(self.expected)
            self.supervise(self.recovery.value)

    def wake(self, source: random.Random) -> None:
        """Sends again what is not acknowledged, or says what it expects, after a silence."""
        self.asked.clear()
        if self.outstanding and source.random() < 0.5:
            self.repeat_from(self.acknowledged)
        elif self.outstanding:
            self.repeat(self.acknowledged)
        elif source.random() < ASKED:
            self.supervise(READY)


def recorded(source: random.Random, recovery: Recovery) -> Iterator[bytes]:
    """The frames of a link that were recorded."""
    window, packets, (on_wire, in_recorder) = source.choice(WINDOWS), source.choice(PACKETS), source.choice(LOSSES)
    ends = {side: End(side, recovery, window, packets) for side in SIDES}
    passed: dict[str, list[Sent]] = {side: [] for side in SIDES}
    silences = 0
    while silences < SILENCES:
        moves = [(move, side) for side, end in ends.items() for move, there in (
            ("send", end.may_send()), ("pass", end.out), ("receive", passed[SIDES[side]])) if there]
        if not moves:
            if not any(end.outstanding for end in ends.values()):
                return
            silences += 1
            for end in ends.values():
                end.wake(source)
            continue
        move, side = source.choice(moves)
        if move == "send":
            ends[side].send()
        elif move == "receive":
            ends[side].receive(source, passed[SIDES[side]].pop(0))
        else:
            frame = ends[side].out.pop(0)
            if source.random() >= on_wire / 2:
                if source.random() >= in_recorder:
                    yield frame.octets()
                if source.random() >= on_wire / 2:
                    passed[side].append(frame)

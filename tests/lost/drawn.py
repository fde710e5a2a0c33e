"""Draws captures of right packets: XOT in TCP connections, and LAPB, with several calls, resets and restarts."""
from __future__ import annotations

import random
from collections.abc import Iterator
from itertools import takewhile

from forms import Talk, information, ready, unnumbered, xot
from model.packets import Interface, PacketRow, Side
from model.right_traces import right_rows
from model.traces import GAPS_FORM

RAW_IP = 101
LAPB_WITH_DIRECTION = 207
SIZE = 16
SABM, UA = 0x3F, 0x73
MODULUS = 8
# The most I frames of a side that are not acknowledged.
LINK_WINDOW = 7
FIRST_PORT = 1025
# How often a segment has the packets of several rows, and how often a packet is split over segments.
PACKED, SPLIT = 0.15, 0.1
ACKNOWLEDGED = 0.2


def interface_of(source: random.Random, channels: int, permanent: int) -> Interface:
    """An interface of some channels."""
    modulus, window = source.choice(((8, 1), (8, 2), (8, 2), (8, 7), (128, 3)))
    return Interface(GAPS_FORM, modulus, window, SIZE, permanent, permanent, channels, channels, False)


def words_of(interface: Interface, link: str, channels: int) -> list[str]:
    """The options that give the numbers of an interface."""
    numbers = {"--mod": interface.modulus, "--win": interface.window, "--size": interface.size}
    numbers |= {"--pvc": interface.permanent, "--svc": channels}
    return ["--only", link, *(str(word) for pair in numbers.items() for word in pair)]


def connections(source: random.Random) -> tuple[list[str], int, list[bytes]]:
    """The words, the link type and the frames of some connections whose segments are mixed."""
    interface, many = interface_of(source, 1, 0), source.randint(2, 5)
    waiting = [list(connection(source, interface, FIRST_PORT + at)) for at in range(many)]
    frames = []
    while waiting:
        one = source.choice(waiting)
        frames.append(one.pop(0))
        waiting = [each for each in waiting if each]
    return words_of(interface, "xot", many), RAW_IP, frames


def connection(source: random.Random, interface: Interface, port: int) -> Iterator[bytes]:
    """The segments of a connection: calls, one after the other."""
    talk = Talk(ports=(port, 1998), first=(source.randrange(2**32), source.randrange(2**32)))
    yield from talk.open()
    # No connection has the restart of an interface.
    rows = list(takewhile(lambda row: row.packet.channel, right_rows(source, interface, source.randint(20, 60))))
    while rows:
        many = 1
        while many < len(rows) and rows[many].side is rows[0].side and source.random() < PACKED:
            many += 1
        side = int(rows[0].side is Side.DCE)
        octets = b"".join(xot(row.octets.hex()) for row in rows[:many])
        del rows[:many]
        at = source.randrange(1, len(octets)) if source.random() < SPLIT else len(octets)
        yield talk.segment(side, octets[:at])
        if octets[at:]:
            yield talk.segment(side, octets[at:])
        if source.random() < ACKNOWLEDGED:
            yield talk.segment(1 - side)
    yield from talk.close()


def link(source: random.Random) -> tuple[list[str], int, list[bytes]]:
    """The words, the link type and the frames of a link of several channels."""
    interface = interface_of(source, 4, 1)
    frames = Frames(source)
    for row in right_rows(source, interface, source.randint(60, 150)):
        frames.send(row)
    return words_of(interface, "lapb", 4), LAPB_WITH_DIRECTION, frames.frames


class Frames:
    """The frames of a link, whose receivers accept all of them."""

    def __init__(self, source: random.Random) -> None:
        self.source = source
        self.frames: list[bytes] = []
        self.sent = {"T": 0, "N": 0}
        # How many frames of each side the other one acknowledged.
        self.acknowledged = {"T": 0, "N": 0}
        self.add("T", unnumbered("T", SABM, True))
        self.add("N", unnumbered("N", UA, False))

    def add(self, side: str, frame: bytes) -> None:
        """Adds a frame, recorded by the DTE."""
        self.frames.append(bytes((side == "T",)) + frame)

    def send(self, row: PacketRow) -> None:
        """Sends a packet in an I frame, which acknowledges all that came."""
        side, other = ("T", "N") if row.side is Side.DTE else ("N", "T")
        if self.sent[side] - self.acknowledged[side] == LINK_WINDOW or self.source.random() < ACKNOWLEDGED:
            self.acknowledge(other, side)
        self.acknowledged[other] = self.sent[other]
        numbers = self.sent[side] % MODULUS, self.sent[other] % MODULUS
        self.add(side, information(side, *numbers, row.octets.hex()))
        self.sent[side] += 1

    def acknowledge(self, side: str, other: str) -> None:
        """A side acknowledges all that the other one sent."""
        self.acknowledged[other] = self.sent[other]
        self.add(side, ready(side, self.sent[other] % MODULUS))

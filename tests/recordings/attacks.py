"""Captures of XOT that are made to take memory or time, or to lose their reader."""
from __future__ import annotations

import random
from collections.abc import Iterator

import forms

CALL, ACCEPTED, CLEAR, CONFIRMED = "10010B0000", "10010F", "1001130000", "100117"
# How many connections are half open, how often ports are used again, and how many circuits never clear their calls.
HALF_OPEN, AGAIN, UNCLEARED = 2000, 1000, 4200
# How many segments wait, are repeated and come by one octet.
WAITING, REPEATED, SINGLE = 1500, 3000, 2000
FAR = (2**23, 2**24 + 1, 2**30, 2**31 - 2**16, 2**31, 2**31 + 1, 2**32 - 1)


def data(number: int, octets: int = 1) -> str:
    """A data packet of the DTE."""
    return f"1001{number % 8 << 1:02X}" + "AA" * octets


def asked(talk: forms.Talk) -> list[bytes]:
    """A connection that is opened, and its call."""
    return [*talk.open(), talk.a(CALL), talk.b(ACCEPTED)]


def cleared(talk: forms.Talk) -> list[bytes]:
    """The end of a call and of its connection."""
    return [talk.a(CLEAR), talk.b(CONFIRMED), *talk.close()]


def whole() -> list[bytes]:
    """A call that no other connection is to hide."""
    talk = forms.Talk(ports=(1024, 1998))
    return asked(talk) + cleared(talk)


def half_open() -> list[bytes]:
    """Connections of which only a first segment is there: a SYN, a SYN/ACK, or octets."""
    frames = []
    for port in range(2000, 2000 + HALF_OPEN):
        talk = forms.Talk(ports=(port, 1998))
        frames.append((talk.open()[:1], talk.open()[1:2], [talk.a(CALL)[:-1]])[port % 3][0])
    return frames


def ports_used_again() -> list[bytes]:
    """Connections of the same two ports, one after the other, each without an end."""
    return [frame for at in range(AGAIN) for frame in asked(forms.Talk(first=(at << 20, at << 21)))]


def uncleared() -> list[bytes]:
    """More calls at once than there are logical channels."""
    return [frame for port in range(2000, 2000 + UNCLEARED) for frame in asked(forms.Talk(ports=(port, 1998)))]


def far_apart() -> list[bytes]:
    """Connections with segments far from the others, and acknowledgements of octets that nobody sent."""
    frames = []
    for port, step in enumerate(FAR, 2000):
        talk = forms.Talk(ports=(port, 1998))
        frames += asked(talk)
        for at in range(30):
            frames.append(talk.segment(0, forms.xot(data(at)), at=talk.next[0] + step))
            frames.append(talk.segment(at % 2, acknowledged=talk.next[1 - at % 2] + step))
            frames.append(talk.a(data(at)))
        frames += cleared(talk)
    return frames


def wrapping() -> list[bytes]:
    """Sequence numbers that begin again in a packet, whose segments come in another order."""
    talk = forms.Talk(first=(2**32 - 300, 2**32 - 20))
    frames = asked(talk)
    sent = [talk.a(data(at, 20)) for at in range(24)]
    for at in range(0, len(sent), 4):
        frames += sent[at : at + 4][::-1]
        frames.append(talk.b(f"1001{(at + 4) % 8 << 5 | 1:02X}"))
    return frames + cleared(talk)


def unacknowledged(one_side: bool) -> list[bytes]:
    """Segments after one that is missing, none of which the other side acknowledges."""
    talk = forms.Talk()
    frames = asked(talk)
    old = talk.next[0]
    talk.next[0] += 500
    for at in range(WAITING):
        frames.append(talk.a(*(data(at, 128) for _ in range(8))))
        if not one_side and at % 10 == 0:
            frames.append(talk.segment(1, acknowledged=old))
    return frames


def single_octets() -> list[bytes]:
    """Packets by one octet a segment, of which each eight come in the reverse order."""
    talk = forms.Talk()
    frames = asked(talk)
    octets = b"".join(forms.xot(data(at)) for at in range(SINGLE // 8))
    sent = [talk.segment(0, octets[at : at + 1]) for at in range(len(octets))]
    for at in range(0, len(sent), 8):
        frames += sent[at : at + 8][::-1]
    return frames + cleared(talk)


def repeated() -> list[bytes]:
    """One segment again and again, and parts of it."""
    talk = forms.Talk()
    frames, begin = asked(talk), talk.next[0]
    octets = b"".join(forms.xot(data(at, 20)) for at in range(8))
    frames.append(talk.segment(0, octets))
    chance = random.Random(5)
    for _ in range(REPEATED):
        first = chance.randrange(len(octets))
        frames.append(talk.segment(0, octets[first : chance.randrange(first, len(octets)) + 1], at=begin + first))
    return frames + cleared(talk)


def fragments() -> list[bytes]:
    """Datagrams of which some fragments are missing, overlap, or contradict each other."""
    frames, talk = whole(), forms.Talk()
    ends = (forms.DTE, forms.DCE)
    for number in range(200):
        segment = forms.tcp(*ends, talk.ports, talk.next[0], talk.next[1], 0, forms.xot(data(number, 800)))
        for place in range(0, len(segment) - 64, 32 if number % 2 else 8):
            frames.append(forms.ipv4(*ends, segment[place : place + 64], place, True, number))
        for place in (0, 65_528, 8 * (number % 90)):
            frames.append(forms.ipv4(*ends, bytes([number]) * 72, place, place == 0, number))
    return frames


def lengths() -> list[bytes]:
    """Headers of the longest packets, of packets without octets, and of other versions."""
    frames = []
    for port, head in enumerate(("0000FFFF", "00000000", "00000002", "0001FFFF", "FFFF0003", "00001069"), 2000):
        talk = forms.Talk(ports=(port, 1998))
        frames += asked(talk)
        for at in range(60):
            frames.append(talk.segment(0, bytes.fromhex(head) + bytes([16, 1, at % 8 << 1]) * 400))
        frames += cleared(talk)
    return frames


ATTACKS = {
    "half-open connections": half_open,
    "ports that are used again": ports_used_again,
    "calls that are not cleared": uncleared,
    "segments far apart": far_apart,
    "sequence numbers that wrap": wrapping,
    "octets that nobody acknowledges": lambda: unacknowledged(one_side=False),
    "octets of one side alone": lambda: unacknowledged(one_side=True),
    "one octet a segment": single_octets,
    "a segment again and again": repeated,
    "fragments that overlap": fragments,
    "lengths of packets": lengths,
}


def captures() -> Iterator[tuple[str, bytes]]:
    """The captures by name, each with a whole call first."""
    for name, frames in ATTACKS.items():
        yield name, forms.pcap(1, [forms.ethernet(frame) for frame in whole() + frames()])

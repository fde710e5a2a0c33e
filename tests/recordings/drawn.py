"""Captures of XOT that are drawn: calls in TCP connections, of which segments are lost, repeated, moved, cut off or changed."""
from __future__ import annotations

import random
from collections.abc import Callable, Iterator
from dataclasses import dataclass, replace

import forms

# The numbers of captures that x25trace and x25scan once read in two ways; the first ones besides.
FOUND = (
    122, 143, 172, 245, 265, 287, 337, 418, 439, 461, 472, 480, 497, 692, 722, 730, 805, 806, 888, 899, 936, 964,
    965, 1053, 1102, 1193,
)
MANY = 14
HOSTS = (("192.0.2.1", "192.0.2.2"), ("192.0.2.2", "192.0.2.1"), ("2001:db8::1", "2001:db8::2"))
PORTS = ((1025, 1998), (1025, 1998), (1026, 1998), (1998, 1998))
# Where sequence numbers begin, how many octets a segment has, and how far a number is changed.
FIRST = (1000, 2**31 - 40, 2**31 + 5, 2**32 - 30, 2**32 - 1, 0)
SIZES = (1, 2, 3, 4, 7, 8, 50, 1000, 1000, 1000)
STEPS = (1, -1, 3, -7, 100, 2**24 - 1, 2**24, 2**24 + 1, -(2**24), 2**30, 2**31 - 50, 2**31 - 1, 2**31, 2**31 + 1)
FIN, SYN, RST, CIRCLE = 1, 2, 4, 2**32


@dataclass(frozen=True)
class Sent:
    """A segment: who sent it, its numbers, its flags and its octets, of which the recorder kept so many."""

    side: int
    at: int
    acknowledged: int | None
    flags: int = 0
    payload: bytes = b""
    kept: int | None = None


def packets(source: random.Random) -> Iterator[tuple[int, str]]:
    """The packets of a call, each with its side; some calls lack their beginning or their end."""
    channel, counts = f"1{source.choice((1, 1, 7, 1024)):03X}", [0, 0]
    if source.random() < 0.85:
        yield from ((0, f"{channel}0B0000"), (1, f"{channel}0F"))
    for _ in range(source.choice((0, 1, 3, 8, 20))):
        side, kind = source.randrange(2), source.random()
        receive = counts[1 - side] % 8 << 5
        if kind < 0.6:
            yield side, f"{channel}{receive | counts[side] % 8 << 1:02X}" + "AA" * source.choice((0, 1, 3, 20, 64, 300))
            counts[side] += 1
        elif kind < 0.9:
            yield side, f"{channel}{receive | 1:02X}"
        else:
            yield side, source.choice((f"{channel}1B0000", "1000FB0700", f"2{channel[1:]}0B0000", "10FF01", "", "10", f"{channel}F500", "10" * 4201))
    if source.random() < 0.8:
        side = source.randrange(2)
        yield from ((side, f"{channel}130000"), (1 - side, f"{channel}17"))


def framed(source: random.Random, packet: str) -> bytes:
    """A packet after its header, which is seldom that of another version or length."""
    octets = forms.xot(packet)
    if source.random() < 0.03:
        return b"\0\1" + octets[2:]
    return octets[:2] + bytes([source.randrange(256)]) + octets[3:] if source.random() < 0.02 else octets


def connection(source: random.Random) -> list[Sent]:
    """The segments of a connection, as they were sent."""
    found: list[Sent] = []
    first = [source.choice(FIRST) + source.randrange(8) for _ in range(2)]
    following, waiting = [*first], [b"", b""]

    def send(side: int, payload: bytes = b"", flags: int = 0, acknowledged: int | None = None) -> None:
        number = following[1 - side] if acknowledged is None else acknowledged
        found.append(Sent(side, following[side] % CIRCLE, None if flags == SYN and side == 0 else number % CIRCLE, flags, payload))
        following[side] += len(payload) + (flags in (SYN, FIN))

    def send_some(side: int) -> None:
        size = source.choice(SIZES)
        octets, waiting[side] = waiting[side][:size], waiting[side][size:]
        send(side, octets, acknowledged=None if source.random() < 0.85 else source.randint(first[1 - side], following[1 - side]))
        if source.random() < 0.25:
            send(1 - side)

    send(0, flags=SYN)
    send(1, flags=SYN)
    send(0)
    for side, packet in packets(source):
        waiting[side] += framed(source, packet)
        if source.random() < 0.8 and any(waiting):
            send_some(side)
    while any(waiting):
        send_some(0 if waiting[0] else 1)
    end, side = source.random(), source.randrange(2)
    if end < 0.7:
        send(side, flags=FIN)
        send(1 - side, flags=FIN)
        send(side)
    elif end < 0.85:
        send(side, flags=source.choice((FIN, RST)))
    return found[source.choice((0, 0, 0, 0, 1, 2, 3)):]


def moved(source: random.Random, segments: list[Sent], at: int) -> None:
    """A segment comes a few places earlier or later."""
    segments.insert(max(0, at + source.randint(-4, 4)), segments.pop(at))


def mixed(source: random.Random, segments: list[Sent], at: int) -> None:
    """Some segments come in another order."""
    part = segments[at:at + source.randint(2, 12)]
    source.shuffle(part)
    segments[at:at + len(part)] = part


def lost(source: random.Random, segments: list[Sent], at: int) -> None:
    """Some segments were not recorded."""
    del segments[at:at + source.choice((1, 1, 1, 2, 12))]


def one_sided(source: random.Random, segments: list[Sent], at: int) -> None:
    """Of one side few segments were recorded."""
    segments[:] = [it for it in segments if it.side != segments[at].side or source.random() < 0.1] or segments[:1]


def repeated(source: random.Random, segments: list[Sent], at: int) -> None:
    """A part of a segment comes again, perhaps with other octets, or with more."""
    it, begin = segments[at], source.randrange(len(segments[at].payload) + 1)
    payload = it.payload[begin:begin + source.choice((1, 8, 1000))] + source.choice((b"", b"\xaa" * 9))
    payload = bytes(octet ^ 1 for octet in payload) if source.random() < 0.5 else payload
    again = replace(it, at=(it.at + begin) % CIRCLE, payload=payload, kept=None)
    segments.insert(source.randrange(len(segments) + 1), again if source.random() < 0.6 else it)


def renumbered(source: random.Random, segments: list[Sent], at: int) -> None:
    """A sequence number, or an acknowledgement, is another one."""
    it, step = segments[at], source.choice((*STEPS, source.randrange(CIRCLE)))
    if source.random() < 0.5:
        segments[at] = replace(it, at=(it.at + step) % CIRCLE)
    else:
        segments[at] = replace(it, acknowledged=None if source.random() < 0.3 else ((it.acknowledged or 0) + step) % CIRCLE)


def unacknowledged(source: random.Random, segments: list[Sent], at: int) -> None:
    """Some segments have the acknowledgement of the first of them."""
    for place in range(at, min(at + source.randint(2, 12), len(segments))):
        segments[place] = replace(segments[place], acknowledged=segments[at].acknowledged)


def flagged(source: random.Random, segments: list[Sent], at: int) -> None:
    """A segment has other flags; or one with a SYN or a FIN alone is before it."""
    it = segments[at]
    if source.random() < 0.6:
        segments[at] = replace(it, flags=it.flags ^ source.choice((FIN, SYN, FIN | SYN, RST)))
    else:
        syn = source.random() < 0.5
        segments.insert(at, replace(it, at=(it.at - syn) % CIRCLE, flags=SYN if syn else FIN, payload=b"", kept=None))


def cut_off(source: random.Random, segments: list[Sent], at: int) -> None:
    """The recorder cut a segment off."""
    segments[at] = replace(segments[at], kept=source.randrange(len(segments[at].payload) + 1))


CHANGES: tuple[Callable[[random.Random, list[Sent], int], None], ...] = (
    moved, mixed, lost, lost, one_sided, repeated, repeated, renumbered, renumbered, unacknowledged, flagged, cut_off,
)


def frame(hosts: tuple[str, str], ports: tuple[int, int], it: Sent) -> bytes | tuple[bytes, int]:
    """The frame of a segment; with its length where it was cut off."""
    step = 1 if it.side == 0 else -1
    segment = forms.tcp(*hosts[::step], ports[::step], it.at, it.acknowledged, it.flags, it.payload)
    is_version_6 = ":" in hosts[0]
    octets = forms.ethernet((forms.ipv6 if is_version_6 else forms.ipv4)(*hosts[::step], segment), 0x86DD if is_version_6 else 0x0800)
    return octets if it.kept is None else (octets[:len(octets) - len(it.payload) + it.kept], len(octets))


def capture(source: random.Random) -> bytes:
    """A capture of one to three connections, whose segments are among each other."""
    waiting = []
    for _ in range(source.choice((1, 1, 1, 2, 3))):
        segments = connection(source)
        for _ in range(source.choice((0, 1, 1, 2, 3, 5))):
            source.choice(CHANGES)(source, segments, source.randrange(len(segments)))
            segments = segments or connection(source)
        hosts, ports = source.choice(HOSTS), source.choice(PORTS)
        waiting.append([frame(hosts, ports, it) for it in segments])
    frames = []
    while waiting := [it for it in waiting if it]:
        frames.append(source.choice(waiting).pop(0))
    return forms.pcap(1, frames)


def captures() -> Iterator[tuple[str, bytes]]:
    """Drawn captures by name."""
    for number in (*range(MANY), *FOUND):
        yield f"drawn capture {number}", capture(random.Random(f"drawn {number}"))

"""Captures with segments of TCP ports that are not read, by what looks like XOT in them (docs/CAPTURES.md, "XOT on another port")."""
from __future__ import annotations

import random
from collections.abc import Iterable, Iterator

import forms

CALL, ACCEPTED, CLEAR, CONFIRMED, DATA, READY = "10010B0000", "10010F", "1001130000", "100117", "100100AA", "100121"
RAW_IP = 101
# So many pairs of ports are kept.
MOST_PAIRS = 10_000
# So many ports are named.
NAMED = 5
SYN = 2
# Octets that are no whole packets of XOT, or just so: other versions, lengths, formats and ends.
OCTETS = (
    "", "00", "0000", "00000003", "0000000310", "000000031001", "00000003100100", "0000000310010000", "0000000310010B", "0000000210010B",
    "00000004100100", "0001000310010B", "0100000310010B", "0000000300010B", "0000000330010B", "000000032001FB", "00000003B0010B",
    "0000000310010000000003100100", "0000000310010000000003100117", "000000031001000000", "00000003100100000100031001FF",
    "0000000310010B0000000400000000", "000000041001130000000005100101AABB", "0000000310FF0F", "0000000310011B", "000000031001F1",
)
PORTS = (1, 80, 1025, 1026, 1998, 2000, 2001, 65535)
MANY = 40


def captured(frames: Iterable[bytes]) -> bytes:
    """A capture of Internet packets, after a call on the port of XOT."""
    talk = forms.Talk()
    return forms.pcap(RAW_IP, [*talk.open(), talk.a(CALL), talk.b(ACCEPTED), *frames, talk.a(CLEAR), talk.b(CONFIRMED)])


def alone(ports: tuple[int, int], octets: bytes, many: int = 1) -> list[bytes]:
    """Segments between two ports, each with these octets."""
    talk = forms.Talk(ports=ports)
    return [talk.segment(at % 2, octets) for at in range(many)]


def weights() -> Iterator[tuple[str, bytes]]:
    """How many segments a port needs to be named."""
    for name, packet in (("data", DATA), ("a call", CALL), ("an accepted call", ACCEPTED), ("a clear request", CLEAR), ("a confirmation", CONFIRMED)):
        for many in (1, 2, 3, 4):
            yield f"{many} segments of {name}", captured(alone((1025, 2000), forms.xot(packet), many))
    for length in (3, 4199, 4200, 4201):
        yield f"a call of {length} octets", captured(alone((1025, 2000), forms.xot("10010B" + "AA" * (length - 3))))
    for at, octets in enumerate(map(bytes.fromhex, OCTETS)):
        yield f"octets {OCTETS[at] or 'none'}", captured(alone((1025, 2000), octets, 3))
        yield f"octets {OCTETS[at] or 'none'} after a packet", captured(alone((1025, 2000), forms.xot(DATA) + octets, 3))


def which() -> Iterator[tuple[str, bytes]]:
    """Which port of a pair is named, and in which order."""
    data = forms.xot(DATA)
    yield "of two ports the lowest", captured(alone((2000, 1025), data, 3))
    for opener, server in ((1025, 2000), (2000, 1025)):
        opened = forms.Talk(ports=(opener, server)).open()
        for name, part in (("a SYN", opened[:1]), ("its answer", opened[1:2]), ("both", opened)):
            yield f"the port {server} that {name} opens", captured(part + alone((opener, server), data, 3))
    yield "SYN with octets", captured([forms.Talk(ports=(1025, 2000)).segment(0, forms.xot(CALL), SYN)])
    yield "a port between itself", captured(alone((2000, 2000), data, 2))
    yield "a port of two others", captured(alone((1025, 2000), data, 2) + alone((1026, 2000), data) + alone((1027, 3000), data, 4))
    yield "a port and its client", captured(alone((1025, 2000), data, 3) + alone((1025, 3000), data, 2) + alone((1026, 2000), data, 2))
    for many in (4, 5, 6, 7):
        frames = [frame for port in range(2000, 2000 + many) for frame in alone((port + 1000, port), data, 3 + port % 3)]
        yield f"{many} ports", captured(frames)
    yield "both directions", captured(alone((1025, 2000), data) + alone((2000, 1025), data, 2))


def cut() -> Iterator[tuple[str, bytes]]:
    """Segments of which the recorder kept a part, and octets after the datagram."""
    frame = alone((1025, 2000), forms.xot(CALL))[0]
    for kept in (len(frame) - 1, len(frame) - 8):
        yield f"{len(frame) - kept} octets were cut off", forms.pcap(RAW_IP, [(frame[:kept], len(frame))])
    yield "octets after the datagram", forms.pcap(RAW_IP, [frame + bytes(6)])
    yield "no segment of the port of XOT", forms.pcap(RAW_IP, [frame])


def limits() -> Iterator[tuple[str, bytes]]:
    """More pairs of ports than are kept."""
    data = forms.xot(CALL)
    for extra in (0, 1):
        frames = [alone((port, 65535), forms.xot(DATA))[0] for port in range(2000, 2000 + MOST_PAIRS - 1 + extra)]
        yield f"{MOST_PAIRS - 1 + extra} pairs before another one", captured(frames + alone((1, 2), data) + alone((2000, 65535), data))
    frames = [alone((port, port + 1), data)[0] for port in range(1, 81, 2)]
    yield "40 ports and their clients", captured(frames)


def drawn() -> Iterator[tuple[str, bytes]]:
    """Segments between a few ports, with a SYN here and there."""
    for seed in range(MANY):
        source, frames = random.Random(seed), list[bytes]()
        for _ in range(source.choice((3, 10, 30))):
            talk = forms.Talk(ports=(source.choice(PORTS), source.choice(PORTS)))
            if source.random() < 0.3:
                frames += talk.open()[: source.randrange(1, 4)]
            octets = b"".join(bytes.fromhex(source.choice(OCTETS)) for _ in range(source.choice((1, 1, 2, 3))))
            frames += [talk.segment(source.randrange(2), source.choice((octets, forms.xot(source.choice((DATA, READY, CALL))))))]
        yield f"drawn ports {seed}", captured(frames)


def captures() -> Iterator[tuple[str, bytes]]:
    """All of them, with a name each."""
    for topic in (weights, which, cut, limits, drawn):
        yield from topic()

"""Damages of captures: frames that are lost, repeated or exchanged, and octets that are changed, lost or added."""
from __future__ import annotations

import random
import struct
from collections.abc import Callable

# Numbers that lengths and counts become.
NUMBERS = (0, 1, 2, 11, 12, 15, 16, 255, 256, 4200, 4201, 65_535, 262_144, 262_145, 2**31 - 1, 2**31, 2**32 - 1)
# The first octets of pcap files by the byte order of their numbers, and the size of a record's header.
PCAP = {"A1B2C3D4": (">", 16), "D4C3B2A1": ("<", 16), "A1B23C4D": (">", 16), "4D3CB2A1": ("<", 16), "A1B2CD34": (">", 24),
        "34CDB2A1": ("<", 24)}


def parts_of(octets: bytes) -> list[bytes]:
    """The header of a file and its records, or its blocks; what is no whole one is the last part."""
    if octets[:4] == bytes.fromhex("0A0D0D0A"):
        order = "<" if octets[8:12] == bytes.fromhex("4D3C2B1A") else ">"
        return split(octets, [], lambda at: struct.unpack_from(f"{order}I", octets, at + 4)[0], 12)
    order, size = PCAP[octets[:4].hex().upper()]
    length = f"{order}I"
    return split(octets, [octets[:24]], lambda at: size + struct.unpack_from(length, octets, at + 8)[0], size)


def split(octets: bytes, parts: list[bytes], size_at: Callable[[int], int], least: int) -> list[bytes]:
    """Parts of these sizes, after others."""
    at = sum(map(len, parts))
    while at + least <= len(octets) and least <= size_at(at) <= len(octets) - at:
        parts.append(octets[at:at + size_at(at)])
        at += len(parts[-1])
    return [*parts, octets[at:]] if at < len(octets) else parts


def harmed_part(octets: bytes, source: random.Random) -> bytes:
    """A part with an octet, or a number of four, changed."""
    found, at = bytearray(octets), source.randrange(len(octets))
    way = source.randrange(4)
    if way == 0:
        found[at] ^= 1 << source.randrange(8)
    elif way == 1:
        found[at] = source.choice((0, 1, 0x7F, 0xFF, source.randrange(256)))
    elif way == 2:
        found[at // 4 * 4:at // 4 * 4 + 4] = struct.pack(source.choice("<>") + "I", source.choice(NUMBERS))
    else:
        # The front of a frame: its link header, address, control field and packet header.
        front = min(len(found) - 1, 16 + source.randrange(12))
        found[front] ^= 1 << source.randrange(8)
    return bytes(found)


def harm_parts(parts: list[bytes], source: random.Random) -> None:
    """Loses, repeats, exchanges or changes parts after the first one."""
    if len(parts) < 2:
        return
    one, other = source.randrange(1, len(parts)), source.randrange(1, len(parts))
    way = source.randrange(6)
    if way == 0:
        del parts[one:one + source.choice((1, 1, 2, 5))]
    elif way == 1:
        parts.insert(other, parts[one])
    elif way == 2:
        parts[one], parts[other] = parts[other], parts[one]
    else:
        parts[one] = harmed_part(parts[one], source)


def harm_octets(octets: bytes, source: random.Random) -> bytes:
    """Loses, repeats, adds or changes octets after the first four, or cuts the file off."""
    at, many = source.randrange(4, len(octets)), source.choice((1, 2, 4, 8, 30))
    way = source.randrange(5)
    if way == 0:
        return octets[:at]
    if way == 1:
        return octets[:at] + octets[at + many:]
    if way == 2:
        return octets[:at] + source.choice((source.randbytes(many), bytes(many))) + octets[at:]
    if way == 3:
        return octets[:at] + octets[at - min(at - 4, 60):]
    return octets[:4] + harmed_part(octets[4:], source)


def harmed(octets: bytes, source: random.Random) -> bytes:
    """A capture with a few damages."""
    for _ in range(source.choice((1, 1, 2, 3, 5))):
        if len(octets) < 8:
            break
        if source.random() < 0.7:
            parts = parts_of(octets)
            harm_parts(parts, source)
            octets = b"".join(parts)
        else:
            octets = harm_octets(octets, source)
    return octets

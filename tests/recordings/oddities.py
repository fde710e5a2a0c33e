"""Captures of XOT and of lines that are seldom as these are: a rule of docs/CAPTURES.md decides what each of them gives."""
from __future__ import annotations

from collections.abc import Iterator

import forms

CALL, ACCEPTED, CLEAR, CONFIRMED, DATA, READY = "10010B0000", "10010F", "1001130000", "100117", "100100AA", "100121"
FIN, SYN = 1, 2
# LAPB frames of a link that is up: a restart, a call and a packet.
LINE = ("01001000FB0700", "03201000FF", "012210010B0000", "034210010F", "0144100100A0")
# So many segments that wait for missing octets end the wait, once the octets were acknowledged.
ENOUGH = 9


def asked(talk: forms.Talk) -> list[bytes]:
    """A connection that is opened, and its call."""
    return [*talk.open(), talk.a(CALL), talk.b(ACCEPTED)]


def cleared(talk: forms.Talk) -> list[bytes]:
    """The end of a call and of its connection."""
    return [talk.a(CLEAR), talk.b(CONFIRMED), *talk.close()]


def syn_with_fin(talk: forms.Talk, octets: bytes) -> list[bytes]:
    """The opener's SYN has a FIN, which has the place after its octets."""
    frames = [talk.segment(0, octets, flags=SYN | FIN, acks=False), talk.segment(1, flags=SYN), talk.segment(0)]
    return [*frames, talk.a(CALL), talk.b(ACCEPTED), *cleared(talk)]


def octets_after_a_fin(talk: forms.Talk) -> list[bytes]:
    """Octets come after a FIN, and another FIN after them."""
    return [*asked(talk), talk.segment(0, flags=FIN), talk.a(DATA), talk.segment(0, flags=FIN), talk.b(READY), *talk.close()[1:]]


def octet_at_the_place_of_a_fin(talk: forms.Talk) -> list[bytes]:
    """A FIN comes too early: the octet at its place is left out, as each later copy is."""
    frames = [*asked(talk), talk.segment(0, flags=FIN)]
    talk.next[0] -= 1
    return [*frames, talk.a(DATA), talk.b(READY), *cleared(talk)]


def second_fin(talk: forms.Talk) -> list[bytes]:
    """Two FINs, each with its place, are acknowledged."""
    frames = [*asked(talk), talk.segment(0, flags=FIN), talk.segment(0, flags=FIN), talk.segment(1)]
    return [*frames, talk.b(CLEAR), talk.segment(1, flags=FIN), talk.segment(0)]


def acknowledged_again(talk: forms.Talk, again: bytes, flags: int) -> list[bytes]:
    """Octets come after others had waited for them, and after a segment of the other end that has only its acknowledgement new."""
    frames, first = asked(talk), talk.next[1]
    frames.append(talk.segment(1, again, flags))
    late = talk.next[0]
    talk.next[0] += len(forms.xot(DATA))
    frames += [talk.segment(0, forms.xot("100102AA")) for _ in range(ENOUGH)]
    return [*frames, talk.segment(1, again, flags, at=first), talk.segment(0, forms.xot(DATA), at=late), talk.segment(0, flags=FIN)]


def ahead(talk: forms.Talk, step: int) -> list[bytes]:
    """A segment is so far ahead that its last octets are nearer to the next place from below."""
    frames = [*asked(talk), talk.segment(0, forms.xot(DATA), at=talk.next[0] + step), talk.segment(1)]
    return [*frames, talk.a(DATA), talk.b(READY), *cleared(talk)]


def other_version_after_a_gap(talk: forms.Talk) -> list[bytes]:
    """After a gap a packet is sought; the header of another version is a wrong place, and one is sought again."""
    frames = [*asked(talk), talk.a(DATA)]
    talk.next[0] += len(forms.xot(DATA))
    frames += [talk.a("100104AA"), talk.segment(1), talk.segment(0, b"\0\1\0\3\x10\1\6\0"), talk.b(READY)]
    return [*frames, talk.a("100108AA"), talk.b("100161"), *cleared(talk)]


def without_an_acknowledgement(talk: forms.Talk) -> list[bytes]:
    """A segment has no acknowledgement, in a connection of which one direction alone was recorded."""
    frames = [talk.a(CALL), talk.segment(0, forms.xot(DATA), acks=False)]
    talk.next[1] += len(forms.xot(ACCEPTED))
    return [*frames, talk.segment(0), talk.a(CLEAR)]


def kept_frame() -> bytes:
    """A frame out of sequence is kept, and a selective reject asks for the one before it."""
    frames = (*LINE, "0148100104A2", "016D", "0146100102A1", "0148100104A2", "01A1")
    return forms.pcap(147, [bytes.fromhex(it) for it in frames])


def late_frame() -> bytes:
    """A frame comes late, behind one with a later number that is held; both are acknowledged, and the one before them."""
    frames = (*LINE, "014C100106A4", "0148100104A2", "03E6100161")
    return forms.pcap(147, [bytes.fromhex(it) for it in frames])


def lost_one_after_the_other() -> bytes:
    """Two I frames were not recorded, and the other end acknowledges them one after the other."""
    frames = (*LINE, "0148100104A2", "014C100108A4", "03A4100141", "03E6100161")
    return forms.pcap(147, [bytes.fromhex(it) for it in frames])


def long_record() -> bytes:
    """A record has more than 16 MiB, and the snap length would allow more."""
    record = bytearray(forms.record(bytes.fromhex("0146100102A1"), len(LINE)))
    record[8:12] = (2**24 + 1).to_bytes(4, "little")
    rest = forms.record(bytes.fromhex("0148100104A2"), len(LINE) + 1)
    return forms.pcap(147, [bytes.fromhex(it) for it in LINE], snap=2**30) + record + rest


def captures() -> Iterator[tuple[str, bytes]]:
    """The captures by name."""
    talk = forms.Talk
    found = {
        "a SYN with FIN": syn_with_fin(talk(), b""),
        "a SYN with FIN and octets": syn_with_fin(talk(), forms.xot(CALL)),
        "octets after a FIN": octets_after_a_fin(talk()),
        "an octet at the place of a FIN": octet_at_the_place_of_a_fin(talk()),
        "a second FIN": second_fin(talk()),
        "an acknowledgement on repeated octets": acknowledged_again(talk(), forms.xot("100101"), 0),
        "an acknowledgement on a repeated FIN": acknowledged_again(talk(), b"", FIN),
        "a segment 2^31 - 1 ahead": ahead(talk(), 2**31 - 1),
        "a segment 2^31 - 4 ahead": ahead(talk(), 2**31 - 4),
        "another version after a gap": other_version_after_a_gap(talk()),
        "a segment without an acknowledgement": without_an_acknowledgement(talk()),
    }
    for name, frames in found.items():
        yield name, forms.pcap(1, [forms.ethernet(frame) for frame in frames])
    yield "a frame that is kept out of sequence", kept_frame()
    yield "a frame that comes late", late_frame()
    yield "frames lost one after the other", lost_one_after_the_other()
    yield "a record of more than 16 MiB", long_record()

"""Runs of frames that are cut out of recordings of LAPB over Ethernet, whose numbers show the loss."""
from __future__ import annotations

import random
from collections import Counter
from collections.abc import Iterator, Sequence

# How many frames of each recording are read. None of them has a finding.
RECORDINGS = {"two-client-eth0": 250, "dce-basic-v0": 150, "facilities-v0": 250, "rej-crossing-m0": 250}
MODULUS = 8
# The lengths of runs. Where both sides send by turns, 15 frames have all numbers of one side, and all but one of the other.
RUNS = (1, 3, 5, 9, 14, 15, 15, 15, 17, 31, 31, 31)
# The link header, the length and the address come before the control octet.
TYPE, CONTROL = 12, 17
LAPB = b"\x60\0"
# How many frames are looked at on each side of a cut.
NEAR = 20
# The share of runs after which the numbers of one side fit.
LATE = 0.75


def information(frames: Sequence[bytes]) -> Iterator[tuple[bytes, bytes]]:
    """The sources of I frames, with their N(S) and their packets."""
    for frame in frames:
        if frame[TYPE:TYPE + 2] == LAPB and not frame[CONTROL] & 1:
            yield frame[6:TYPE], bytes((frame[CONTROL] & 0x0E,)) + frame[CONTROL + 1:]


def fits(before: Sequence[bytes], cut: Sequence[bytes], after: Sequence[bytes]) -> dict[bytes, bool]:
    """Whether the numbers of each side that lost frames fit: all numbers are gone, or the next frame may repeat the last one."""
    gone = Counter(source for source, _ in information(cut))
    last, following = dict(information(before[-NEAR:])), dict(reversed([*information(after[:NEAR])]))
    return {side: not many % MODULUS or last.get(side) == following.get(side) for side, many in gone.items()}


def cut(source: random.Random, frames: Sequence[bytes]) -> range:
    """A run of frames, mostly one after which the numbers of one side fit, so that the loss shows later."""
    is_late = source.random() < LATE
    while True:
        many = source.choice(RUNS)
        first = source.randrange(1, len(frames) - many)
        sides = fits(frames[:first], frames[first:first + many], frames[first + many:]).values()
        if not all(sides) and any(sides) == is_late:
            return range(first, first + many)

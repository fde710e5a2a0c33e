"""The verdict on a trace: who broke the protocol, as far as the recording shows."""
from __future__ import annotations

from collections.abc import Sequence
from dataclasses import dataclass, field

from x25tools_lib.notes import Half

NAMES = ("DTE", "DCE")
BAD, GOOD, UNKNOWN = "bad", "good", "unknown"
# The most hosts that a verdict names.
MOST_NAMED = 2


@dataclass(frozen=True)
class Verdict:
    """A sentence, and whether it is bad, good or neither."""

    kind: str
    sentence: str


@dataclass(frozen=True)
class Blame:
    """How often each side broke the protocol, and how many more findings of each may follow from that.

    `hosts` has how often each host of a side broke it; of a side whose hosts are not known it is empty.
    """

    counts: Sequence[int] = (0, 0)
    following: Sequence[int] = (0, 0)
    hosts: Sequence[dict[str, int]] = field(default_factory=lambda: ({}, {}))

    def sentence(self) -> str | None:
        """Who broke the protocol, to be continued; None where nobody did."""
        dte, dce = map(bool, self.counts)
        if dte and dce:
            return f"the {self.name(0)} broke the protocol {self.often(0)}, the {self.name(1)} {self.often(1)}"
        side = int(dce)
        return f"the {self.name(side)} broke the protocol {self.often(side)}" if dte or dce else None

    def name(self, side: int) -> str:
        """A side, with its host where one alone broke the protocol."""
        guilty = self.hosts[side]
        return f"{NAMES[side]} ({next(iter(guilty))})" if len(guilty) == 1 else NAMES[side]

    def often(self, side: int) -> str:
        """How often a side broke the protocol; where several hosts did, also how often each, or how many hosts."""
        guilty, words = self.hosts[side], times(self.counts[side])
        if len(guilty) < 2:
            return words
        ordered = sorted(guilty, key=lambda it: -guilty[it])
        if len(ordered) > MOST_NAMED:
            return f"{words} ({len(ordered):,} hosts, most often {ordered[0]})"
        return f"{words} ({', '.join(f'{it} {times(guilty[it])}' for it in ordered)})"

    def rest(self) -> str:
        """What may follow from it, after a semicolon."""
        parts: list[str] = []
        for name, many in zip(NAMES, self.following):
            if many:
                noun = "" if parts else " finding" if many == 1 else " findings"
                parts.append(f"{'one' if many == 1 else f'{many:,}'}{noun} of the {name}")
        return f"; {' and '.join(parts)} may follow from that" if parts else ""


def times(many: int) -> str:
    """How often."""
    return {1: "once", 2: "twice"}.get(many, f"{many:,} times")


def upper(text: str) -> str:
    return text[:1].upper() + text[1:]


def of_halves(halves: Sequence[Half], blame: Blame, has_wholes: bool) -> Verdict:
    """The verdict where something was recorded in one direction only; the blame is of the rest."""
    sentence = upper(", and ".join(half.text for half in halves))
    if not has_wholes:
        return Verdict(UNKNOWN, f"{sentence}: it is not known who broke the protocol.")
    blamed = blame.sentence()
    rest = f"On the other connections {blamed or 'no packet breaks the protocol'}{blame.rest()}."
    return Verdict(BAD if blamed else UNKNOWN, f"{sentence}. {rest}")


def rests_on(sentence: str, gaps: int) -> str:
    """A sentence with its basis: what was recorded, where there are gaps."""
    return f"{sentence}, in what was recorded: {gaps:,} gap{'' if gaps == 1 else 's'}" if gaps else sentence


def verdict_of(packets: int, blame: Blame, late: int, gaps: int = 0) -> Verdict:
    """The verdict where both sides were recorded, perhaps with gaps; `late` has the requests that outlasted their timers."""
    if not packets:
        return Verdict(UNKNOWN, "The trace has no packets.")
    if blamed := blame.sentence():
        return Verdict(BAD, f"{rests_on(upper(blamed), gaps)}{blame.rest()}.")
    if late:
        noun = "request stayed open longer than its timer" if late == 1 else "requests stayed open longer than their timers"
        return Verdict(UNKNOWN, f"{rests_on(f'No packet breaks the protocol, but {late:,} {noun}', gaps)}.")
    return Verdict(GOOD, f"{rests_on('No packet breaks the protocol', gaps)}.")

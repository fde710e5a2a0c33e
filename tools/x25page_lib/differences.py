"""What differs between two inputs: sections of lines, each with its numbers before and after."""
from __future__ import annotations

from collections.abc import Iterator, Mapping
from dataclasses import dataclass

from .totals import Totals

LAST_CHANNELS = {"SVC", "OUT", "TWO"}
# Numbers, None where one is not known; and such numbers by their labels.
Numbers = tuple["int | None", ...]
Counts = Mapping[tuple[str, ...], Numbers]



@dataclass(frozen=True)
class Line:
    """A label and its numbers before and after."""

    words: tuple[str, ...]
    before: Numbers
    after: Numbers

    @property
    def changes(self) -> list[int]:
        """The differences of the numbers that both have."""
        return [after - before for before, after in zip(self.before, self.after) if before is not None and after is not None]

    @property
    def differs(self) -> bool:
        return any(self.changes)


@dataclass(frozen=True)
class Section:
    """Lines of one kind: the heads of their labels, what the numbers count, and whether fewer are better."""

    title: str
    heads: tuple[str, ...]
    counted: tuple[str, ...]
    lines: tuple[Line, ...]
    is_bad: bool = False
    keeps_order: bool = False

    @property
    def differing(self) -> list[Line]:
        """The lines that differ, the greatest difference first unless they keep their order."""
        found = [it for it in self.lines if it.differs]
        return found if self.keeps_order else sorted(found, key=lambda it: (-max(abs(one) for one in it.changes), it.words))

    @property
    def same(self) -> int:
        """The number of lines that do not differ."""
        return sum(not it.differs for it in self.lines)


def pairs(before: Counts, after: Counts, nothing: Numbers) -> tuple[Line, ...]:
    """A line for each key that one of them has; a missing count is 0."""
    keys = dict.fromkeys((*before, *after))
    return tuple(Line(key, before.get(key, nothing), after.get(key, nothing)) for key in keys)


def single(counts: Mapping[tuple[str, ...], int]) -> Counts:
    """Counts of one number each."""
    return {key: (many,) for key, many in counts.items()}


def sums(before: Totals, after: Totals) -> Section:
    """The sums of the reports, in their order."""
    lines = tuple(Line((name,), (many,), (after.sums[name],)) for name, many in before.sums.items())
    return Section("Sums", ("sum",), ("",), lines, keeps_order=True)


def addresses(it: Totals) -> Counts:
    """Calls and segments by the address that pays."""
    return {(address or "no address",): counts for address, counts in it.accounts.by_address.items()}


def sections(before: Totals, after: Totals) -> Iterator[Section]:
    """All that is compared."""
    yield sums(before, after)
    yield Section("Findings by side and code", ("side", "code", "what is wrong"), ("findings",),
                  pairs(single(before.findings), single(after.findings), (0,)), is_bad=True)
    yield Section("Calls and segments by address", ("address",), ("calls", "segments"),
                  pairs(addresses(before), addresses(after), (0, 0)))
    yield Section("How calls ended", ("how", "cause", "diagnostic"), ("calls",),
                  pairs(single(before.ends), single(after.ends), (0,)))
    yield Section("Requests and how long they waited", ("request", "side", "time-out"),
                  ("requests", "without an answer", "past the time-out", "longest wait in ms"),
                  pairs(before.waits, after.waits, (0, 0, 0, None)))


def other_headers(before: Totals, after: Totals) -> str | None:
    """What differs in the headers, as findings and sums may differ for this reason alone; None where nothing does."""
    names = dict.fromkeys((*before.header, *after.header))
    # An estimated last channel is the last one that was used, and refuses no channel.
    harmless = LAST_CHANNELS & (before.estimated | after.estimated)
    differing = [name for name in names if before.header.get(name) != after.header.get(name) and name not in harmless]
    if not differing:
        return None
    one, other = (" ".join(f"{name} {it.header[name]}".strip() for name in differing if name in it.header) or "none of it"
                  for it in (before, after))
    advice = "give --win and --size for both where you know them" if {"WIN", "SIZE"} & {*differing} else "compare like with like"
    return f"The headers differ: {one} before, {other} after. Findings and sums may differ for that alone: {advice}."

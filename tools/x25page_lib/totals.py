"""What is compared of an input: its sums, its findings, its accounts, and how its calls ended."""
from __future__ import annotations

from collections.abc import Iterator
from dataclasses import dataclass, field
from typing import Any

from .facts import Facts
from .gathering import Read
from .verdicts import NAMES, Verdict

# Counts by label.
ByWords = dict[tuple[str, ...], int]


@dataclass
class Accounts:
    """All accounts of a report; a page may leave out some."""

    by_address: dict[str | None, tuple[int, int]] = field(default_factory=dict)

    def watch(self, objects: Iterator[dict[str, Any]]) -> Iterator[dict[str, Any]]:
        """Takes the accounts from the objects of a report, and passes all objects on."""
        for it in objects:
            if it["line"] == "account":
                self.by_address[it["address"]] = (it["calls"], it["segments"])
            yield it


@dataclass
class Totals:
    """The totals of an input."""

    name: str
    header: dict[str, str]
    # The numbers of the header that were estimated.
    estimated: set[str]
    verdict: Verdict
    sums: dict[str, int]
    # By side, code and name.
    findings: ByWords
    accounts: Accounts
    # By how, cause and diagnostic code.
    ends: ByWords
    # By request, side and time-out: requests, those without an answer, those past the time-out, and the longest wait in ms.
    waits: dict[tuple[str, ...], tuple[int | None, ...]]


def waits_of(facts: Facts) -> dict[tuple[str, ...], tuple[int | None, ...]]:
    """The requests of a report and how long they waited; without times the longest wait is unknown."""
    found: dict[tuple[str, ...], tuple[int | None, ...]] = {}
    for it in facts.use.waits.sums():
        key = (it.of.request, NAMES[it.of.side], f"{it.of.name}, {it.of.seconds} s")
        longest = None if it.longest is None else round(1000 * it.longest)
        found[key] = (it.requests, it.unanswered, it.late, longest)
    return found


def ends_of(found: Read) -> ByWords:
    """How the calls of a report ended, in words."""
    words, ends = found.explanations.get("end", {}), ByWords()
    for how, cause, diagnostic, calls, *_ in found.facts.use.causes.lines():
        names = ("" if it is None else f"{it[0]} ({it[1]})" for it in (cause, diagnostic))
        ends[words.get(how, [how])[0], *names] = calls
    return ends


def totals_of(found: Read, accounts: Accounts) -> Totals:
    """The totals of what was read."""
    facts = found.facts
    findings: ByWords = {}
    for code, broken in facts.found.broken.items():
        for side, many in zip(NAMES, broken.counts):
            if many:
                findings[side, code, broken.name] = many
    sums = {name: facts.sums[name] for name in ("packets", "calls", "octets", "segments")}
    sums["calls at once"] = facts.peak[0]
    sums["data packets not counted"] = sum(packets for _, packets, _ in facts.not_counted)
    sums |= {f"findings of the {name}": facts.found.count_of(side) for side, name in enumerate(NAMES)}
    return Totals(found.name, found.head.numbers, set(found.head.sources), facts.verdict(), sums, findings, accounts, ends_of(found), waits_of(facts))

"""The basis of the window and the packet size of a header, where no option gives them."""
from __future__ import annotations

import enum
from collections.abc import Iterator, Sequence
from dataclasses import dataclass, field

from x25tools_lib.header import Header

from .ranking import MOST_ROWS, Tried

OPTIONS = {"WIN": "--win", "SIZE": "--size"}
LARGEST = {"WIN": "the most data not acknowledged", "SIZE": "the largest user data"}
STANDARD = "the default: no data was seen"
# Why numbers are the largest seen.
NONE_TRIED = "x25scan tries none with the numbers that options give"
UNDECIDED = f"the first {MOST_ROWS:,} packets decide nothing"


class Basis(enum.Enum):
    """The basis of a number: answers of the DCE, the largest value seen, or none."""

    ANSWERS = enum.auto()
    LARGEST = enum.auto()
    GUESS = enum.auto()


@dataclass
class Evidence:
    """The numbers that data shows, WIN and SIZE or one of them, and the basis of each."""

    values: dict[str, int] = field(default_factory=dict)
    bases: dict[str, Basis] = field(default_factory=dict)
    # The best header that was tried, and why a number is the largest seen.
    best: Tried | None = None
    why: str = ""

    def source(self, name: str) -> str:
        """What a number was estimated from."""
        basis = self.bases.get(name)
        if basis is Basis.ANSWERS:
            return f"with it {self.answers}"
        if basis is Basis.GUESS:
            return "a guess: the smallest that fits"
        return LARGEST[name] if basis else STANDARD

    @property
    def answers(self) -> str:
        """The number of findings that the DCE answers, in words."""
        answered, unanswered = self.best.counts[:2] if self.best else (0, 0)
        owed = answered + unanswered
        return "the DCE answers the one finding" if owed == 1 else f"the DCE answers {answered:,} of {owed:,} findings"

    def sentences(self) -> Iterator[str]:
        """Sentences on the basis of the numbers, and on which of them options should give."""
        if names := self.on(Basis.ANSWERS):
            yield f"{self.shown(names)}: with {'them' if len(names) > 1 else 'it'} {self.answers}"
        if names := self.on(Basis.GUESS):
            are = "are a guess, the smallest that fit" if len(names) > 1 else "is a guess, the smallest that fits"
            yield f"{self.shown(names)} {are}: {advice(names)}"
        if names := self.on(Basis.LARGEST):
            are = f"{'are' if len(names) > 1 else 'is'} the largest seen, as {self.why}"
            yield f"{self.shown(names)} {are}: data that broke a smaller value is not found, so {advice(names)}"

    def on(self, basis: Basis) -> list[str]:
        """The numbers that have this basis."""
        return [name for name, it in self.bases.items() if it is basis]

    def shown(self, names: Sequence[str]) -> str:
        """Numbers with their values."""
        return " and ".join(f"{name} {self.values[name]}" for name in names)


def advice(names: Sequence[str]) -> str:
    """Which options are to be given."""
    return f"give {' and '.join(OPTIONS[name] for name in names)} where you know {'them' if len(names) > 1 else 'it'}"


def largest(seen: dict[str, int], why: str) -> Evidence:
    """The evidence of numbers that are the largest seen."""
    return Evidence(seen, dict.fromkeys(seen, Basis.LARGEST), why=why)


def ranked_first(
    ranking: Sequence[Tried], header: Header, seen: dict[str, int], is_whole: bool, sizes: range = range(0),
) -> Evidence:
    """The evidence of the header that ranks first of those that have the numbers that were not seen, and one of some sizes.

    A ranking of only the first rows guesses nothing: a number that it does not decide is the largest seen.
    """
    others = {"MOD": header.modulus, "WIN": header.window, "SIZE": header.size}
    fixed = {name: value for name, value in others.items() if name not in seen}
    candidates = [it for it in ranking if fixed.items() <= it.numbers.items()]
    if "SIZE" in seen:
        candidates = [it for it in candidates if it.numbers["SIZE"] in sizes] or candidates
    if not candidates:
        return largest(seen, NONE_TRIED)
    best, undecided = best_of(candidates, others), Basis.GUESS if is_whole else Basis.LARGEST
    bases = {name: Basis.ANSWERS if is_decided(name, best, candidates) else undecided for name in seen}
    values = {name: seen[name] if basis is Basis.LARGEST else best.numbers[name] for name, basis in bases.items()}
    return Evidence(values, bases, best, UNDECIDED)


def best_of(candidates: Sequence[Tried], seen: dict[str, int]) -> Tried:
    """The first header; where the DCE answers nothing, the one with the largest numbers seen, if it has the same counts."""
    best = candidates[0]
    same = (it for it in candidates if it.numbers == seen and it.counts == best.counts)
    return best if best.answered else next(same, best)


def is_decided(name: str, best: Tried, candidates: Sequence[Tried]) -> bool:
    """Whether the DCE answers findings with a number, and reacts otherwise to each greater one."""
    rest = {**best.numbers, name: 0}
    greater = [it for it in candidates if {**it.numbers, name: 0} == rest and it.numbers[name] > best.numbers[name]]
    return best.answered > 0 and all(it.reactions != best.reactions for it in greater)

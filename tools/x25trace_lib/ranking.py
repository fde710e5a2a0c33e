"""The headers that x25scan tries on the first rows of a trace, the best first."""
from __future__ import annotations

import subprocess
from dataclasses import dataclass
from typing import IO

from x25tools_lib.notes import Head

# The number of rows that are tried.
MOST_ROWS = 100_000
COLUMNS = ["#", "answered", "unanswered", "unexplained", "findings", "uncounted", "octets", "header"]
# Why no headers are tried.
NO_SCANNER = "x25scan is not there to try others"
FOLLOWED = "--follow tries no others"


@dataclass(frozen=True)
class Tried:
    """A header that was tried: its MOD, WIN and SIZE, and its counts, a number for each column."""

    numbers: dict[str, int]
    counts: tuple[int, ...]

    @property
    def answered(self) -> int:
        """The findings that the DCE answers under it."""
        return self.counts[0]

    @property
    def findings(self) -> int:
        """The findings under it."""
        return self.counts[3]

    @property
    def reactions(self) -> tuple[int, ...]:
        """How the DCE reacts under it: findings answered, findings not answered, and answers without a finding."""
        return self.counts[:3]


@dataclass(frozen=True)
class Ranker:
    """The x25scan that tries headers, or why none tries them."""

    program: str | None = None
    why: str = NO_SCANNER

    def ranked(self, trace: IO[str]) -> list[Tried]:
        """The headers that are tried on a trace in an open file, the best first; none where x25scan tries none."""
        words = [str(self.program), "--try-headers"]
        trace.seek(0)
        try:
            done = subprocess.run(words, stdin=trace, stdout=subprocess.PIPE, encoding="ascii", errors="replace", check=False)
        except OSError:
            return []
        return ranking_of(done.stdout) if done.returncode in (0, 1) else []


def ranking_of(output: str) -> list[Tried]:
    """The headers of a table that x25scan prints, the best first; none where the text is not such a table."""
    heading, *lines = output.split("\n")
    if heading.split() != COLUMNS:
        return []
    try:
        return [tried_of(line) for line in lines if line]
    except (ValueError, LookupError):
        return []


def tried_of(line: str) -> Tried:
    """The header of a line. Raises ValueError or LookupError where the line has another form."""
    *counts, header = line.split(maxsplit=len(COLUMNS) - 2)
    numbers = Head(header).numbers
    return Tried({name: int(numbers[name]) for name in ("MOD", "WIN", "SIZE")}, tuple(map(int, counts)))

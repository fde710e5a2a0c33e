"""Which end is the DTE, where that is a guess: both ways are tried by how the DCE reacts, as headers are."""
from __future__ import annotations

import argparse
import re
import tempfile
from collections.abc import Iterable, Iterator

from x25tools_lib.choices import SideBy
from x25tools_lib.header import Header

from .ranking import Ranker, Tried

# So many errors more have to be answered.
LEAST = 2
ROW = re.compile(r"^(\d+ )([TN])( )", re.MULTILINE)
EXCHANGED = {"T": "N", "N": "T"}


def is_guess(words: argparse.Namespace) -> bool:
    """Whether no option names the DTE, and none says which channels calls of one side have."""
    one_way = (words.incoming, words.two_way, words.outgoing) != (None, None, None)
    return words.dte is None and words.side in (None, SideBy.LINK_ADDRESS.value) and not (words.sender or one_way)


def exchanged(text: str) -> str:
    """Rows with the sides exchanged."""
    return ROW.sub(lambda row: f"{row[1]}{EXCHANGED[row[2]]}{row[3]}", text)


def disagreements(tried: Tried) -> int:
    """The errors that the DCE does not answer, and the answers without an error."""
    return tried.counts[1] + tried.counts[2]


def is_better(other: Tried, own: Tried) -> bool:
    """Whether the reactions of the DCE decide for the other way.

    The DCE answers two errors more at least and disagrees no more often, and there are no more findings.
    """
    is_answered = other.answered >= own.answered + LEAST and disagreements(other) <= disagreements(own)
    return is_answered and other.findings <= own.findings


def first_of(ranking: Iterable[Tried], fixed: dict[str, int]) -> Tried | None:
    """The first header of a ranking with some numbers."""
    return next((it for it in ranking if fixed.items() <= it.numbers.items()), None)


def tried_both(ranker: Ranker, header: Header, fixed: dict[str, int], rows: Iterator[str]) -> tuple[Tried, Tried] | None:
    """The best headers of rows and of the rows with exchanged sides; None where nothing can be tried, or nothing is wrong."""
    if ranker.program is None:
        return None
    found = []
    with tempfile.TemporaryFile("w+", encoding="ascii", newline="\n") as own, \
            tempfile.TemporaryFile("w+", encoding="ascii", newline="\n") as other:
        for file in (own, other):
            file.write(header.line() + "\n")
        for part in rows:
            own.write(part)
            other.write(exchanged(part))
        for file in (own, other):
            file.flush()
            best = first_of(ranker.ranked(file), fixed)
            if best is None or file is own and not (best.findings or disagreements(best)):
                return None
            found.append(best)
    return found[0], found[1]

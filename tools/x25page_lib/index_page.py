"""The index of several pages: a line for each, with who broke what, the sums, the gaps and the header."""
from __future__ import annotations

import os
from collections.abc import Iterator, Sequence
from dataclasses import dataclass, field
from urllib.parse import quote

from .markup import Cell, Markup, cell, element, page_of, table
from .suspicions import number
from .verdicts import BAD, GOOD, UNKNOWN, Verdict

INDEX = "index.html"
HEADS = (("Capture or trace", None), ("What is said first of it", None), ("DTE", "number"), ("DCE", "number"),
         ("Packets", "number"), ("Calls", "number"), ("Segments", "number"), ("Gaps", "number"), ("Header", None))


@dataclass(frozen=True)
class Side:
    """What an input has of a side: its findings, how many of them may follow from others, and its hosts."""

    findings: int
    following: int
    hosts: Sequence[str]

    def cell(self, is_bad: bool) -> Cell:
        """The number of its findings, with those that may follow from others and with its host, or the number of hosts."""
        words = [element("span", f"{self.findings:,}")]
        words += [element("small", f"{self.following:,} may follow")] if self.following else []
        if self.hosts:
            words.append(element("small", self.hosts[0] if len(self.hosts) == 1 else number(len(self.hosts), "host")))
        return Cell(Markup("".join(words)), self.findings, "number found" if self.findings and is_bad else "number")


@dataclass
class Line:
    """The line of an input in the index: its page, or why there is none."""

    path: str
    page: str
    verdict: Verdict
    sides: Sequence[Side] = ()
    sums: dict[str, int] = field(default_factory=dict)
    gaps: int = 0
    # The numbers of the header, by name, and whether each was estimated.
    header: Sequence[tuple[str, str, bool]] = ()
    # What to know before the page: that packets may be missing, or that the header may be wrong.
    notes: Sequence[str] = ()

    @classmethod
    def refused(cls, path: str, why: str) -> Line:
        """The line of an input without a page."""
        return cls(path, "", Verdict(BAD, f"There is no page. {why}"))

    def cells(self) -> list[Cell]:
        """The cells of the line."""
        if not self.page:
            return [Cell(self.path), Cell(self.verdict.sentence, kind="refused"), *(Cell("", -1) for _ in HEADS[2:])]
        name = element("a", self.path, href=quote(os.fsencode(self.page)))
        sums = [cell(self.sums[it]) for it in ("packets", "calls", "segments")]
        found = [it.cell(self.verdict.kind == BAD) for it in self.sides]
        gaps = cell(self.gaps, "number lost" if self.gaps else "number")
        header = " ".join(f"{word} {value}" for word, value, _ in self.header)
        return [Cell(name, self.path), self.said(), *found, *sums, gaps, Cell(Markup("".join(self.words())), header)]

    def said(self) -> Cell:
        """The verdict of the page, and its notes."""
        notes = (element("small", note) for note in self.notes)
        sentence = element("span", self.verdict.sentence, kind=f"said {self.verdict.kind}")
        return Cell(Markup("".join((sentence, *notes))), self.verdict.sentence)

    def words(self) -> Iterator[Markup]:
        """The header; numbers that were estimated are marked."""
        for word, value, is_estimated in self.header:
            yield element("span", f"{word} {value}".strip(), kind="chip estimated" if is_estimated else "chip",
                          title="estimated from what was seen" if is_estimated else None)


def total(lines: Sequence[Line]) -> str:
    """How many pages there are, in how many a side broke the protocol, and how many inputs have none."""
    pages = [line for line in lines if line.page]
    broken, refused = sum(line.verdict.kind == BAD for line in pages), len(lines) - len(pages)
    words = f"{number(len(pages), 'page')}: a side broke the protocol in {f'{broken:,}' if broken else 'none'} of them"
    return words + (f"; {number(refused, 'file')} gave no page." if refused else ".")


def index_of(lines: Sequence[Line], program: str) -> Iterator[str]:
    """The text of the index, in parts; `program` says why the program is not the proved one."""
    kinds = {line.verdict.kind for line in lines}
    worst = next(kind for kind in (BAD, UNKNOWN, GOOD) if kind in kinds)
    parts = [
        element("h1", total(lines), kind=f"verdict {worst}"),
        *([element("p", program, kind="not-proved")] if program else []),
        element("p", "DTE and DCE have the findings of each side. A dashed number of a header was estimated.", kind="muted"),
        table(HEADS, (line.cells() for line in lines), "index-table"),
    ]
    return page_of("index of pages", parts)

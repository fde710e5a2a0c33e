"""The comparison of two inputs as text, for a terminal: only what differs."""
from __future__ import annotations

from collections.abc import Iterator, Sequence

from .differences import Line, Section, other_headers
from .totals import Totals

# The width of a number in columns, and the most lines of a section.
NUMBER, MOST_LINES = 12, 40


def heading(before: Totals, after: Totals) -> Iterator[str]:
    """What is compared, and what is said first of each."""
    for label, it in (("before", before), ("after", after)):
        yield f"{label + ':':8}{it.name}: {it.verdict.sentence}"
    words = other_headers(before, after)
    if words:
        yield words


def words_of(line: Line) -> str:
    """The label of a line, and what its number counts."""
    return ", ".join(filter(None, line.words))


def numbers_of(section: Section, line: Line) -> Iterator[tuple[str, int, int]]:
    """The numbers of a line that differ, each with its words."""
    for counted, before, after in zip(section.counted, line.before, line.after):
        if before is not None and after is not None and before != after:
            yield words_of(line) + (f", {counted}" if len(section.counted) > 1 else ""), before, after


def lines_of(section: Section) -> Iterator[str]:
    """The lines of a section."""
    differing = section.differing
    found = [it for line in differing[:MOST_LINES] for it in numbers_of(section, line)]
    wide = max((len(words) for words in (section.title[2:], *(it for it, _, _ in found))), default=0)
    heads = f"{'before':>{NUMBER}}{'after':>{NUMBER}}{'difference':>{NUMBER}}"
    yield f"{section.title:{wide + 2}}{heads}" if found else section.title
    if not found:
        yield "  no difference" if section.lines else "  none before and none after"
        return
    for words, before, after in found:
        yield f"  {words:{wide}}{before:{NUMBER},}{after:{NUMBER},}{after - before:+{NUMBER},}"
    if len(differing) > MOST_LINES:
        yield f"  and {len(differing) - MOST_LINES:,} more"
    if section.same:
        yield f"  no difference in {section.same:,} other{'' if section.same == 1 else 's'}"


def comparison_text(before: Totals, after: Totals, sections: Sequence[Section]) -> Iterator[str]:
    """The lines of the text. Columns are before, after and the difference."""
    yield from heading(before, after)
    for section in sections:
        yield ""
        yield from lines_of(section)

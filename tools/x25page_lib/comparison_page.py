"""The comparison of two inputs as a page."""
from __future__ import annotations

from collections.abc import Iterator, Sequence

from .differences import Line, Section, other_headers
from .markup import Cell, Markup, cell, element, page_of, table
from .totals import Totals


def side_of(label: str, it: Totals) -> Markup:
    """What is said first of an input."""
    return element("div", element("h2", f"{label}: {it.name}"), element("p", it.verdict.sentence, kind=f"said {it.verdict.kind}"),
                   element("p", *(element("span", f"{name} {value}".strip(), kind="chip") for name, value in it.header.items())),
                   kind="card")


def kind_of(section: Section, before: int, after: int) -> str:
    """The CSS class of a difference, better or worse; more of a bad thing is worse."""
    if not section.is_bad or before == after:
        return "number"
    return f"number {'worse' if after > before else 'better'}"


def apart(section: Section, before: int | None, after: int | None) -> Iterator[Cell]:
    """The cells of a number: before, after and the difference."""
    yield cell(before)
    yield cell(after)
    if before is None or after is None:
        yield cell(None)
    else:
        yield Cell(f"{after - before:+,}" if after != before else "0", after - before, kind_of(section, before, after))


def together(before: int | None, after: int | None) -> Cell:
    """One cell with a number before and after, sorted by the difference."""
    if before is None or after is None:
        return cell(None)
    change = element("small", f"{after - before:+,}" if after != before else "no difference")
    return Cell(Markup(f"{before:,} &#8594; {after:,}{change}"), after - before, "number")


def cells(section: Section, line: Line) -> Iterator[Cell]:
    """The cells of a line; where it has several numbers, one cell for each."""
    yield from map(Cell, line.words)
    for before, after in zip(line.before, line.after):
        if len(section.counted) == 1:
            yield from apart(section, before, after)
        else:
            yield together(before, after)


def shown(section: Section, name: str) -> Iterator[Markup]:
    """The title of a section and its table, with what differs first."""
    yield element("h2", section.title)
    if not section.lines:
        yield element("p", "None before and none after.", kind="muted")
        return
    numbers = section.counted if len(section.counted) > 1 else ("before", "after", "difference")
    heads = [*((head, None) for head in section.heads), *((head, "number") for head in numbers)]
    same = [it for it in section.lines if not it.differs]
    ordered = section.lines if section.keeps_order else [*section.differing, *same]
    yield table(heads, (cells(section, it) for it in ordered), name)


def comparison_page(before: Totals, after: Totals, sections: Sequence[Section]) -> Iterator[str]:
    """The text of the page, in parts."""
    many = sum(len(it.differing) for it in sections)
    sentence = f"{many:,} line{'s differ' if many != 1 else ' differs'}." if many else "Nothing differs."
    parts = [element("h1", sentence, kind="verdict"),
             element("div", side_of("Before", before), side_of("After", after), kind="sides")]
    words = other_headers(before, after)
    if words:
        parts.append(element("p", words, kind="card alarm"))
    for at, section in enumerate(sections):
        parts += shown(section, f"section-{at + 1}")
    return page_of(f"{before.name} and {after.name}", parts)

"""Pages that need no script: elements as text, and the file that has them."""
from __future__ import annotations

import base64
import hashlib
import html
import pathlib
from collections.abc import Iterable, Iterator, Sequence
from dataclasses import dataclass

FOLDER = pathlib.Path(__file__).resolve().parent / "page"
MARK = b'<meta name="generator" content="x25page">'
LOOK = 2000


class Markup(str):
    """Text that is markup, and is not escaped."""


def source_of(text: str) -> str:
    """The source expression of a style or a script in the policy of a page."""
    return f"'sha256-{base64.b64encode(hashlib.sha256(text.encode()).digest()).decode()}'"


def policy_of(style: str, script: str) -> str:
    """The content security policy of a page: only this script and this style, and no request."""
    allowed = f"style-src {source_of(style)}; script-src {source_of(script)}"
    return f"default-src 'none'; {allowed}; base-uri 'none'; form-action 'none'"


def part_of_page(name: str) -> str:
    """The text of a file of the folder page."""
    return (FOLDER / name).read_text(encoding="ascii")


def is_page(path: pathlib.Path) -> bool:
    """Whether a file is a page that x25page wrote."""
    if not path.is_file():
        return False
    with path.open("rb") as file:
        return MARK in file.read(LOOK)


def filled(name: str, parts: dict[str, Iterable[str]]) -> Iterator[str]:
    """The text of a file of the folder page, with parts in their places."""
    rest = part_of_page(name)
    for place, texts in parts.items():
        before, _, rest = rest.partition(f"{{{{{place}}}}}")
        yield before
        yield from texts
    yield rest


def ascii_of(text: str) -> str:
    """A text in ASCII with all markup escaped; what is not a character becomes a question mark."""
    escaped = html.escape(text.encode("utf-8", "replace").decode())
    return escaped.encode("ascii", "xmlcharrefreplace").decode()


def element(tag: str, *children: object, **attributes: object) -> Markup:
    """An element; an attribute whose value is None is left out, and `kind` is its class."""
    named = {"class" if name == "kind" else name.replace("_", "-"): value for name, value in attributes.items()}
    words = "".join(f' {name}="{ascii_of(str(value))}"' for name, value in named.items() if value is not None)
    inner = "".join(it if isinstance(it, Markup) else ascii_of(str(it)) for it in children if it is not None)
    return Markup(f"<{tag}{words}>{inner}</{tag}>")


@dataclass(frozen=True)
class Cell:
    """A cell of a table: its content, its sort key where that differs, and its class."""

    content: object
    order: object = None
    kind: str | None = None

    def markup(self, name: str) -> Markup:
        """The cell in a column of this name, which a small screen shows next to it."""
        return element("td", self.content, kind=self.kind, role="cell", data_name=name, data_order=self.order)


def cell(value: int | None, kind: str = "number") -> Cell:
    """The cell of a number, written with commas and sorted as a number; the number may be unknown."""
    return Cell("-", -1, kind) if value is None else Cell(f"{value:,}", value, kind)


def table(heads: Sequence[tuple[str, str | None]], lines: Iterable[Iterable[Cell]], name: str) -> Markup:
    """A table, each head with its class; a click on a head sorts it."""
    head = [element("th", element("button", text, type="button", kind="sort"), scope="col", role="columnheader", kind=kind)
            for text, kind in heads]
    body = [element("tr", *(it.markup(text) for it, (text, _) in zip(cells, heads)), role="row") for cells in lines]
    parts = (element("thead", element("tr", *head, role="row"), role="rowgroup"), element("tbody", *body, role="rowgroup"))
    whole = element("table", *parts, id=name, kind="cards", role="table")
    return element("div", element("div", whole, kind="table-room"), kind="card flush")


def page_of(title: str, parts: Iterable[Markup]) -> Iterator[str]:
    """A page of elements, in parts."""
    style, script = part_of_page("page.css") + part_of_page("lists.css"), part_of_page("lists.js")
    return filled("lists.html", {
        "policy": [policy_of(style, script)], "title": [ascii_of(title)], "style": [style], "name": [ascii_of(title)],
        "body": (f"{part}\n" for part in parts), "script": [script],
    })

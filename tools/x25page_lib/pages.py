"""The file of a page: its markup, style, scripts and facts in one text, which makes no network request."""
from __future__ import annotations

from collections.abc import Iterable, Iterator
from dataclasses import dataclass, field
from typing import Any

from .gathering import Read
from .markup import filled, part_of_page, policy_of
from .rows import SIDES, Table
from .suspicions import number, trial, warnings
from .texts import encoded

SCRIPTS = ("words.js", "ends.js", "filters.js", "overview.js", "reading.js", "strip.js", "strip_keys.js", "calls_csv.js", "tables.js", "use.js", "rungs.js", "ladder.js",
           "detail.js", "packets.js", "find.js", "history.js", "page.js")
# The hosts of a side that a page names.
MOST_HOSTS = 100


@dataclass
class Page:
    """A page of what was read."""

    read: Read
    size: int = 0
    warnings: list[list[Any]] = field(default_factory=list)

    def parts(self) -> Iterator[str]:
        """The text of the page, in parts."""
        for part in self.markup():
            self.size += len(part)
            yield part

    def markup(self) -> Iterator[str]:
        """The parts in their order."""
        style, script = part_of_page("page.css"), "".join(map(part_of_page, SCRIPTS))
        return filled("page.html", {
            "policy": [policy_of(style, script)], "style": [style], "facts": self.json(), "script": [script],
        })

    def json(self) -> Iterator[str]:
        """The facts as one JSON object, in parts."""
        for at, (name, parts) in enumerate(self.members()):
            yield f"{',' if at else '{'}\n{encoded(name)}:"
            yield from parts
        yield "\n}"

    def members(self) -> Iterator[tuple[str, Iterable[str]]]:
        """The names of the object's members, each with the parts of its text."""
        facts = self.read.facts
        yield from ((name, [encoded(value)]) for name, value in self.small().items())
        yield "frames", [facts.frame_text]
        yield "calls", [facts.call_text]
        yield "marks", [facts.marks.text]
        yield "restarts", [facts.restarts.text]
        yield "gaps", [facts.gaps.text]
        yield "accounts", [facts.accounts.text]
        yield "settings", [facts.settings.text]
        yield "found_channels", [facts.found_channels.text]
        yield "ladders", self.ladders()
        # What was left out is known when everything else is written.
        yield "left_out", [encoded(self.left_out())]

    def small(self) -> dict[str, Any]:
        """The members that are small."""
        facts, head, codes = self.read.facts, self.read.head, self.read.facts.found.codes()
        verdict = facts.verdict()
        # Where only half was recorded, the header cannot be judged.
        self.warnings = [] if facts.halves else warnings(head.numbers, codes, facts.reactions, head.comments)
        return {
            "name": self.read.name,
            "again": self.read.again,
            "trial": trial(self.read.again),
            "header": head.header,
            "numbers": [[name, value, head.sources.get(name)] for name, value in head.numbers.items()],
            "messages": self.read.messages.all,
            # Whether surely no packet is missing.
            "whole": self.read.messages.whole,
            # Why the program is not the proved one; empty for the proved one.
            "program": self.read.program,
            "comments": head.comments,
            **self.ends(),
            "sums": facts.sums,
            "peak": facts.peak,
            "codes": codes,
            "verdict": [verdict.kind, verdict.sentence],
            "rows_of": facts.rows_of,
            "half_counts": facts.found.half_counts if facts.halves else None,
            # The findings of each side that may follow from others, and those of each host.
            "following": facts.found.following,
            "of_hosts": [lines[:MOST_HOSTS] for lines in facts.found.host_lines()],
            "doubts": facts.doubts(),
            "unjudged": facts.unjudged.lines(),
            "unrecorded_ends": facts.unrecorded_ends,
            # The calls whose connections ended without a clear, each with the frame.
            "cut_off": facts.cut_off,
            "warnings": self.warnings,
            "not_counted": facts.not_counted,
            "rows": [facts.first, facts.last],
            # The first packet whose frame is known: from there on a row without a frame has the packet's number as its frame.
            "framed": facts.forms.frames.begun,
            "channels": sorted(facts.channels),
            "times": facts.times.all(facts.forms),
            # In nanoseconds, as a text: a script has no integers that large.
            "begun": None if facts.forms.begun is None else f"{facts.forms.begun}000",
            "types": facts.forms.types.values(),
            "states": facts.forms.states.values(),
            "faults": facts.forms.faults.values(),
            "names": facts.calls.names.values(),
            "texts": self.read.explanations,
            "use": facts.use.facts(),
        }

    def ends(self) -> dict[str, Any]:
        """Which hosts are at the ends of the interface, and of each circuit."""
        ends, hosts = self.read.facts.ends, Table()
        circuits = [[it.row, it.channel, it.words, of.connection, *(None if host is None else hosts.place(host) for host in of.hosts)]
                    for it, (*_, of) in zip(self.read.head.circuits, ends.circuits)]
        line = [None if host is None else hosts.place(host) for host in ends.line.hosts]
        by_side = [sorted(it.items(), key=lambda pair: -pair[1]) for it in ends.hosts()]
        return {"circuits": circuits, "circuits_to": ends.known_to, "line_hosts": line, "hosts": hosts.values(),
                "side_hosts": [[len(it), it[:MOST_HOSTS]] for it in by_side], "sides": self.read.sides, "swapped": self.read.swapped}

    def ladders(self) -> Iterator[str]:
        """The ladders by key."""
        yield "{"
        for at, (key, text) in enumerate(self.read.facts.ladders.texts()):
            yield f"{',' if at else ''}\n{encoded(key)}:{text}"
        yield "}"

    def left_out(self) -> dict[str, int]:
        """How much is left out."""
        facts = self.read.facts
        return {
            "level": facts.ladders.level,
            "ladders": facts.ladders.left_out,
            "calls": facts.calls.left_out,
            "marks": facts.marks.left_out,
            "restarts": facts.restarts.left_out,
            "gaps": facts.gaps.left_out,
            "accounts": facts.accounts.left_out,
            "settings": facts.settings.left_out,
            "found_channels": facts.found_channels.left_out,
            "unjudged": facts.unjudged.left_out,
        }

    def summary(self) -> str:
        """The line about the page for standard error."""
        facts = self.read.facts
        sums, of_sides = facts.sums, [facts.found.count_of(side) for side in range(len(SIDES))]
        said = ", ".join(number(sums[f"{noun}s"], noun) for noun in ("packet", "call", "finding"))
        said += f" (DTE {of_sides[0]:,}, DCE {of_sides[1]:,})" if sums["findings"] else ""
        return f"{said}; {self.size / 1e6:.1f} MB"

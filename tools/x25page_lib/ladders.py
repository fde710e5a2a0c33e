"""The ladders of a page: the rows kept of each call, and the sums of the rows left out."""
from __future__ import annotations

from collections import deque
from collections.abc import Iterator, Sequence
from dataclasses import dataclass, field
from typing import Any

from .rows import OCTETS, SIDES, Flowing, Kept, Missing, Row, RowForms, cut, is_plain
from .texts import encoded, plain_texts

# A ladder keeps its first rows, which show how the call was set up.
BEGINNING = 2
# The rows of a ladder that is probably left out whose texts are not made until it has a finding.
WAITING = 16
# The bytes counted for a row that waits for a kept row near it.
COST = 150
ALL = 1 << 30
# The bytes of a ladder's key in a page.
KEY = 18


@dataclass(frozen=True)
class Level:
    """How much is kept. Where the budget of a page is exceeded, the next level keeps less."""

    # The rows without a mark kept next to one with a mark, the hex digits of a row, and the rows of a ladder.
    edge: int
    digits: int
    most: int


LEVELS = (
    Level(ALL, 8400, ALL),
    Level(ALL, 64, ALL),
    Level(512, 64, ALL),
    Level(128, 64, ALL),
    Level(32, 64, ALL),
    Level(8, 64, ALL),
    Level(2, 32, 4000),
    Level(2, 32, 400),
    Level(2, 32, 60),
)
# From this level on, ladders without a finding are dropped before others lose more.
DROPPING = 6


@dataclass(slots=True)
class Run:
    """The sums of consecutive rows that are left out."""

    first: int = 0
    last: int = 0
    packets: int = 0
    gaps: int = 0
    data: list[int] = field(default_factory=lambda: [0, 0])
    octets: list[int] = field(default_factory=lambda: [0, 0])
    findings: dict[str, int] = field(default_factory=dict)
    # The frames of the first and the last row, as the page shows them.
    frames: list[int | None] = field(default_factory=lambda: [None, None])
    text: str = ""

    def add(self, row: Row | Kept) -> None:
        """Adds a row."""
        if not self.first:
            self.first, self.frames[0] = row.packet, row.frame
        self.last, self.frames[1] = row.packet, row.frame
        self.gaps += row.is_gap
        self.packets += not row.is_gap
        if row.is_data:
            self.data[row.side] += 1
            self.octets[row.side] += row.octets
        if row.code:
            self.findings[row.code] = self.findings.get(row.code, 0) + 1

    def join(self, other: Run) -> None:
        """Adds the sums of a run that follows."""
        if not self.first:
            self.first, self.frames[0] = other.first, other.frames[0]
        self.last, self.frames[1] = other.last, other.frames[1]
        self.packets += other.packets
        self.gaps += other.gaps
        for side in range(len(SIDES)):
            self.data[side] += other.data[side]
            self.octets[side] += other.octets[side]
        for code, count in other.findings.items():
            self.findings[code] = self.findings.get(code, 0) + count

    def kept(self, _level: Level) -> Run:
        """The array of the run, with its text."""
        names = ["first", "last", "packets", "data", "octets", "findings"]
        if self.frames != [None, None]:
            names.append("frames")
        if self.gaps:
            names.append("gaps")
        self.text = encoded({name: getattr(self, name) for name in names})
        return self


class Ladder:
    """The rows of a call, of a channel outside of calls, or of the interface."""

    __slots__ = (
        "items", "run", "tail", "following", "findings", "size", "widest", "unmarked", "is_closed", "is_waiting", "gap",
    )

    def __init__(self, is_waiting: bool = False, gap: Missing | None = None) -> None:
        self.begin()
        # The last gap of all channels in it or before it.
        self.gap = gap
        self.findings, self.is_closed, self.is_waiting = 0, False, is_waiting
        # The most hex digits of a row, and the number of rows without a mark.
        self.widest = self.unmarked = 0

    def begin(self) -> None:
        """Forgets all rows."""
        # A quiet row is kept as its text; a ladder whose texts are not made yet has rows.
        self.items: list[Row | Kept | Run | str] = []
        self.run: Run | None = None
        self.tail: deque[Row | Kept] | tuple[()] = ()
        self.following, self.size = 0, KEY

    def keeps(self, row: Row | Kept, level: Level) -> bool:
        """Whether a row is kept, whatever its neighbours are."""
        many = len(self.items)
        if many >= (level.most if row.code else level.most // 2):
            return False
        return row.is_marked or level.edge == ALL or many < BEGINNING

    def place(self, row: Row | Kept, level: Level) -> None:
        """Keeps a row, holds it until a row near it is kept, or leaves it out."""
        if self.is_closed:
            self.sum_up(row)
        elif self.keeps(row, level):
            if self.tail or self.run:
                self.release(level)
            self.keep(row, level)
            if row.is_marked:
                self.following = level.edge
        elif self.following and not row.is_marked:
            self.following -= 1
            self.keep(row, level)
        else:
            self.following = 0
            self.tail = self.tail or deque()
            self.tail.append(row)
            if len(self.tail) > level.edge:
                self.sum_up(self.tail.popleft())
            else:
                self.size += COST

    def sum_up(self, row: Row | Kept) -> None:
        """Leaves a row out."""
        if self.run is None:
            self.run = Run()
        self.run.add(row)

    def keep(self, item: Row | Kept | Run, level: Level) -> None:
        """Keeps a row, or sums."""
        if self.is_waiting:
            self.items.append(item)
            if len(self.items) > WAITING:
                self.show(level)
            return
        kept = item.kept(level)
        self.items.append(kept)
        self.size += len(kept.text) + 1

    def keep_text(self, text: str) -> None:
        """Keeps a quiet row by its text."""
        self.items.append(text)
        self.size += len(text) + 1

    def show(self, level: Level) -> None:
        """Makes the texts of the rows that waited for a finding."""
        self.is_waiting = False
        items, self.items = self.items, []
        for item in items:
            if not isinstance(item, str):
                self.keep(item, level)

    def release(self, level: Level) -> None:
        """Adds the sums of the rows left out, and the rows held."""
        if self.run:
            self.keep(self.run, level)
            self.run = None
        self.size -= COST * len(self.tail)
        for row in self.tail:
            self.keep(row, level)
        self.tail = ()

    def fits(self, level: Level) -> bool:
        """Whether another level would keep all that is kept now."""
        many = len(self.items) + len(self.tail)
        if self.is_closed or self.widest > level.digits:
            return False
        return many <= level.edge or not self.unmarked and many < level.most // 2

    def fold(self, level: Level) -> None:
        """Applies another level to what was kept so far."""
        if self.fits(level):
            self.following = min(self.following, level.edge)
            return
        self.release(level)
        items = self.items
        self.begin()
        for item in items:
            if isinstance(item, str) and level.edge == ALL:
                self.keep_text(cut(item, level.digits))
            elif isinstance(item, Run):
                self.size -= COST * len(self.tail)
                while self.tail:
                    self.sum_up(self.tail.popleft())
                self.run = self.run or Run()
                self.run.join(item)
                self.following = 0
            else:
                self.place(Kept(item) if isinstance(item, str) else item, level)
        self.widest = min(self.widest, level.digits)

    def close(self) -> None:
        """Keeps only sums, of the rows so far and of those that follow."""
        self.is_closed = True
        self.fold(LEVELS[-1])

    def texts(self, level: Level) -> list[str]:
        """The texts of what was kept, to its end."""
        self.release(level)
        return [item if isinstance(item, str) else item.kept(level).text for item in self.items]


def quiet_texts(rows: Sequence[Flowing], level: Level, forms: RowForms) -> list[str]:
    """The texts of quiet rows, as a level keeps them."""
    if level.edge != ALL:
        for *_, members in rows:
            if "frame" in members and "c" in members:
                # A row that may still be left out has its frame before its segments.
                members["c"] = members.pop("c")
    arrays = forms.arrays(rows, level.digits)
    if is_plain("".join([array[OCTETS] for array in arrays])):
        return plain_texts(arrays)
    return [encoded(array) for array in arrays]


class Ladders:
    """The ladders of all calls, within a budget of bytes, which those with the most findings get first."""

    def __init__(self, budget: int) -> None:
        self.budget, self.size, self.level = budget, 0, 0
        self.keeps = LEVELS[0]
        self.ladders: dict[str, Ladder] = {}
        self.finished: set[str] = set()
        self.left_out = 0
        # Whether a ladder without a finding was left out; then all further ones are.
        self.is_full = False
        # The last gap of all channels.
        self.gap: Missing | None = None

    def ladder(self, key: str) -> Ladder:
        """The ladder with a key; a new one where there is none."""
        ladder = self.ladders.get(key)
        if ladder is None:
            ladder = self.ladders[key] = Ladder(self.is_full, self.gap)
            self.size += ladder.size
        return ladder

    def miss(self, key: str, gap: Missing) -> None:
        """Adds a gap to the ladder with a key."""
        ladder = self.ladder(key)
        before = ladder.size
        ladder.place(gap, LEVELS[self.level])
        self.size += ladder.size - before

    def add(self, key: str, row: Row) -> None:
        """Adds a row to the ladder with a key, after the gap of all channels that came before it."""
        ladder = self.ladder(key)
        if ladder.gap is not self.gap and self.gap is not None:
            ladder.gap = self.gap
            self.miss(key, self.gap)
        before = ladder.size
        # A finding keeps eight times as many digits.
        ladder.widest = max(ladder.widest, len(row.hex) // 8 if row.code else len(row.hex))
        ladder.unmarked += not row.is_marked
        if row.code:
            ladder.findings += 1
            if ladder.is_waiting:
                ladder.show(LEVELS[self.level])
        level = LEVELS[self.level]
        if row.is_quiet and level.edge == ALL and not ladder.is_waiting and not ladder.is_closed:
            ladder.keep_text(row.forms.quiet(row, level.digits))
        else:
            ladder.place(row, level)
        self.size += ladder.size - before
        if self.size > self.budget:
            self.shrink()

    def flow(self, rows: Sequence[Flowing], forms: RowForms) -> int:
        """Adds quiet rows, up to one after which less is kept; returns how many it added."""
        keeps, texts = self.keeps, quiet_texts(rows, self.keeps, forms)
        sizes = list(map(len, texts))
        size = self.size + sum(sizes) + len(sizes)
        if keeps.edge != ALL or size > self.budget:
            return self.flow_singly(rows, texts)
        self.size = size
        for (_, _, _, _, _, ladder, _, digits, _), text, each in zip(rows, texts, sizes):
            ladder.items.append(text)
            ladder.size += each + 1
            if len(digits) > ladder.widest:
                ladder.widest = len(digits)
        return len(rows)

    def flow_singly(self, rows: Sequence[Flowing], texts: Sequence[str]) -> int:
        """Adds quiet rows of which some may be left out."""
        keeps = self.keeps
        for many, (row, text) in enumerate(zip(rows, texts), 1):
            *_, ladder, _, digits, _ = row
            before, ladder.widest = ladder.size, max(ladder.widest, len(digits))
            if keeps.edge == ALL:
                ladder.keep_text(text)
            else:
                ladder.place(Kept.flowing(text, row), keeps)
            self.size += ladder.size - before
            if self.size > self.budget:
                self.shrink()
                if self.keeps is not keeps:
                    return many
        return len(rows)

    def finish(self, key: str) -> None:
        """Ends a ladder: no more rows will be added."""
        ladder = self.ladders.get(key)
        if ladder is None:
            return
        if ladder.is_closed or self.is_full and not ladder.findings:
            self.drop(key)
            return
        self.finished.add(key)
        before = ladder.size
        ladder.release(LEVELS[self.level])
        self.size += ladder.size - before

    def drop(self, key: str) -> None:
        """Leaves a ladder out."""
        self.size -= self.ladders.pop(key).size
        self.finished.discard(key)
        self.left_out += 1

    def limit(self, budget: int) -> None:
        """Applies the final budget, after the last row."""
        self.budget = budget
        if self.size > budget:
            self.shrink()

    def shrink(self) -> None:
        """Leaves out more: first rows, then ladders without a finding, then those with the fewest findings."""
        enough = self.budget * 3 // 4
        while self.size > enough and self.level + 1 < len(LEVELS):
            if self.level >= DROPPING:
                self.drop_quiet(enough)
            if self.size > enough:
                self.level += 1
                self.keeps = LEVELS[self.level]
                self.fold_all()
        if self.size > enough:
            self.drop_quiet(enough)
            self.close_some(enough)

    def fold_all(self) -> None:
        """Applies the level to all ladders."""
        level = LEVELS[self.level]
        for ladder in self.ladders.values():
            ladder.fold(level)
        self.size = sum(ladder.size for ladder in self.ladders.values())

    def drop_quiet(self, enough: int) -> None:
        """Leaves out ended ladders without a finding, the last ones first."""
        for key in reversed([it for it in self.ladders if it in self.finished and not self.ladders[it].findings]):
            if self.size <= enough:
                break
            self.drop(key)
            self.is_full = True

    def close_some(self, enough: int) -> None:
        """Reduces ladders to sums, those with the fewest findings first."""
        for key in sorted(self.ladders, key=lambda it: self.ladders[it].findings):
            ladder = self.ladders[key]
            if self.size <= enough:
                break
            if ladder.is_waiting:
                continue
            before = ladder.size
            ladder.close()
            self.size += ladder.size - before
            if key in self.finished:
                self.drop(key)

    def texts(self) -> Iterator[tuple[str, str]]:
        """The key and the text of each ladder that has more than sums."""
        level = LEVELS[self.level]
        for key, ladder in self.ladders.items():
            if ladder.is_waiting and self.size < self.budget:
                ladder.show(level)
                self.size += ladder.size
            if not ladder.is_waiting and any(not isinstance(item, Run) for item in ladder.items):
                yield key, f"[{','.join(ladder.texts(level))}]"
            else:
                self.left_out += 1

"""What a page shows of a trace, gathered from the objects of x25scan in one pass."""
from __future__ import annotations

from collections.abc import Callable, Iterable, Iterator, Sequence
from dataclasses import dataclass
from typing import Any

from x25tools_lib.halves import Halves
from x25tools_lib.json_text import names
from x25tools_lib.notes import Head

from .calls import BYTES, Calls
from .ends import AllEnds
from .evenly import Evenly
from .fast_path import FastPath
from .found import Findings
from .ladders import Flowing, Ladders
from .peaks import Peak
from .reactions import Reactions
from .rows import SECOND, SIDES, Missing, Row, RowForms, in_seconds, microseconds
from .texts import encoded
from .unjudged import UnjudgedCalls
from .use import CUT_OFF, UNRECORDED, Use
from .verdicts import Verdict, of_halves, verdict_of

# The bytes that a page may have, and its markup, its words and its other parts; its ladders may have the rest.
PAGE, WORDS = 25_000_000, 600_000
CALLS, MARKS, ACCOUNTS, SETTINGS, CHANNELS = 4_500_000, 1_000_000, 500_000, 500_000, 200_000
MOST_TIMES, MOST_DOUBTS = 1024, 5
SETTING = ("call", "side", "parameter", "word", "value")
CLEARING = ("p6", "p7")
LINE, = names("line")


class Budgeted:
    """Texts of a list, as many as a limit of bytes allows."""

    def __init__(self, budget: int) -> None:
        self.budget, self.size, self.left_out = budget, 0, 0
        self.texts: list[str] = []

    def add(self, value: Any) -> None:
        text = encoded(value)
        if not self.left_out and self.size + len(text) < self.budget:
            self.texts.append(text)
            self.size += len(text) + 1
        else:
            self.left_out += 1

    @property
    def text(self) -> str:
        return f"[{','.join(self.texts)}]"


class Thinned:
    """Texts of a list, spread evenly over the trace: all, or each second or fourth one, as a limit of bytes allows."""

    def __init__(self, budget: int) -> None:
        self.budget, self.size, self.step, self.seen = budget, 0, 1, 0
        self.texts: list[str] = []

    def takes_next(self) -> bool:
        """Whether the next value is kept, so that others need not be made."""
        self.seen += 1
        return (self.seen - 1) % self.step == 0

    def add(self, value: Any) -> None:
        text = encoded(value)
        self.texts.append(text)
        self.size += len(text) + 1
        if self.size > self.budget:
            self.texts, self.step = self.texts[::2], self.step * 2
            self.size = sum(map(len, self.texts)) + len(self.texts)

    def numbers(self) -> Iterator[int]:
        """The numbers that the values begin with."""
        return (int(text[1:].partition(",")[0]) for text in self.texts)

    @property
    def left_out(self) -> int:
        return self.seen - len(self.texts)

    @property
    def text(self) -> str:
        return f"[{','.join(self.texts)}]"


class Times(Evenly):
    """The times of some rows, spread evenly over the trace."""

    def __init__(self) -> None:
        super().__init__([], MOST_TIMES)
        self.last: tuple[int, int] = (0, 0)

    def add(self, packet: int, time: int) -> None:
        """Adds the time of a row."""
        self.add_all([(packet, time)])

    def add_all(self, values: Sequence[tuple[int, int]]) -> None:
        """Adds rows with their times."""
        super().add_all(values)
        self.last = values[-1] if values else self.last

    def all(self, forms: RowForms) -> list[tuple[int, float]]:
        """The pairs of a row and its time after the first one."""
        pairs = [*self.kept, self.last] if self.kept else []
        return [(packet, forms.since_begin(time)) for packet, time in pairs]

    def span(self) -> tuple[float, float] | None:
        """The first and the last time in seconds, or None."""
        return (self.kept[0][1] / SECOND, self.last[1] / SECOND) if self.kept else None


@dataclass(slots=True)
class LastCall:
    """The last call of a channel, to which its clear confirmation still belongs, and the key of its ladder."""

    number: int
    key: str


class Facts:
    """The facts of a page so far."""

    def __init__(self, head: Head) -> None:
        self.halves, self.ends = Halves(head), AllEnds(head)
        self.has_halves = bool(self.halves)
        # The rows of each side, and of what was recorded of one side alone those rows, and the calls that ended by a packet
        # of the side that was not recorded.
        self.rows_of, self.half_rows = [0, 0], 0
        self.unrecorded_ends: list[int] = []
        self.forms, self.ladders, self.calls = RowForms(), Ladders(PAGE - WORDS), Calls(CALLS)
        self.times, self.reactions, self.use = Times(), Reactions(self.forms.frames), Use()
        self.found, self.unjudged = Findings(self.ends), UnjudgedCalls()
        self.fast_path = FastPath(self)
        self.marks, self.restarts, self.gaps = Thinned(MARKS), Thinned(MARKS // 4), Thinned(MARKS // 4)
        # The gaps of channels without a call, until the channel's next row.
        self.missing: dict[int | None, Missing] = {}
        self.accounts, self.settings = Budgeted(ACCOUNTS), Budgeted(SETTINGS)
        self.found_channels = Budgeted(CHANNELS)
        self.not_counted: list[list[Any]] = []
        self.sums: dict[str, int] = {}
        # The report's peak, and that of the calls where connections of some ended without a clear.
        self.peak: list[int] = []
        self.calls_up = Peak() if self.ends.are_cut_off else None
        self.cut_off: list[list[int]] = []
        self.last_calls: dict[int | None, LastCall] = {}
        self.channels: set[int] = set()
        self.first, self.last, self.begun_calls, self.call_text, self.frame_text = 0, 0, 0, "", ""
        self.takers: dict[str, Callable[[dict[str, Any]], object]] = {
            "call": self.call,
            "setting": lambda it: self.settings.add([it[name] for name in SETTING]),
            "account": lambda it: self.accounts.add([it[name] for name in ("address", "calls", "segments")]),
            "peak": lambda it: setattr(self, "peak", [it["count"], it["packet"]]),
            "sums": lambda it: setattr(self, "sums", {name: it[name] for name in it if name != "line"}),
            "not_counted": lambda it: self.not_counted.append([it["reason"], it["packets"], it["octets"]]),
            "call_facts": self.call_facts,
            "gap": self.gap,
            "row": lambda it: self.row(Row(it, self.forms)),
        }

    def take(self, objects: Iterable[dict[str, Any]]) -> None:
        """Reads all objects of a trace."""
        rest = iter(objects)
        while (it := self.fast_path.take(rest)) is not None:
            if taker := self.takers.get(it[LINE]):
                taker(it)
        self.finish()

    def finish(self) -> None:
        """Ends the facts after the last object: the ladders may use the bytes that other parts of the page leave."""
        self.fast_path.settle()
        if self.calls_up:
            self.peak = self.calls_up.lines(self.peak)
        self.use.finish()
        self.reactions.finish()
        self.call_text = self.calls.text()
        for line in self.found.channel_lines():
            self.found_channels.add(line)
        self.frame_text = encoded(self.other_frames())
        thinned, budgeted = (self.marks, self.restarts, self.gaps), (self.accounts, self.settings, self.found_channels)
        parts = len(self.call_text) + len(self.frame_text)
        parts += sum(it.size for it in thinned) + sum(it.size for it in budgeted)
        self.ladders.limit(PAGE - WORDS - parts)

    def packets(self) -> Iterator[int | None]:
        """The numbers of the packets that the page names outside of its ladders."""
        yield from (self.first, self.last, self.peak[1] if self.peak else None)
        yield from self.found.packets()
        yield from self.reactions.packets()
        yield from (number for it in self.unjudged.all for number in (it.packet, it.ended))
        yield from self.calls.packets()
        yield from (*self.marks.numbers(), *self.restarts.numbers(), *self.gaps.numbers())
        yield from self.use.packets()

    def other_frames(self) -> dict[str, int]:
        """The frames of the packets that the page names, where they differ from the packet's number; 0 where unknown."""
        frames = self.forms.frames
        begun = frames.begun
        if begun is None:
            return {}
        named = {it for it in self.packets() if it is not None and it >= begun}
        return {str(it): frames.of(it) or 0 for it in sorted(named) if frames.of(it) != it}

    def reserve(self) -> None:
        """Leaves room for the parts of the page that are known so far."""
        calls = min(CALLS, BYTES * self.begun_calls)
        self.ladders.budget = PAGE - WORDS - calls - self.marks.size - self.restarts.size - self.gaps.size

    def row(self, row: Row) -> None:
        """Adds a row."""
        self.fast_path.settle()
        packet = self.last = row.packet
        self.rows_of[row.side] += 1
        self.first = self.first or packet
        key, time = self.key(row), row.time
        if self.missing and (missing := self.missing.pop(row.channel, None)):
            self.ladders.miss(key, missing)
        if time is not None:
            if not self.times.seen:
                self.forms.begin(time)
            self.times.add(packet, time)
        if row.segments and not row.side and row.call is not None:
            self.calls.share(row.call, row.segments)
        if row.is_quiet and not self.has_halves:
            self.use.flow(row, key)
            self.ladders.add(key, row)
            self.fast_path.begin(row, key)
        else:
            self.fast_path.end(row.channel)
            self.news(row, key)

    def gap(self, it: dict[str, Any]) -> None:
        """Adds a gap row: packets of its channel may be missing, or of all channels where it names none."""
        self.fast_path.settle()
        packet, channel = it["packet"], it["channel"]
        self.first, self.last = self.first or packet, packet
        missing = Missing(packet, channel, self.forms.frame_of(packet, it.get("frame")))
        self.fast_path.end(channel)
        self.use.miss(channel)
        self.reactions.miss(channel)
        self.unjudged.miss(channel)
        if self.gaps.takes_next():
            self.gaps.add([packet, channel])
        call = self.last_calls.get(channel)
        if channel is None:
            # Each ladder gets it before its next row.
            self.ladders.gap = missing
        elif call is not None:
            self.ladders.miss(call.key, missing)
        else:
            self.missing[channel] = missing

    def count(self, rows: Sequence[Flowing]) -> None:
        """Counts the octets and segments of quiet rows; the fast path does the rest."""
        packets, sides, times, octets, segments, *_ = zip(*rows)
        self.last = packets[-1]
        self.rows_of[1] += sum(sides)
        self.rows_of[0] += len(rows) - sum(sides)
        self.use.segments.packets.update(zip(sides, octets, segments))
        if timed := rows if None not in times else [row for row in rows if row[2] is not None]:
            packets, _, times, octets, *_ = zip(*timed)
            self.times.add_all(list(zip(packets, times)))
            self.use.pass_time(times, octets)

    def news(self, row: Row, key: str) -> None:
        """Reads a row that is not on the fast path."""
        is_half = self.has_halves and self.is_half(row)
        if row.code:
            self.finding(row, key, is_half)
        elif row.channel is None and row.kind.startswith("restart_") and row.after in ("r2", "r3"):
            if self.restarts.takes_next():
                self.restarts.add([row.packet, row.side])
        self.use.count(row)
        if not is_half:
            self.judge(row, key)
        self.ladders.add(key, row)

    def judge(self, row: Row, key: str) -> None:
        """Reads what a row requests, answers and reports, where both sides were recorded."""
        self.use.see(row, key)
        debt = self.reactions.open.get(row.channel) if row.channel is not None else None
        self.unjudged.see(row, key, None if debt is None else debt.packet)
        if self.reactions.concerns(row):
            self.reactions.see(row, key)

    def is_half(self, row: Row) -> bool:
        """Counts a row of a part of the line that was recorded in one direction; returns whether it is such a row."""
        if not self.halves.side(row.channel, row.packet):
            return False
        self.half_rows += 1
        if row.finding:
            # What the other side sent after it was not recorded.
            row.finding["then"] = ""
        return True

    def key(self, row: Row) -> str:
        """The key of the ladder of a row."""
        channel, call = row.channel, row.call
        last = self.last_calls.get(channel)
        if last is not None and call == last.number:
            return last.key
        if channel is not None:
            self.channels.add(channel)
        else:
            if row.members["ends"]:
                self.end_all()
            return "interface"
        if call is not None:
            if last is not None:
                self.ladders.finish(last.key)
            last = self.last_calls[channel] = LastCall(call, f"call-{call}")
            self.begun_calls += 1
            self.reserve()
        elif last is None or row.before not in CLEARING:
            return f"channel-{channel}"
        return last.key

    def end_all(self) -> None:
        """Ends all calls after a restart."""
        for call in self.last_calls.values():
            self.ladders.finish(call.key)
        self.last_calls.clear()

    def finding(self, row: Row, key: str, is_half: bool) -> None:
        """Counts the finding of a row."""
        line = self.found.add(row, key, is_half)
        if row.call is not None:
            self.calls.count(row.call)
        if self.marks.takes_next():
            place = self.forms.types.place(row.kind), self.forms.states.place(row.before)
            self.marks.add([row.packet, row.side, row.channel, row.code, key, *line, *place])
            self.reserve()

    def call(self, it: dict[str, Any]) -> None:
        """Adds what the report says of a call."""
        side = self.halves.side(it["channel"], it["opened"]) if self.has_halves else None
        is_unrecorded = bool(side and it["how"] in SIDES and it["how"] != side)
        if is_unrecorded:
            self.unrecorded_ends.append(it["call"])
        cut_off = self.ends.of(it["channel"], it["opened"]).cut_off if self.calls_up and it["how"] == "open" else None
        if self.calls_up:
            self.calls_up.add(it["up"], it["ended"], cut_off)
        if cut_off is not None:
            self.cut_off.append([it["call"], cut_off])
        how = UNRECORDED if is_unrecorded else it["how"] if cut_off is None else CUT_OFF
        self.use.causes.add(it | {"how": how})
        self.calls.add(it)

    def call_facts(self, it: dict[str, Any]) -> None:
        """Adds what objects other than the call's line of the report have of it."""
        self.use.causes.facts_of(it)
        time, begun = microseconds(it["start"]), self.forms.begun
        it["start"] = None if time is None or begun is None else in_seconds(time - begun)
        it["seconds"] = in_seconds(microseconds(it["seconds"]))
        it.setdefault("gaps", 0)
        self.calls.facts(it)

    def verdict(self) -> Verdict:
        """Who broke the protocol, as far as the recording shows."""
        blame = self.found.blame()
        if self.halves:
            return of_halves(self.halves.all, blame, self.half_rows < self.sums["packets"])
        late = sum(it.late for it in self.use.waits.sums())
        return verdict_of(self.sums["packets"], blame, late, self.gaps.seen)

    def doubts(self) -> list[tuple[str, int | None, str]]:
        """Sentences on what the DCE did about errors of the DTE, each with a packet and the key of its ladder, or a part."""
        found: list[tuple[str, int | None, str]] = []
        if self.reactions.ignored:
            found.append(self.reactions.ignored_sentence())
        found += [(f"{it.sentence()}: {self.forms.frames.name(it.packet)}.", it.packet, it.key)
                  for it in self.reactions.unexplained()[:MOST_DOUBTS]]
        if self.unjudged.many:
            found.append((f"{self.unjudged.sentence()}.", None, "unjudged"))
        return found

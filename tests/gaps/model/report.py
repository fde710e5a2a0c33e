"""The report of a trace."""
from __future__ import annotations

from collections.abc import Iterable
from dataclasses import dataclass, field

from model.events import CallEnded, CallOpened, CallUp, DataSent, Found, InitialSettings, Setting
from model.observer import Observer, Shown
from model.packets import GapRow, Side
from model.traces import GAPS_FORM, Trace

SEGMENT_OCTETS = 64


@dataclass(frozen=True)
class Report:
    """The text of a report, and what its closing line says of findings and segments."""

    text: str
    findings: int
    segments: int

    @property
    def status(self) -> int:
        """The exit status."""
        return 1 if self.findings else 0


@dataclass
class CallAccount:
    """A call: where and by which packets it was opened, came up and ended, and what it carried."""

    epoch: int
    channel: int
    opened: CallOpened
    opened_at: int
    up_at: int | None = None
    ended_at: int | None = None
    how: str = "open"
    packets: dict[Side, int] = field(default_factory=lambda: dict.fromkeys(Side, 0))
    octets: dict[Side, int] = field(default_factory=lambda: dict.fromkeys(Side, 0))
    segments: int = 0
    settings: dict[tuple[Side, int], Setting] = field(default_factory=dict)

    def add(self, shown: Shown) -> None:
        """Adds an event of the call."""
        event = shown.event
        if isinstance(event, CallUp):
            self.up_at = self.up_at or shown.row
        elif isinstance(event, CallEnded):
            self.ended_at, self.how = shown.row, event.how
        elif isinstance(event, DataSent):
            self.packets[event.side] += 1
            self.octets[event.side] += event.octets
            self.segments += segments_of(event.octets)
        elif isinstance(event, Setting):
            self.settings[event.side, event.parameter] = event
        elif isinstance(event, InitialSettings):
            self.settings = {place: each for place, each in self.settings.items() if place[0] is not event.side}

    def payer(self) -> str:
        """The address that pays."""
        return self.opened.called if self.opened.is_reverse_charged else self.opened.calling

    def line(self, number: int) -> str:
        """The line of the call."""
        opened = self.opened
        words = [number, self.epoch, self.channel, "out" if opened.is_outgoing else "in", opened.called, opened.calling]
        words += [self.opened_at, self.up_at, self.ended_at, self.how]
        for side in Side:
            words += [self.packets[side], self.octets[side]]
        return " ".join(["C", *map(word, words), word(self.segments)])

    def setting_lines(self, number: int) -> list[str]:
        """The lines of the call's PAD settings, those of the DTE first."""
        places = sorted(self.settings, key=lambda place: (place[0] is Side.DCE, place[1]))
        found = [self.settings[place] for place in places]
        return [f"S {number} {each.side} {each.parameter} {each.word} {each.value}" for each in found]


def word(value: object) -> str:
    """A word of a line: `-` where there is nothing."""
    return "-" if value in (None, "") else str(value)


def segments_of(octets: int) -> int:
    """The segments of a data packet."""
    return -(-octets // SEGMENT_OCTETS)


def call_accounts(shown: Iterable[Shown]) -> list[CallAccount]:
    """The calls in the order of their openings."""
    calls: list[CallAccount] = []
    open_calls: dict[tuple[int, int], CallAccount] = {}
    for each in shown:
        place = (each.epoch, each.channel)
        if isinstance(each.event, CallOpened):
            open_calls[place] = CallAccount(each.epoch, each.channel, each.event, each.row)
            calls.append(open_calls[place])
        elif place in open_calls:
            open_calls[place].add(each)
            if isinstance(each.event, CallEnded):
                del open_calls[place]
    return calls


def payer_lines(calls: list[CallAccount]) -> list[str]:
    """The lines of the addresses that pay: their calls and segments."""
    segments: dict[str, list[int]] = {}
    for call in calls:
        segments.setdefault(call.payer(), []).append(call.segments)
    return [f"A {word(payer)} {len(found)} {sum(found)}" for payer, found in sorted(segments.items())]


def report_of(trace: Trace) -> Report:
    """The report of a trace."""
    observer = Observer(trace.interface)
    for row in trace.rows:
        observer.read(row)
    findings = [(each.row, each.event) for each in observer.shown if isinstance(each.event, Found)]
    data = [each.event.octets for each in observer.shown if isinstance(each.event, DataSent)]
    calls = call_accounts(observer.shown)
    lines = [f"F {row} {found.side} {found.state} {found.code}" for row, found in findings]
    lines += [call.line(number) for number, call in enumerate(calls, 1)]
    for number, call in enumerate(calls, 1):
        lines += call.setting_lines(number)
    lines += payer_lines(calls)
    lines.append(f"P {observer.peak[0]} {word(observer.peak[1])}")
    gaps = sum(isinstance(row, GapRow) for row in trace.rows)
    if trace.interface.form == GAPS_FORM:
        lines.append(f"G {gaps}")
    segments = sum(map(segments_of, data))
    lines.append(f"Z {len(trace.rows) - gaps} {len(findings)} {len(calls)} {sum(data)} {segments}")
    return Report("".join(f"{line}\n" for line in lines), len(findings), segments)

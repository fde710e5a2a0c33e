"""The facts of a page as text, for a terminal: who broke the protocol, what was used, and what was waited for."""
from __future__ import annotations

import datetime

from .gathering import Read
from .suspicions import number, warnings
from .use import CUT_OFF, UNRECORDED
from .verdicts import NAMES, times
from .waits import ANSWERED, GIVEN_UP, OPEN, RESTARTED

# Times before this one, in seconds since 1970, are not dates.
EARLIEST_DATE = 100_000_000
MOST_LINES, MOST_PARTS = 20, 5
MINUTE = 60
ENDS = {ANSWERED: "answered late", GIVEN_UP: "no answer: the sender ended it", RESTARTED: "no answer: a restart ended it",
        OPEN: "no answer to the end of the trace"}
WAYS = {"T": "cleared by the DTE", "N": "cleared by the DCE", "collision": "clear collision", "restart": "ended by a restart",
        "gap": "a gap hides how they ended", "open": "open at the end of the trace", UNRECORDED: "how they ended was not recorded",
        CUT_OFF: "their connections ended without a clear"}


def decimals(value: float, most: int) -> str:
    return f"{value:.{most}f}".rstrip("0").rstrip(".") or "0"


def length(seconds: float) -> str:
    """A length of time, in ms, seconds, minutes or hours."""
    if seconds < 1:
        return f"{decimals(seconds * 1000, 1)} ms"
    if seconds < 120:
        return f"{decimals(seconds, 2)} s"
    minutes, rest = divmod(round(seconds), 60)
    if minutes < 120:
        return f"{minutes} min {rest} s"
    return f"{minutes // 60:,} h {minutes % 60} min"


def moment(seconds: float) -> str:
    """A time of the trace: a date where it is one."""
    if seconds < EARLIEST_DATE:
        return f"{decimals(seconds, 6)} s"
    date = datetime.datetime.fromtimestamp(seconds, datetime.timezone.utc)
    return date.strftime("%Y-%m-%d %H:%M:%S UTC")


def place(key: str) -> str:
    """The call, the channel or the interface of a ladder, in words."""
    return "the interface" if key == "interface" else key.replace("-", " ")


class Summary:
    """The text of the facts of a trace."""

    def __init__(self, read: Read) -> None:
        self.read, self.head, self.facts = read, read.head, read.facts
        self.named = self.facts.forms.frames.name
        self.use = self.facts.use.facts()

    def text(self) -> str:
        parts = [self.beginning(), self.findings(), self.hosts(), self.unjudged(), self.requests(), self.waits(), self.closed(), self.acknowledged(),
                 self.segments(), self.minutes(), self.causes()]
        return "\n".join("\n".join(lines) + "\n" for lines in parts if lines)

    def beginning(self) -> list[str]:
        facts, sums = self.facts, self.facts.sums
        counted = ", ".join(number(sums[f"{noun}s"], noun) for noun in ("packet", "call", "octet", "segment"))
        lines = [f"{self.read.name}: {facts.verdict().sentence}"]
        lines += [f"  {it}" for it in (self.read.program, self.read.sides, *(sentence for sentence, *_ in facts.doubts())) if it]
        lines += [f"  the other way: {self.read.swapped}"] if self.read.sides and self.read.swapped else []
        lines += [f"  {self.head.header}", f"  {counted}"]
        span = facts.times.span()
        if span:
            lines.append(f"  in {length(span[1] - span[0])}, from {moment(span[0])}")
        many, packet, *unknown = facts.peak
        lines += [f"  {number(many, 'call')} at once at most, first at {self.named(packet)}"] if packet else []
        if unknown:
            lines.append(f"  not known from frame {unknown[1]:,} on: the connections of {number(unknown[0], 'call')} ended without a clear")
        lost = sum(it[1] for it in facts.not_counted)
        lines += [f"  {number(lost, 'data packet')} not counted"] if lost else []
        doubts = [] if facts.halves else warnings(self.head.numbers, facts.found.codes(), facts.reactions, self.head.comments)
        return lines + [f"  the header may be wrong: {sentence}" for sentence, *_ in doubts]

    def findings(self) -> list[str]:
        lines = []
        for code, name, _, counts, first, following in self.facts.found.codes():
            for side, many in enumerate(counts):
                if many:
                    packet, key = first[side]
                    may = f", {following[side]:,} of which may follow from others" if following[side] else ""
                    lines.append(f"  {NAMES[side]}, code {code} ({name}): {many:,}{may}, first at {self.named(packet)}, {place(key)}")
        return ["findings", *lines] if lines else []

    def hosts(self) -> list[str]:
        """The findings of each host, where the hosts are known."""
        lines = []
        for side, found in enumerate(self.facts.found.host_lines()):
            for host, many, following, connections, packet, key in found[:MOST_LINES]:
                may = f", {following:,} of which may follow from others" if following else ""
                on = f" on {number(connections, 'connection')}" if connections else ""
                lines.append(f"  {NAMES[side]} {host}: {many:,}{on}{may}, first at {self.named(packet)}, {place(key)}")
            rest = len(found) - MOST_LINES
            lines += [f"  and {number(rest, 'more host')} of the {NAMES[side]}"] if rest > 0 else []
        return ["findings by host", *lines] if lines else []

    def unjudged(self) -> list[str]:
        """The calls that were not judged."""
        lines = []
        for call in self.facts.unjudged.all[:MOST_LINES]:
            ends = f"from {call.calling or '-'} to {call.called or '-'}"
            octets = f"{call.octets[0]:,} octets of the DTE, {call.octets[1]:,} of the DCE"
            lines.append(f"  {self.named(call.packet)}, channel {call.channel}, {ends}: {octets}; {WAYS[call.how]}")
        rest = self.facts.unjudged.many - len(lines)
        lines += [f"  and {rest:,} more"] if rest > 0 else []
        return ["calls that were not judged", *lines] if lines else []

    def requests(self) -> list[str]:
        lines = []
        for name, limit, request, side, many, ends, late, longest, packet, _ in self.use["waited"]:
            text = f"  {request} of the {NAMES[side]} ({name}, {limit} s): {many:,}"
            unanswered = many - ends[ANSWERED]
            text += f", {unanswered:,} without an answer" if unanswered else ", all answered"
            text += f", {late:,} longer than {name}" if late else ""
            text += f"; the longest wait {length(longest)}, {self.named(packet)}" if longest is not None else ""
            lines.append(text)
        return ["requests and their time-outs (X.25 Annex D)", *lines] if lines else []

    def waits(self) -> list[str]:
        lines = []
        for name, packet, key, channel, sent, seconds, how in self.use["waits"][:MOST_LINES]:
            waited = "" if seconds is None else f", {length(seconds)}"
            again = f", sent {times(sent)}" if sent > 1 else ""
            where = place(key) + ("" if channel is None or key.startswith("channel") else f", channel {channel}")
            lines.append(f"  {self.named(packet)}, {where}{again}{waited} ({name}): {ENDS[how]}")
        rest = len(self.use["waits"]) - len(lines) + self.use["waits_left_out"]
        lines += [f"  and {rest:,} more"] if rest else []
        return ["requests without an answer, or with a late one", *lines] if lines else []

    def closed(self) -> list[str]:
        lines = []
        for key, channel, side, seconds, first, last in self.use["closed"][:MOST_LINES]:
            end = f"to {self.named(last)}" if last else "on"
            where = place(key) + ("" if key.startswith("channel") else f", channel {channel}")
            lines.append(f"  {where}, {NAMES[side]}: {length(seconds)}, from {self.named(first)} {end}")
        rest = len(self.use["closed"]) - len(lines) + self.use["closed_left_out"]
        lines += [f"  and {rest:,} more"] if rest else []
        return ["the longest time that a window was closed", *lines] if lines else []

    def acknowledged(self) -> list[str]:
        lines = []
        for side, it in enumerate(self.use["acknowledged"]):
            if it:
                many, median, most, longest, packet, key = it
                lines.append(f"  data of the {NAMES[side]}: {number(many, 'packet')}, median {length(median)}, 95th percentile "
                             f"{length(most)}, longest {length(longest)} ({self.named(packet)}, {place(key)})")
        return ["from data to its acknowledgement", *lines] if lines else []

    def segments(self) -> list[str]:
        lines = []
        for side, (octets, segments, small) in enumerate(self.use["segments"]):
            if segments:
                lines.append(f"  data of the {NAMES[side]}: {octets / segments:.1f} octets a segment; {small:,} of "
                             f"{number(segments, 'segment')} {'holds' if segments == 1 else 'hold'} fewer than 32 octets")
        return ["octets a segment (64 is best)", *lines] if lines else []

    def minutes(self) -> list[str]:
        """The busiest minutes; of a long trace, the busiest parts."""
        parts = self.use["parts"]
        if not parts:
            return []
        seconds = max(MINUTE, parts["seconds"])
        sums: dict[int, list[int]] = {}
        for at, packets, octets in parts["parts"]:
            begin = (parts["begin"] + at * parts["seconds"]) // seconds * seconds
            counts = sums.setdefault(begin, [0, 0])
            counts[0] += packets
            counts[1] += octets
        busiest = sorted(sums, key=lambda it: (-sums[it][0], it))[:MOST_PARTS]
        lines = [f"  {moment(it)}: {number(sums[it][0], 'packet')}, {number(sums[it][1], 'octet')}" for it in sorted(busiest)]
        part = "minutes" if seconds == MINUTE else f"parts of {length(seconds)}"
        return [f"packets and octets of data, the busiest {part}", *lines]

    def causes(self) -> list[str]:
        lines = []
        for how, cause, diagnostic, many, segments, first in self.use["causes"][:MOST_LINES]:
            names = [f", {noun} {it[0]} ({it[1]})" for noun, it in (("cause", cause), ("diagnostic", diagnostic)) if it]
            lines.append(f"  {number(many, 'call')}, {number(segments, 'segment')}: {WAYS[how]}{''.join(names)}; first call {first:,}")
        rest = len(self.use["causes"]) - len(lines)
        lines += [f"  and {rest:,} more ways"] if rest > 0 else []
        return ["calls by how they ended", *lines] if lines else []

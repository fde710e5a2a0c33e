"""What the DCE did about errors of the DTE: those that it did not react to, and those that it alone reports."""
from __future__ import annotations

from collections.abc import Iterator
from dataclasses import dataclass

from x25tools_lib.frames import Frames

from .found import follows_of
from .rows import ADRIFT, SIDES, Row

DTE = SIDES.index("T")
# The packets of the DCE that may be on their way before it knows of the error.
ON_THEIR_WAY = 3
# The causes by which the DCE reports an error of the DTE (X.25 5.2.4, 5.4.3, 5.5.1), and what such a packet does.
LOCAL_ERROR = {"reset_indication": 5, "clear_indication": 19, "restart_indication": 1}
DOES = {"reset_indication": ("reset a channel once", "reset channels {} times"),
        "clear_indication": ("cleared one call", "cleared {} calls"),
        "restart_indication": ("restarted the interface once", "restarted the interface {} times")}
# The states in which the DCE owes an indication or waits for its confirmation: what it sends there repeats one.
OWED = ("d3", "p7", "r3", ADRIFT)
# Diagnostic codes of time-outs of the DCE, and the state in which each runs (Annex D): the silence of the DTE explains them.
TIMED_OUT = {49: "p3", 50: "p7", 51: "d3", 52: "r3"}


@dataclass
class Debt:
    """An error of the DTE after which the DCE owes an indication: the packets that it sent in place of it."""

    packet: int
    key: str
    code: str
    # Whether it may follow from an earlier finding.
    is_following: bool
    sent: int = 0
    # The data packets of both sides that do not count since.
    data: int = 0
    is_counted: bool = False


@dataclass
class Ignored:
    """The errors of the DTE with a code to which the DCE did not react; the first one, and the data packets after them."""

    packet: int
    key: str
    many: int = 0
    # Those of them that follow from no earlier finding.
    begun: int = 0
    data: int = 0


@dataclass
class Report:
    """The indications of the DCE of one kind for one diagnostic code that no finding explains; the first one."""

    kind: str
    code: int
    name: str
    packet: int
    key: str
    many: int = 0

    def sentence(self) -> str:
        """What the DCE did, and that no packet shows why."""
        once, often = DOES[self.kind]
        did = once if self.many == 1 else often.format(f"{self.many:,}")
        return f"The DCE {did} for diagnostic {self.code} ({self.name}), and no such packet was recorded"


class Reactions:
    """The errors of the DTE that the DCE did not react to, and those that it names without a finding in the trace."""

    def __init__(self, frames: Frames) -> None:
        self.frames = frames
        self.open: dict[int, Debt] = {}
        self.ignored: dict[str, Ignored] = {}
        # The codes of the DTE since the last restart: in each call or channel, and on the whole interface.
        self.known: set[tuple[int | None, int | None, str]] = set()
        self.reports: dict[tuple[str, int], Report] = {}

    def concerns(self, row: Row) -> bool:
        """Whether a row has to be added with `see`; few have."""
        return bool(row.code) or row.channel is None or row.channel in self.open or row.kind in LOCAL_ERROR

    def see(self, row: Row, key: str) -> None:
        """Adds a row, with the key of its ladder."""
        if row.kind in LOCAL_ERROR and row.before not in OWED:
            self.name(row, key)
        if row.code and row.side == DTE:
            self.known |= {(row.channel, row.call, row.code), (None, None, row.code)}
        if row.channel is not None:
            self.settle(row, row.channel, key)
        elif row.kind.startswith("restart_") and not row.code:
            # A restart settles all debts.
            self.open.clear()
            self.known.clear()

    def settle(self, row: Row, channel: int, key: str) -> None:
        """Reads a row of a channel, which may begin or end a debt, or add to it."""
        debt = self.open.get(channel)
        if debt is None:
            if row.owed and row.side == DTE and row.code:
                self.open[channel] = Debt(row.packet, key, row.code, follows_of(row) is not None)
            return
        if not row.owed:
            self.open.pop(channel)
            if row.side == DTE:
                self.count(debt)
            return
        debt.sent += row.side != DTE
        is_lost = row.is_data and row.segments is None
        debt.data += is_lost
        if debt.is_counted:
            self.ignored[debt.code].data += is_lost
        elif debt.sent == ON_THEIR_WAY:
            self.count(debt)

    def miss(self, channel: int | None) -> None:
        """Reads a gap of a channel, or of all: an indication that was owed may be among the missing packets."""
        if channel is None:
            self.open.clear()
        else:
            self.open.pop(channel, None)

    def name(self, row: Row, key: str) -> None:
        """Reads a reset, clear or restart of the DCE, which may be for an error of the DTE without a finding."""
        cause, diagnostic = row.members.get("cause"), row.members.get("diagnostic")
        if not cause or not diagnostic or cause["value"] != LOCAL_ERROR[row.kind]:
            return
        code = diagnostic["value"]
        place = (row.channel, row.call) if row.channel is not None else (None, None)
        if code and (*place, str(code)) not in self.known and TIMED_OUT.get(code) != row.before:
            report = self.reports.setdefault((row.kind, code), Report(row.kind, code, diagnostic["name"], row.packet, key))
            report.many += 1

    def count(self, debt: Debt) -> None:
        """Counts an error that the DCE did not react to."""
        if debt.sent and not debt.is_counted:
            debt.is_counted = True
            ignored = self.ignored.setdefault(debt.code, Ignored(debt.packet, debt.key))
            ignored.many += 1
            ignored.begun += not debt.is_following
            ignored.data += debt.data

    def finish(self) -> None:
        """Ends the trace: no further indication will come."""
        for debt in self.open.values():
            self.count(debt)
        self.open.clear()

    def ignored_sentence(self) -> tuple[str, int, str]:
        """The sentence on the errors of the DTE that the DCE did not react to, with the first one and its ladder."""
        first = min(self.ignored.values(), key=lambda it: it.packet)
        many, data = (sum(getattr(it, name) for it in self.ignored.values()) for name in ("many", "data"))
        frame = self.frames.name(first.packet)
        errors = f"{frame}, an error of the DTE" if many == 1 else f"{many:,} errors of the DTE, the first in {frame}"
        after = "it" if many == 1 else "them"
        lost = f": {data:,} data packet{' after {} is' if data == 1 else 's after {} are'} not judged" if data else ""
        return f"The DCE did not react to {errors}{lost.format(after)}.", first.packet, first.key

    def unexplained(self) -> list[Report]:
        """What the DCE reports and no finding explains, the most frequent first."""
        return sorted(self.reports.values(), key=lambda it: -it.many)

    def packets(self) -> Iterator[int]:
        """The numbers of the packets that are named."""
        yield from (it.packet for it in self.ignored.values())
        yield from (it.packet for it in self.reports.values())

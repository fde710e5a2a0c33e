"""Removes rows from traces, and puts gap rows in their place."""
from __future__ import annotations

import random
from dataclasses import replace

from model.packets import GapRow, PacketRow, Row
from model.traces import GAPS_FORM, Trace

SHARES = (0.003, 0.01, 0.05, 0.2, 0.4)
LONGEST_RUN = 60


def gaps_for(source: random.Random, lost: list[Row]) -> list[Row]:
    """The gap rows that say which channels lost rows: one for each channel, or one of all."""
    channels = sorted({row.packet.channel if isinstance(row, PacketRow) else row.channel or 0 for row in lost})
    if 0 in channels or source.random() < 0.1:
        return [GapRow(lost[0].number, None)]
    return [GapRow(row.number, channel) for row, channel in zip(lost, channels)]


def lost_at(source: random.Random, share: float, has_runs: bool, rows: list[Row]) -> list[Row]:
    """The rows that are lost here, of those that are left: none, the next one, or a run."""
    if isinstance(rows[0], GapRow) or source.random() >= (share / 4 if has_runs else share):
        return []
    return rows[:source.randint(2, min(LONGEST_RUN, 2 + len(rows) // 3))] if has_runs else rows[:1]


def with_gaps(source: random.Random, trace: Trace) -> Trace:
    """The trace in the third form, with rows removed singly or in runs, and gap rows in their place."""
    has_runs = source.random() < 0.5
    share = source.choice(SHARES)
    kept: list[Row] = []
    rows = list(trace.rows)
    while rows:
        lost = lost_at(source, share, has_runs, rows)
        kept += gaps_for(source, lost) if lost else rows[:1]
        rows = rows[max(len(lost), 1):]
    return Trace(replace(trace.interface, form=GAPS_FORM), tuple(kept))


def without_gap_rows(trace: Trace) -> Trace:
    """The trace without its gap rows, as if nothing were missing."""
    return replace(trace, rows=tuple(row for row in trace.rows if isinstance(row, PacketRow)))

"""The findings of a trace, counted by code, by channel and by host: those that began, and those that may follow from one."""
from __future__ import annotations

from collections.abc import Iterator
from dataclasses import dataclass, field
from typing import Any

from .ends import AllEnds
from .rows import BITS, SIDES, Row
from .verdicts import Blame

# The most hosts of a side, and the most connections of a host, that are counted apart.
MOST_HOSTS = 2000
# The numbers of a packet in words, by its members.
NUMBERS = (("send", "P(S)"), ("receive", "P(R)"))
NAMED = ("cause", "diagnostic")


@dataclass
class Broken:
    """How often each side had a code, how many of these may follow from another finding, and the first row of each side."""

    name: str
    clause: str
    counts: list[int] = field(default_factory=lambda: [0, 0])
    following: list[int] = field(default_factory=lambda: [0, 0])
    first: list[tuple[int, str] | None] = field(default_factory=lambda: [None, None])


@dataclass
class OfHost:
    """The findings of a host on one side, and the first of them; `half` has those that began where it alone was recorded."""

    packet: int
    key: str
    count: int = 0
    following: int = 0
    half: int = 0
    connections: set[int] = field(default_factory=set)


def follows_of(row: Row) -> int | None:
    """The packet of the first finding from which that of a row may follow; None where none is named."""
    follows = (row.finding or {}).get("follows")
    return follows if isinstance(follows, int) else None


def values_of(row: Row) -> str:
    """The values of a packet with a finding."""
    members = row.members
    found = [f"{words} {members[name]}" for name, words in NUMBERS if members.get(name) is not None]
    found += [name.upper() for name, is_set in ((short, members.get(long)) for long, short in BITS) if is_set]
    found += [f"{name} {members[name]['value']}" for name in NAMED if isinstance(members.get(name), dict)]
    if row.is_data:
        found.append(f"{row.octets:,} octet{'' if row.octets == 1 else 's'} of data")
    return ", ".join(found)


class Findings:
    """The findings of a trace so far."""

    def __init__(self, ends: AllEnds) -> None:
        self.ends = ends
        self.broken: dict[str, Broken] = {}
        # For each channel the findings of both sides and the row of the first one.
        self.by_channel: dict[int | None, tuple[int | None, list[int], tuple[int, str]]] = {}
        # For each side the findings of each host; None is a host that is not known.
        self.by_host: list[dict[str | None, OfHost]] = [{} for _ in SIDES]
        # The findings of each side that began, those that may follow, and of both the ones where it alone was recorded.
        self.begun, self.following = [0, 0], [0, 0]
        self.half_begun, self.half_following = [0, 0], [0, 0]

    def add(self, row: Row, key: str, is_half: bool) -> list[Any]:
        """Counts the finding of a row; returns its words, the values of its packet, and from which packet it may follow."""
        packet, side, finding, follows = row.packet, row.side, row.finding or {}, follows_of(row)
        broken = self.broken.get(finding["code"])
        if broken is None:
            broken = self.broken[finding["code"]] = Broken(finding["name"], finding["clause"])
        broken.counts[side] += 1
        broken.following[side] += follows is not None
        if broken.first[side] is None:
            broken.first[side] = (packet, key)
        if row.channel not in self.by_channel:
            self.by_channel[row.channel] = (row.channel, [0, 0], (packet, key))
        self.by_channel[row.channel][1][side] += 1
        counts, half = (self.begun, self.half_begun) if follows is None else (self.following, self.half_following)
        counts[side] += 1
        half[side] += is_half
        self.add_host(row, key, follows, is_half)
        return [finding["wrong"], values_of(row), follows]

    def add_host(self, row: Row, key: str, follows: int | None, is_half: bool) -> None:
        """Counts the finding of a row for the host that sent it."""
        ends, hosts = self.ends.of(row.channel, row.packet), self.by_host[row.side]
        host = ends.hosts[row.side]
        if host not in hosts and len(hosts) >= MOST_HOSTS:
            host = None
        found = hosts.get(host)
        if found is None:
            found = hosts[host] = OfHost(row.packet, key)
        found.count += 1
        found.following += follows is not None
        found.half += is_half and follows is None
        if ends.connection is not None:
            found.connections.add(ends.connection)

    def count_of(self, side: int) -> int:
        """The number of findings of a side."""
        return self.begun[side] + self.following[side]

    @property
    def half_counts(self) -> list[int]:
        """The findings of each side where it alone was recorded."""
        return [begun + following for begun, following in zip(self.half_begun, self.half_following)]

    def blame(self) -> Blame:
        """Who broke the protocol, where both sides were recorded."""
        begun = [all_ - half for all_, half in zip(self.begun, self.half_begun)]
        following = [all_ - half for all_, half in zip(self.following, self.half_following)]
        return Blame(begun, following, [self.guilty(side) for side in range(len(SIDES))])

    def guilty(self, side: int) -> dict[str, int]:
        """How often each host of a side began, where all of them are known and both sides were recorded."""
        counts = {host: it.count - it.following - it.half for host, it in self.by_host[side].items()}
        guilty = {host: many for host, many in counts.items() if many}
        return {} if None in guilty else {host: many for host, many in guilty.items() if host is not None}

    def codes(self) -> list[list[Any]]:
        """Each code: its name and clause, and the count, the first row and the count of those that may follow, by side.

        The most frequent code comes first.
        """
        ordered = sorted(self.broken.items(), key=lambda it: -sum(it[1].counts))
        return [[code, it.name, it.clause, it.counts, it.first, it.following] for code, it in ordered]

    def host_lines(self) -> list[list[list[Any]]]:
        """The findings by host of each side, the most first: host, count, those that may follow, connections, first row."""
        return [[[host, it.count, it.following, len(it.connections), it.packet, it.key]
                 for host, it in sorted(hosts.items(), key=lambda pair: -pair[1].count) if host is not None]
                for hosts in self.by_host]

    def channel_lines(self) -> list[list[Any]]:
        """The findings by channel, the most first: channel, those of the DTE and of the DCE, and the first row."""
        ordered = sorted(self.by_channel.values(), key=lambda it: -sum(it[1]))
        return [[channel, *counts, *first] for channel, counts, first in ordered]

    def packets(self) -> Iterator[int]:
        """The numbers of the packets that are named."""
        yield from (first[0] for it in self.broken.values() for first in it.first if first)
        yield from (first[0] for *_, first in self.by_channel.values())
        yield from (it.packet for hosts in self.by_host for it in hosts.values())

"""The links of a capture, each with what was seen on it, and which of them have the same packets."""
from __future__ import annotations

from collections import Counter, deque
from collections.abc import Sequence
from dataclasses import dataclass, field
from itertools import combinations

from x25tools_lib.choices import Carrier
from x25tools_lib.refusals import Link
from x25tools_lib.sides import Side

from .beginning import Beginning
from .estimate import Estimator
from .lapb import Lapb
from .link_ends import link_text

# Of two recordings of one link, this one is read: it has the numbers that show what is missing.
PREFERRED = {Carrier.LAPB: 0, Carrier.X25: 1, Carrier.XOT: 2}
# A packet of fewer octets may be the same on two links by chance.
LONG = 12
# How many packets of a link wait for the same packet of another one.
MOST_WAITING = 256
# The share of the packets of a link that another one has too, where both are recordings of one link.
SAME = 0.9


@dataclass(eq=False)
class Line:
    """A link: what carries its packets, and the number of its Linux device, where the capture has that."""

    carrier: Carrier
    device: int | None = None
    number: int = 0
    lapb: Lapb | None = None
    packets: int = 0
    gaps: int = 0
    sides: set[Side] = field(default_factory=set)
    estimator: Estimator = field(default_factory=Estimator)
    beginning: Beginning = field(default_factory=Beginning)

    @property
    def link(self) -> Link:
        """What reads this link alone."""
        return Link(self.carrier.value, self.device)

    @property
    def options(self) -> str:
        """The options that read this link alone."""
        return " ".join(self.link.options)

    @property
    def place(self) -> str:
        """What carries its packets, and where."""
        return self.carrier.value + ("" if self.device is None else f" on interface {self.device}")

    @property
    def words(self) -> str:
        """Its packets, and its ends as far as they are known."""
        ends = [link_text(end) for end in (self.lapb.ends.sides if self.lapb else ()) if isinstance(end, bytes)]
        return f"{self.packets} packets in {self.place}{' of ' if ends else ''}{' and '.join(ends)}"


class Pair:
    """Two links that may be two recordings of one: the long packets of one that the other one has not had."""

    def __init__(self) -> None:
        self.waiting: tuple[Counter[bytes], Counter[bytes]] = (Counter(), Counter())
        self.order: tuple[deque[bytes], deque[bytes]] = (deque(), deque())
        self.seen = [0, 0]
        self.same = 0

    def see(self, index: int, octets: bytes) -> None:
        """Reads a packet of one link."""
        self.seen[index] += 1
        if self.waiting[1 - index][octets] > 0:
            self.waiting[1 - index][octets] -= 1
            self.same += 1
            return
        self.waiting[index][octets] += 1
        self.order[index].append(octets)
        if len(self.order[index]) > MOST_WAITING:
            oldest = self.order[index].popleft()
            self.waiting[index][oldest] -= 1
            if self.waiting[index][oldest] <= 0:
                del self.waiting[index][oldest]

    @property
    def are_same(self) -> bool:
        """Whether most of their packets are the same."""
        return self.same > 0 and self.same >= SAME * min(self.seen)


class Lines:
    """The links of a capture, in the order of their first frames."""

    # So many are compared with each other.
    MOST = 8

    def __init__(self) -> None:
        self.all: list[Line] = []
        self.pairs: dict[tuple[int, int], Pair] = {}

    def add(self, line: Line) -> None:
        line.number = len(self.all)
        self.all.append(line)
        if line.carrier is not Carrier.XOT and line.number < self.MOST:
            others = [other.number for other in self.all[:-1] if other.carrier is not Carrier.XOT]
            self.pairs.update({(other, line.number): Pair() for other in others})

    def see(self, line: Line, octets: bytes) -> None:
        """Compares a packet with those of the other links."""
        if len(octets) >= LONG:
            for (one, other), pair in self.pairs.items():
                if line.number in (one, other):
                    pair.see(int(line.number == other), octets)

    def used(self) -> list[Line]:
        """The links that have packets."""
        return [line for line in self.all if line.packets]

    def are_same(self, lines: Sequence[Line]) -> bool:
        """Whether links are recordings of one."""
        pairs = [self.pairs.get((one.number, other.number)) for one, other in combinations(lines, 2)]
        return all(pair is not None and pair.are_same for pair in pairs)


def preferred(lines: Sequence[Line]) -> Line:
    """The recording of a link that is read: the one with link numbers, then that with most packets, then the first."""
    return min(lines, key=lambda line: (PREFERRED[line.carrier], -line.packets, line.number))

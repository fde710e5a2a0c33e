"""Which end of a LAPB link sent a frame: by its address octet, its direction, or the source address of its link header."""
from __future__ import annotations

import enum
from collections.abc import Mapping

from x25tools_lib.choices import SideBy
from x25tools_lib.ledger import Ledger, Topic
from x25tools_lib.sides import Side

from .frames import Direction, Frame

COMMAND_SIDES = {0x01: Side.T, 0x03: Side.N}
RESPONSE_SIDES = {0x03: Side.T, 0x01: Side.N}
# What a frame says of its sender besides its address octet.
Source = Direction | bytes


# Of so many link addresses a refusal knows.
MOST_SEEN = 64


class Opening(enum.Enum):
    """What shows which end opened a link, the strongest first."""

    LINK = "opened the link"
    RESTART = "sent the first restart"
    CALL = "made the first call"

    __hash__ = object.__hash__


def link_text(address: bytes) -> str:
    """A link address as people write it."""
    return address.hex(":")


class Ends:
    """The two ends of a link.

    By its address octet a command is of the DTE (01) or of the DCE (03), and a response of the other one. This decides
    while both ends follow it. Where a second source sends as the same end, both are DTEs of LAPB, or both are DCEs: from
    then on the source decides, and the first one keeps the side that its address says.
    """

    def __init__(self, ledger: Ledger, side_by: SideBy | None, swapped: bool, stations: Mapping[bytes, Side]) -> None:
        self.ledger = ledger
        self.side_by = side_by or (SideBy.LINK_ADDRESS if stations else None)
        self.by_source = self.side_by in (SideBy.DIRECTION, SideBy.LINK_ADDRESS)
        # Whether the sides of a trace are those of the ends exchanged. Options say the ends that they name.
        self.swapped = swapped and self.side_by is not SideBy.DIRECTION and not stations
        self.sides: dict[Source, Side] = {address: side for address, side in stations.items()}
        # The link addresses that options name, and those that frames have.
        self.stations, self.seen = frozenset(stations), set[bytes]()
        if self.side_by is SideBy.DIRECTION:
            host = Side.N if swapped else Side.T
            self.sides = {Direction.SENT: host, Direction.RECEIVED: host.other}
        # The end that opened the link, by each thing that shows it.
        self.openers: dict[Opening, Side] = {}
        # Whether a source sent as both ends, and how many frames contradict their source.
        self.is_mixed = False
        self.contradictions = 0

    @property
    def is_guess(self) -> bool:
        """Whether both ends have one address, and no option says which one is the DTE."""
        return self.by_source and self.side_by is not SideBy.DIRECTION and not self.stations

    def opens(self, how: Opening, side: Side) -> None:
        """Notes the end that was the first to do so."""
        self.openers.setdefault(how, side)

    @property
    def opener(self) -> tuple[str, Side] | None:
        """What the end that opened the link did, and which one it is; None where nothing shows it."""
        return next(((how.value, self.openers[how]) for how in Opening if how in self.openers), None)

    def named(self, side: Side) -> Side:
        """The side of a trace that an end has, and the end that a side of a trace is."""
        return side.other if self.swapped else side

    def source(self, frame: Frame) -> Source | None:
        """The direction of a frame where it has one, else its link address."""
        if frame.direction is not Direction.UNKNOWN and self.side_by is not SideBy.LINK_ADDRESS:
            return frame.direction
        return frame.source if frame.source and self.side_by is not SideBy.DIRECTION else None

    def known(self, frame: Frame) -> Side | None:
        """The end that sent a frame by its source; None where that is not known."""
        source = self.source(frame)
        if source is None:
            return None
        if source not in self.sides and len(self.sides) == 1:
            # A link has two ends.
            return next(iter(self.sides.values())).other
        return self.sides.get(source)

    def sender(self, frame: Frame, address: int, is_command: bool) -> tuple[Side, bool]:
        """The end that sent a command or a response, and whether this frame showed that the ends have one address."""
        by_address = (COMMAND_SIDES if is_command else RESPONSE_SIDES)[address]
        known, source = self.known(frame), self.source(frame)
        if source is None:
            return by_address, False
        if isinstance(source, bytes) and len(self.seen) < MOST_SEEN:
            self.seen.add(source)
        is_against = known not in (None, by_address)
        if self.by_source:
            side = known or by_address
            self.contradictions += is_against and self.side_by is SideBy.DIRECTION
            self.sides.setdefault(source, side)
            return side, False
        if is_against and source not in self.sides and self.side_by is None and not self.is_mixed:
            self.separate(frame, source, by_address)
            return by_address.other, True
        self.is_mixed |= self.sides.get(source, by_address) is not by_address
        self.contradictions += is_against and isinstance(source, Direction)
        self.sides[source] = by_address
        return by_address, False

    def absent(self) -> str | None:
        """What is wrong where no frame has a link address that an option names."""
        if not self.stations or self.stations & self.seen:
            return None
        named, seen = (" and ".join(map(link_text, sorted(ends))) for ends in (self.stations, self.seen))
        return f"no frame is from {named}: the link addresses are {seen or 'not in the capture'}"

    def separate(self, frame: Frame, source: Source, side: Side) -> None:
        """Has the source decide from here on: two sources send as one end."""
        self.by_source = True
        (first, _), = self.sides.items()
        self.sides[source] = side.other
        words = f"frame {frame.number}: both ends of the link have the address {1 if side is Side.T else 3:02}"
        if isinstance(first, bytes):
            end = link_text(first)
            how = "the source address of the link header says who sent a frame"
        else:
            end = "the recording host" if first is Direction.SENT else "the other host"
            how = "the direction says who sent a frame"
        self.ledger.report(Topic.DIRECTION, f"{words}: {how}, and {end} is taken for the {self.named(side).title}")

    def end(self) -> None:
        """The recording has ended."""
        if self.contradictions:
            words = "LAPB frames whose direction and address octet contradict each other"
            advice = "" if self.by_source else "; --side direction has the direction decide"
            self.ledger.report(Topic.DIRECTION, f"{words}: {self.contradictions}{advice}")

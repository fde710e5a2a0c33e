"""Which ends are taken for the DTE and the DCE, and on what that rests."""
from __future__ import annotations

from collections.abc import Iterable
from dataclasses import dataclass

from x25tools_lib.choices import Carrier, SideBy
from x25tools_lib.notes import ends_text
from x25tools_lib.sides import Side

from .frames import Direction
from .lines import Line
from .link_ends import Ends, Source, link_text
from .packets import address_text
from .reading import Reading
from .xot import Xot

DIRECTIONS = {Direction.SENT: "the recording host", Direction.RECEIVED: "the other host"}


@dataclass(frozen=True)
class Opener:
    """The end that opened a link: its name, the side it is taken for, and what it did."""

    name: str
    side: Side
    did: str


def opener_of(ends: Ends) -> Opener | None:
    """The end that opened a link; None where nothing shows it, or the end has no name."""
    if ends.opener is None:
        return None
    did, end = ends.opener
    names = [source_name(source) for source, side in ends.sides.items() if side is end]
    return Opener(names[0], ends.named(end), did) if names else None


def ends_words(reading: Reading, line: Line, basis: str = "") -> str | None:
    """The comment on the ends of a link or of XOT circuits; `basis` takes the place of what they rest on by themselves."""
    if line.carrier is Carrier.XOT:
        names, own = circuits_names(reading.xot), circuits_basis(reading.xot)
    elif line.lapb:
        names, own = link_names(line.lapb.ends), link_basis(line.lapb.ends)
    elif reading.choices.senders:
        return None
    else:
        names = [[name] for name in DIRECTIONS.values()][::-1 if reading.choices.swapped else 1]
        own = swap_words(reading.choices.swapped) or "it recorded the packets"
    return ends_text(names[0], names[1], basis or own) if all(names) else None


def swap_words(is_swapped: bool) -> str:
    return "--swap exchanges the ends" if is_swapped else ""


def sorted_out(ends: Iterable[tuple[str, Side]]) -> list[list[str]]:
    """The names of the DTEs and of the DCEs, each once."""
    found: dict[Side, dict[str, None]] = {side: {} for side in Side}
    for name, side in ends:
        found[side][name] = None
    return [list(found[side]) for side in Side]


def circuits_names(xot: Xot) -> list[list[str]]:
    used = (it for it in xot.circuits if it.rows)
    return sorted_out((address_text(end), side) for it in used for end, side in zip(it.ends, it.sides))


def circuits_basis(xot: Xot) -> str:
    swap = swap_words(xot.sides[0] is Side.N)
    if xot.dte is not None:
        return swap or "--dte names it"
    return f"{swap}, and the DCE opened the connection" if swap else "the DTE opened the connection"


def source_name(source: Source) -> str:
    """The link address of an end, or which host it is."""
    return DIRECTIONS.get(source, "") if isinstance(source, Direction) else link_text(source)


def link_names(ends: Ends) -> list[list[str]]:
    """The names of the ends of a link, where its frames have directions or link addresses."""
    if ends.is_mixed:
        return [[], []]
    used = (it for it in ends.sides.items() if isinstance(it[0], Direction) or it[0] in ends.seen)
    return sorted_out((source_name(source), ends.named(side)) for source, side in used)


def link_basis(ends: Ends) -> str:
    if ends.stations:
        return "an option names it"
    swap = swap_words(ends.swapped)
    if ends.side_by is SideBy.DIRECTION:
        return swap_words(ends.sides[Direction.SENT] is Side.N) or "--side direction has it as the DTE"
    if not ends.by_source:
        return swap or "its commands have the address 01"
    opener = opener_of(ends)
    if opener is None:
        return swap or "it sent the first frame"
    if opener.side is Side.N:
        return f"{swap}, and the DCE {opener.did}" if swap else f"the DCE {opener.did}, and --swap exchanges the ends"
    return f"the DTE {opener.did}"

"""How a capture is to be read."""
from __future__ import annotations

import enum
from dataclasses import dataclass, field

from .sides import Side

XOT_PORT = 1998
# What frames of a link type may hold, by the names of --as.
KINDS = ("ethernet", "sll", "sll2", "ip", "lapb", "lapb-dir", "hdlc", "x25", "x25-dir")
KINDS_TEXT = f"{', '.join(KINDS[:-1])} or {KINDS[-1]}"


class Carrier(enum.Enum):
    """What carries packets; a trace has one carrier."""

    XOT = "xot"
    LAPB = "lapb"
    X25 = "x25"

    __hash__ = object.__hash__


class SideBy(enum.Enum):
    """What decides which side sent a LAPB frame: its address octet, its direction, or the source of its link header."""

    ADDRESS = "address"
    DIRECTION = "direction"
    LINK_ADDRESS = "link-address"


@dataclass
class Choices:
    """How a capture is read. The key of `kinds` is a link type; None means a hex dump and all unknown link types."""

    kinds: dict[int | None, str] = field(default_factory=dict)
    ports: list[int] = field(default_factory=lambda: [XOT_PORT])
    dte: bytes | None = None
    only: Carrier | None = None
    interfaces: frozenset[int] = frozenset()
    senders: dict[int, Side] = field(default_factory=dict)
    # The sides of link addresses that options name.
    stations: dict[bytes, Side] = field(default_factory=dict)
    swapped: bool = False
    # None has the address octet decide, as long as the ends of a link have two.
    side_by: SideBy | None = None
    link_modulus: int | None = None

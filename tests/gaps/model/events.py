"""What a packet shows of a logical channel: findings, calls that begin, come up and end, data, and PAD settings."""
from __future__ import annotations

from dataclasses import dataclass

from model.packets import Side


@dataclass(frozen=True)
class Found:
    """A finding against the side that sent the packet."""

    side: Side
    state: str
    code: str


@dataclass(frozen=True)
class CallOpened:
    """A call that the DTE (`is_outgoing`) or the DCE opened."""

    is_outgoing: bool
    called: str
    calling: str
    is_reverse_charged: bool


@dataclass(frozen=True)
class CallUp:
    """The call of the channel came up."""


@dataclass(frozen=True)
class CallEnded:
    """The call of the channel ended, and how."""

    how: str


@dataclass(frozen=True)
class DataSent:
    """A data packet that counts, and its octets of user data."""

    side: Side
    octets: int


@dataclass(frozen=True)
class Setting:
    """A PAD parameter of a side: refused, said or asked."""

    side: Side
    parameter: int
    word: str
    value: int


@dataclass(frozen=True)
class InitialSettings:
    """All PAD parameters of a side have their first values again."""

    side: Side


Event = Found | CallOpened | CallUp | CallEnded | DataSent | Setting | InitialSettings


def has_finding(events: list[Event]) -> bool:
    """Whether one of the events is a finding."""
    return any(isinstance(event, Found) for event in events)

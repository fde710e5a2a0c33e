"""The two sides of an interface."""
from __future__ import annotations

import enum


class Side(enum.Enum):
    """The DTE or the DCE."""

    T = "T"
    N = "N"

    # An Enum hashes its members and reads their values in Python code, which is slow for each packet.
    __hash__ = object.__hash__

    letter: str
    other: Side

    def __init__(self, letter: str) -> None:
        self.letter = letter

    @property
    def title(self) -> str:
        """DTE or DCE."""
        return TITLES[self.letter]


Side.T.other, Side.N.other = Side.N, Side.T
TITLES = {"T": "DTE", "N": "DCE"}

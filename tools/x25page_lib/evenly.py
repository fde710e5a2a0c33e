"""Some of many values, spread evenly over all of them."""
from __future__ import annotations

from collections.abc import Sequence
from typing import Any


class Evenly:
    """Values of a trace: all of them up to a limit, then each second one, then each fourth one, and so on."""

    def __init__(self, kept: Any, most: int) -> None:
        # The list or the array of the values kept, and how many values there were.
        self.kept, self.most, self.step, self.seen = kept, most, 1, 0

    def add_all(self, values: Sequence[Any]) -> None:
        """Adds the next values."""
        at = -self.seen % self.step
        while at < len(values):
            end = at + self.step * (self.most + 1 - len(self.kept))
            self.kept.extend(values[at:end:self.step])
            if len(self.kept) <= self.most:
                break
            last = end - self.step
            self.kept, self.step = self.kept[::2], self.step * 2
            at = last + self.step - (self.seen + last) % self.step
        self.seen += len(values)

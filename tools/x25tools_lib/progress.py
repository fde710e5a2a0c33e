"""How much of a long input was read, on standard error where that is a terminal."""
from __future__ import annotations

import time
from collections.abc import Callable

# The seconds between two lines.
EVERY = 5
MEBIBYTE = 1 << 20


class Progress:
    """Counts octets, and says after some seconds, and then again and again, how many were read."""

    def __init__(self, say: Callable[[str], object], clock: Callable[[], float] = time.monotonic) -> None:
        self.say, self.clock = say, clock
        self.octets = 0
        self.next = clock() + EVERY

    def add(self, octets: int) -> None:
        """Adds octets that were read."""
        self.octets += octets
        now = self.clock()
        if now >= self.next:
            self.next = now + EVERY
            self.say(f"{self.octets // MEBIBYTE:,} MiB were read")

"""How far a run is: which crate, how many of how many, the minutes so far, and about how many are left."""
from __future__ import annotations

import resource
import time
from collections.abc import Callable, Mapping

# Processor seconds for a line of a crate, and for its start, before this run has proved much; and the program's step, as lines.
SECONDS_A_LINE, START_LINES, LINES_OF_PROGRAM = 0.035, 100, 3_000
# The lines that a run has to prove before its own seconds are taken for those that are left.
TRIED_LINES = 5_000
PROVED = "proved"


def minutes(seconds: float) -> str:
    """A time as people say it: in seconds below two minutes."""
    return f"{seconds:.0f} s" if seconds < 120 else f"{seconds / 60:.0f} min"


def processor_seconds() -> float:
    used = resource.getrusage(resource.RUSAGE_CHILDREN)
    return used.ru_utime + used.ru_stime


class Progress:
    """The crates that are left, with their weights, and what those that were proved took."""

    def __init__(self, say: Callable[[object], None], slots: int) -> None:
        self.say, self.slots = say, slots
        self.began, self.used = time.monotonic(), processor_seconds()
        self.left: dict[str, int] = {}
        self.count, self.begun, self.proved_weight = 0, 0, 0
        self.how: dict[str, int] = {}

    def begin(self, weights: Mapping[str, int]) -> None:
        """Says how many crates are to be built."""
        self.left = {name: START_LINES + lines for name, lines in weights.items()}
        self.count = len(weights)
        if self.count:
            crates = "1 crate" if self.count == 1 else f"{self.count} crates"
            self.say(f"{crates} to build, about {minutes(self.seconds_left())} if all is proved; bin/x25try prints a report in a minute or two")

    def seconds(self) -> float:
        return time.monotonic() - self.began

    def seconds_left(self) -> float:
        """About how many seconds are left, if all that is left has to be proved."""
        used = processor_seconds() - self.used
        a_line = used / self.proved_weight if self.proved_weight > TRIED_LINES else SECONDS_A_LINE
        return sum(self.left.values()) * a_line / self.slots

    def proving(self, name: str) -> None:
        """Says which crate is being proved."""
        self.begun += 1
        self.say(f"proving {name}, {self.begun} of {self.count}, about {minutes(self.seconds_left())} left in all")

    def end(self, name: str, how: str) -> None:
        """Says that a crate is done, and how."""
        weight = self.left.pop(name, 0)
        self.how[how] = self.how.get(how, 0) + 1
        self.begun += 1 if how != PROVED else 0
        self.proved_weight += weight if how == PROVED else 0
        left = f", about {minutes(self.seconds_left())} left" if self.left and how == PROVED else ""
        self.say(f"{self.count - len(self.left)} of {self.count}: {name} {how}, {minutes(self.seconds())} so far{left}")

    def summary(self) -> str:
        """What was done, in a few words."""
        return ", ".join(f"{count} {how}" for how, count in self.how.items()) or "nothing had to be built"

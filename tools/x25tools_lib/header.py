"""The header of a trace: the numbers that options give, and the whole line."""
from __future__ import annotations

from dataclasses import dataclass

SMALLEST_SIZE = 16
LARGEST_SIZE = 4096
LAST_CHANNEL = 4095


@dataclass
class Wishes:
    """The numbers of the header that options give; a number that is None is estimated."""

    modulus: int | None = None
    window: int | None = None
    size: int | None = None
    permanent: int | None = None
    calls: int | None = None
    incoming: int | None = None
    two_way: int | None = None
    outgoing: int | None = None
    join: bool | None = None

    @property
    def one_way(self) -> bool:
        return not self.incoming is self.two_way is self.outgoing is None

    def missing(self) -> list[str]:
        """The options without which the header is an estimate."""
        options = {
            "--mod": self.modulus,
            "--win": self.window,
            "--size": self.size,
            "--pvc": self.permanent,
            "--svc": self.calls or self.outgoing,
        }
        return [option for option, value in options.items() if value is None]


@dataclass
class Header:
    """The numbers of a header."""

    modulus: int
    window: int
    size: int
    permanent: int
    incoming: int
    two_way: int
    outgoing: int
    join: bool
    # The form of the header: 2 has one-way channels, and 3 JOIN and gap rows too.
    form: int

    def line(self) -> str:
        start = f"MOD {self.modulus} WIN {self.window} SIZE {self.size} PVC {self.permanent}"
        if self.form == 1:
            return f"X25 1 {start} SVC {self.outgoing}"
        join = " JOIN" if self.join else ""
        return f"X25 {self.form} {start} IN {self.incoming} TWO {self.two_way} OUT {self.outgoing}{join}"

    def fault(self) -> str | None:
        """What x25scan would refuse in the header, or None."""
        if not 1 <= self.window < self.modulus:
            return f"WIN {self.window} is not 1 to {self.modulus - 1}"
        if not 0 <= self.permanent <= self.incoming <= self.two_way <= self.outgoing:
            return f"PVC {self.permanent}, IN {self.incoming}, TWO {self.two_way}, OUT {self.outgoing} must not fall"
        if not 1 <= self.outgoing <= LAST_CHANNEL:
            return f"the last channel, {self.outgoing}, is not 1 to {LAST_CHANNEL}"
        return None

"""Why there is no output."""
from __future__ import annotations

import enum
from collections.abc import Sequence
from dataclasses import dataclass


class Why(enum.Enum):
    """Why a capture gives no trace."""

    ABSENT = "Absent"
    FOLDER = "Folder"
    UNREADABLE = "Unreadable"
    EMPTY = "Empty"
    COMPRESSED = "Compressed"
    UNKNOWN_FORMAT = "UnknownFormat"
    KIND_MISSING = "KindMissing"
    MIXED = "Mixed"
    NO_PACKET = "NoPacket"
    HEADER = "Header"
    OUTPUT = "Output"


class PageWhy(enum.Enum):
    """Further reasons why there is no page."""

    TRACE = "Trace"
    OUTPUT = "Output"


@dataclass(frozen=True)
class Link:
    """A link of a capture: what carries its packets, by the name of --only, and the number of its Linux device, if it has one."""

    carrier: str
    interface: int | None = None

    @property
    def options(self) -> list[str]:
        """The options that read this link alone."""
        return ["--only", self.carrier, *([] if self.interface is None else ["--interface", str(self.interface)])]

    @property
    def name(self) -> str:
        """A name for its page."""
        return self.carrier + ("" if self.interface is None else f"-{self.interface}")


class Refusal(Exception):
    """There is no output, for a reason that has a name; `links` are those of a capture with several ones."""

    def __init__(self, why: Why | PageWhy, words: str, links: Sequence[Link] = ()) -> None:
        super().__init__(f"{why.value}: {words}")
        self.why, self.words, self.links = why, words, links

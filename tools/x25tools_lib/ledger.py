"""What is reported besides rows: damage, and how much was left out, by reason."""
from __future__ import annotations

import enum
from collections import Counter
from collections.abc import Callable, Iterable

from .notes import Half


class Reason(enum.Enum):
    """What is counted of a capture: the words of the count, whether it is damage, and where."""

    OTHER_BLOCK = ("blocks of the file that hold no frame", False)
    OTHER_INTERFACE = ("frames of interfaces that --interface does not name", False)
    OTHER_PROTOCOL = ("frames of other protocols", False)
    OTHER_PORT = ("TCP segments of other ports", False)
    OTHER_HOST = ("TCP segments of connections without the host of --dte", False)
    OTHER_CARRIER = ("packets that --only does not name", False)
    NO_OCTETS = ("TCP segments without octets", False)
    REPEATED_OCTETS = ("TCP segments of repeated octets", False)
    LINK_FRAME = ("LAPB frames that carry no packet", False)
    REPEATED_FRAME = ("LAPB I frames that repeat one", False)
    UNTAKEN_FRAME = ("LAPB I frames out of sequence", False)
    DEVICE_WORD = ("words of a Linux X.25 device", False)
    PVC_SETUP = ("XOT set-ups of permanent circuits", False)

    BAD_FILE = ("damages of the file", True)
    DROPPED = ("frames that were dropped, as the capture says", True, "missing")
    BAD_LINE = ("lines of the hex dump that cannot be read", True)
    UNKNOWN_LINK = ("frames of an unknown link type", True)
    BAD_HEADER = ("frames whose headers are cut or contradict themselves", True)
    CUT_PACKET = ("packets that were cut off", True)
    NO_SIDE = ("packets of unknown side, which --sender may name", True)
    FRAGMENT = ("IP fragments without the rest of their datagram", True)
    LOST_OCTETS = ("octets of TCP connections", True, "missing")
    PASSED_OCTETS = ("octets that were passed over, up to a segment that begins with an XOT header", True)
    UNSYNCHRONISED = ("TCP segments that were passed over for that", True)
    AFTER_BREAK = ("TCP segments after a break or the end of their connection", True)
    NOT_XOT = ("TCP connections that do not speak XOT", True)
    CUT_XOT = ("XOT packets whose connection ended inside of them", True)
    LINE_PACKET = ("XOT packets that speak of a whole interface", True)
    BAD_FCS = ("frames whose frame check sequence is wrong", True)
    OTHER_ADDRESS = ("LAPB frames with another address than 01 and 03", True)
    LOST_FRAME = ("LAPB I frames that were not recorded", True, "missing")
    LONG_PACKET = ("packets of more than 4,200 octets", True)
    LARGE_TEXT = ("traces of more bytes than x25scan reads", True)
    SECOND_CARRIER = ("packets of another carrier than the first one, which --only may name", True)
    LATE_ROW = ("packets for which no row number was left", True)
    NO_CHANNEL = ("packets of circuits for which no channel was left", True)

    GAP_ROW = ("gap rows, where packets may be missing", False, "in the trace")

    __hash__ = object.__hash__

    def __init__(self, words: str, damage: bool, place: str = "left out") -> None:
        self.words, self.damage, self.place = words, damage, place


class Topic(enum.Enum):
    """What is reported and is not damage."""

    INTERRUPTED = "the end of the reading by a signal"
    UNKNOWN_LINK = "link types that are not known"
    LINK_FRAME = "frames that set up or end a LAPB link"
    DIRECTION = "contradictions of direction and address"
    SAME = "links that were recorded twice"
    BEGINNING = "a recording that begins inside of a restart"
    CONNECTION = "connections that end with their call"
    CHANNEL = "logical channels that change inside of a connection"
    PVC_SETUP = "set-ups of permanent circuits"
    PORT = "ports that look like XOT"
    SIDES = "which end is the DTE"
    ORDER = "files that are not in the order of their times, and recorders whose clocks differ"


Say = Callable[[str], object]


def ignore(words: str) -> None:
    """Shows nothing."""


class Ledger:
    """Counts what is left out or missing, and reports what is wrong: all in the trace, the first few on standard error."""

    # Messages of one topic on standard error: a capture that is read as the wrong kind has one for each frame.
    MOST_SAID = 5

    def __init__(self, say: Say = ignore) -> None:
        self.counts: Counter[Reason] = Counter()
        # Whether something is damaged or missing, of a known number or not.
        self.is_hurt = False
        self.reported: Counter[Topic | Reason] = Counter()
        self.say = say
        self.keep: Say = ignore
        # The file that is read, where there are several.
        self.file = ""
        # What was recorded in one direction only.
        self.halves: list[Half] = []

    def begin_again(self) -> None:
        """Forgets what a first reading counted and reported."""
        self.counts.clear()
        self.reported.clear()
        self.halves.clear()
        self.is_hurt = False
        self.file = ""

    def left_out(self, reason: Reason, many: int = 1) -> None:
        """Counts what is left out."""
        if many:
            self.counts[reason] += many
            self.is_hurt |= reason.damage

    def miss(self, reason: Reason, many: int) -> None:
        """Counts what is missing; a number that is not known is 0."""
        self.counts[reason] += many
        self.is_hurt = True

    def note(self, words: str) -> None:
        """Adds a comment to the trace only."""
        self.keep(words)

    def report(self, topic: Topic | Reason, words: str) -> None:
        """Reports something under a topic."""
        self.keep(words)
        self.reported[topic] += 1
        if self.reported[topic] <= self.MOST_SAID:
            is_named = not self.file or self.file in words.partition(": ")[0]
            self.say(words if is_named else f"{self.file}: {words}")
        elif self.reported[topic] == self.MOST_SAID + 1:
            self.say("more messages like the last one are not shown; a trace has them as comments")

    def damaged(self, reason: Reason, words: str, many: int = 1) -> None:
        """Counts damage, and reports it; a number that is not known is 0."""
        self.miss(reason, many)
        self.report(reason, words)

    def lack(self, halves: Iterable[Half]) -> None:
        """Adds something that was recorded in one direction only."""
        self.halves += halves
        for half in self.halves:
            self.say(half.text)

    @property
    def whole(self) -> bool:
        """Whether surely no packet is missing."""
        return not self.halves and not self.is_hurt

    def lines(self) -> list[str]:
        """The counts, a line each, in the order of the reasons."""
        return [f"{reason.place}: {reason.words}: {self.counts[reason]}" for reason in Reason if self.counts[reason]]

"""Writes the rows and comments of a trace, and keeps them in a file while the header is unknown."""
from __future__ import annotations

import tempfile
from collections.abc import Iterator, Sequence

from x25tools_lib.header import LAST_CHANNEL
from x25tools_lib.notes import MOST_CIRCUITS, Circuit, comment, recorded_line, time_text

from . import xot
from .packets import Missing, Packet

LAST_NUMBER = 999_999_999
# The word of a gap row in place of a side.
GAP = "?"
# The key of what concerns all links.
ALL = "*"


class Rows:
    """Numbers rows: by frame, or one after the other where the frame's number is used or frame numbers are too large.

    A gap row takes the number before that of its frame, whose own row may follow.
    """

    def __init__(self, by_frames: bool, has_comments: bool) -> None:
        self.by_frames, self.has_comments = by_frames, has_comments
        self.number = 0

    def row(self, frame: int, words: str, time: str, circuit: str = "") -> str:
        """The line of a row, after a comment with its time, its frame and the number of its circuit, if it is of one.

        `words` is the text after the number.
        """
        wanted = frame - (words[0] == GAP) if self.by_frames else 0
        self.number = number = wanted if wanted > self.number else self.number + 1
        line = f"{number} {words}"
        return recorded_line(time, frame, circuit) + line if self.has_comments else line


class Spool:
    """A temporary file with a line for each row and comment; memory does not grow with it."""

    MOST_LINES = 1000

    def __init__(self, has_comments: bool, last_number: int = LAST_NUMBER) -> None:
        self.file = tempfile.TemporaryFile("w+", encoding="ascii", newline="\n", buffering=1 << 16)
        self.lines: list[str] = []
        self.rows = self.gaps = 0
        self.has_common_gaps = False
        self.has_comments, self.last_number = has_comments, last_number
        self.number = 0
        # Whether each row of a packet has the number of its frame.
        self.is_exact = True
        # The number of rows replayed, and their first circuits.
        self.replayed = 0
        self.circuits: list[Circuit] = []

    def note(self, words: str) -> None:
        """Keeps a comment."""
        self.lines.append(comment(words))

    def add(self, packet: Packet, circuit: int) -> None:
        """Keeps a row: its circuit, or on a line a number that is not above 0, its time, its frame, and the text after its number."""
        self.rows += 1
        frame, lines = packet.frame, self.lines
        self.number = frame if frame > self.number else self.number + 1
        self.is_exact &= self.number == frame
        time = time_text(packet.time) if self.has_comments else "-"
        lines.append(f"{circuit} {time} {frame} {packet.side.letter} {packet.octets.hex().upper() or '-'}\n")
        if len(lines) > self.MOST_LINES:
            self.write()

    def add_gap(self, missing: Missing, line: int | str = 0) -> None:
        """Keeps a gap row in the same way, of a circuit, of a line, or of all."""
        self.rows += 1
        self.gaps += 1
        self.number = max(missing.frame - 1, self.number + 1)
        circuit = missing.circuit.number if missing.circuit else line
        self.has_common_gaps |= circuit == ALL
        time = time_text(missing.time) if self.has_comments else "-"
        self.lines.append(f"{circuit} {time} {missing.frame} {gap_words(missing.channel)}")

    def write(self) -> None:
        self.file.write("".join(self.lines))
        self.lines.clear()

    @property
    def by_frames(self) -> bool:
        """Whether frame numbers are small enough to number the rows."""
        return self.number <= self.last_number

    def numbers_text(self) -> str:
        """How the rows are numbered, in words that are true of each."""
        if not self.by_frames:
            return "rows are numbered from 1"
        words = "a row has the number of its frame"
        words += "" if self.is_exact else ", or the next free one"
        return words + (", and a gap the one before" if self.gaps else "")

    def replay(
        self, circuits: Sequence[xot.Circuit], first: int = 0, last_channel: int = LAST_CHANNEL, line_key: int = 0,
    ) -> Iterator[str]:
        """The text of the trace after its header, in parts; one part ends with the last of the first rows.

        The rows are those of circuits, and of one line. The others are left out.
        A gap of a channel beyond the last one is written as a gap of all channels.
        """
        self.write()
        self.file.seek(0)
        rows, lines = Rows(self.by_frames, self.has_comments), list[str]()
        own = frozenset((str(line_key), ALL))
        row, channels = rows.row, dict[str, int | None](dict.fromkeys(own))
        for line in self.file:
            if line[0] == "#":
                lines.append(line)
                continue
            which, time, frame, words = line.split(" ", 3)
            circuit = None
            if which not in own and which[0] in "0-":
                self.gaps -= words[0] == GAP
                continue
            if which not in channels:
                circuit = circuits[int(which) - 1]
                channels[which] = circuit.channel
                if circuit.channel is not None:
                    lines.append(comment(circuit.shown_words()))
            if which not in own:
                channel = channels[which]
                if channel is None:
                    self.gaps -= words[0] == GAP
                    continue
                words = on_channel(words, channel)
            elif words[0] == GAP:
                words = within(words, last_channel)
            lines.append(row(int(frame), words, time, "" if which in own else which))
            if circuit:
                self.keep(circuit, rows.number)
            self.replayed += 1
            if len(lines) > self.MOST_LINES or self.replayed == first:
                yield "".join(lines)
                lines.clear()
        yield "".join(lines)

    def keep(self, circuit: xot.Circuit, row: int) -> None:
        """Notes the circuit that begins with a row."""
        if circuit.channel is not None and len(self.circuits) < MOST_CIRCUITS:
            self.circuits.append(Circuit(row, circuit.channel, circuit.shown_words()))

    def close(self) -> None:
        self.file.close()


def on_channel(words: str, channel: int) -> str:
    """The side and the octets of a row with another logical channel; the general format identifier stays."""
    if words[0] == GAP:
        return gap_words(channel)
    return f"{words[:3]}{channel:03X}{words[6:]}" if len(words) > 6 else words


def gap_words(channel: int | None) -> str:
    """The text after the number of a gap row: its channel, or all channels."""
    return f"{GAP} {channel or '*'}\n"


def within(words: str, last_channel: int) -> str:
    """The text of a gap row, which becomes one of all channels where its own is beyond the last one."""
    channel = words[2:-1]
    return words if channel == "*" or int(channel) <= last_channel else gap_words(None)

"""The trace of a capture that is still being written: each row is written with its frame, under a header from options."""
from __future__ import annotations

from collections.abc import Iterable
from typing import TextIO

from x25tools_lib.choices import Carrier
from x25tools_lib.header import Wishes
from x25tools_lib.ledger import Ledger, Reason, Topic
from x25tools_lib.notes import comment, time_text

from .channels import Channels
from .estimate import Estimator, header_of
from .halves import halves_of
from .frames import Dropped, Frame
from .lines import Line
from .packets import Item, Missing, Packet, Type, channel_of
from .reading import Reading
from .spool import LAST_NUMBER, Rows, gap_words, on_channel
from .trace import LARGEST_TEXT
from .xot import Circuit


class Live:
    """A trace being written. Comments and gaps before the first packet are kept back: without a packet there is no trace."""

    def __init__(self, ledger: Ledger, reading: Reading, wishes: Wishes, has_comments: bool) -> None:
        self.ledger, self.reading, self.wishes = ledger, reading, wishes
        # Gaps may come.
        self.header = header_of(wishes, Estimator(), 0, 0, False, True)
        self.channels = Channels(self.header)
        self.rows = Rows(True, has_comments)
        self.line: Line | None = None
        self.out: TextIO | None = None
        self.waiting: list[str | tuple[Line | None, Missing]] = []
        self.size = 0
        reading.xot.on_end = self.release
        ledger.keep = self.note

    def write(self, frames: Iterable[Frame | Dropped], name: str, out: TextIO) -> None:
        """Writes the whole trace as its frames are read."""
        start = comment(f"from {name} by x25trace, as its frames come; a row has the number of its frame")
        for line, packet in self.reading.packets(frames):
            if isinstance(packet, Missing):
                self.miss(line, packet)
                continue
            assert line
            if self.line is None:
                self.begin(line, packet, out, start)
            if line is not self.line:
                self.ledger.left_out(Reason.SECOND_CARRIER)
            else:
                line.sides.add(packet.side)
                if packet.circuit is None and line.beginning.is_open:
                    self.see_beginning(line, packet)
                self.write_row(packet)
        if self.line is None:
            raise self.reading.no_packet()
        self.ledger.lack(halves_of(self.reading, self.line, self.line.sides))
        for half in self.ledger.halves:
            self.put(comment(half.text))
        for words in self.ledger.lines():
            self.put(comment(words))

    def see_beginning(self, line: Line, packet: Packet) -> None:
        """Reads one of the first packets of a line: a gap row is before one that shows that a restart was not whole."""
        words = line.beginning.see(packet)
        if words and self.wishes.join is None:
            self.ledger.report(Topic.BEGINNING, words)
            self.write_gap(line, Missing(packet.frame, packet.time))

    def begin(self, line: Line, packet: Packet, out: TextIO, start: str) -> None:
        """Writes the header, after a comment. On a line a restart shows the beginning, with XOT each connection does."""
        self.line, self.out = line, out
        if self.wishes.join is None:
            octets = packet.octets
            restarts = len(octets) >= 3 and octets[2] == Type.RESTART and not channel_of(octets)
            self.header.join = line.carrier is not Carrier.XOT and not restarts
        else:
            self.header.join = self.wishes.join
        self.put(start)
        self.put(self.header.line() + "\n")
        for waiting in self.waiting:
            if isinstance(waiting, str):
                self.put(waiting)
            else:
                self.write_gap(*waiting)

    def put(self, line: str) -> None:
        """Writes a line."""
        before, self.size = self.size, self.size + len(line)
        if self.out is not None:
            self.out.write(line)
        if before <= LARGEST_TEXT < self.size:
            words = f"frame {self.reading.frames}: the trace has {self.size} bytes, and x25scan reads {LARGEST_TEXT}"
            self.ledger.damaged(Reason.LARGE_TEXT, words)

    def note(self, words: str) -> None:
        """Writes a comment, or keeps it until there is a packet."""
        if self.out is None:
            self.waiting.append(comment(words))
        else:
            self.put(comment(words))

    def miss(self, line: Line | None, missing: Missing) -> None:
        """Writes a gap row, or keeps it until there is a packet; options decide about a gap before the beginning."""
        if missing.is_beginning and self.wishes.join is not None:
            return
        if missing.circuit is missing.channel is None:
            for one in (line,) if line else self.reading.lines.all:
                one.beginning.miss()
        if self.out is None:
            self.waiting.append((line, missing))
        else:
            self.write_gap(line, missing)

    def write_gap(self, line: Line | None, missing: Missing) -> None:
        """Writes a gap row; for a circuit without a row, after the comment on the circuit."""
        circuit, channel = missing.circuit, missing.channel
        if line not in (None, self.line):
            return
        if circuit is not None:
            self.begin_circuit(circuit)
            channel = circuit.channel
            if channel is None:
                return
        elif channel is not None and channel > self.header.outgoing:
            channel = None
        self.ledger.counts[Reason.GAP_ROW] += self.put_row(missing, gap_words(channel))

    def put_row(self, item: Item, words: str) -> bool:
        """Writes the row of a packet or a gap; returns whether a number was left for it."""
        if self.rows.number >= LAST_NUMBER:
            return False
        self.rows.by_frames = item.frame <= LAST_NUMBER
        circuit = str(item.circuit.number) if item.circuit else ""
        self.put(self.rows.row(item.frame, words, time_text(item.time), circuit))
        return True

    def write_row(self, packet: Packet) -> None:
        """Writes the row of a packet."""
        circuit = packet.circuit
        words = f"{packet.side.letter} {packet.octets.hex().upper() or '-'}\n"
        if circuit is not None:
            self.begin_circuit(circuit)
            circuit.rows += 1
            if circuit.channel is None:
                self.ledger.left_out(Reason.NO_CHANNEL)
                return
            words = on_channel(words, circuit.channel)
        if not self.put_row(packet, words):
            self.ledger.left_out(Reason.LATE_ROW)

    def begin_circuit(self, circuit: Circuit) -> None:
        """Gives a circuit its channel before its first row, and writes the comments on it."""
        if circuit.begun:
            return
        circuit.begun = True
        if self.channels.give(circuit):
            self.put(comment(circuit.shown_words()))
        else:
            words = f"frame {circuit.frame}: connection {circuit.number} gets no channel"
            self.ledger.damaged(Reason.NO_CHANNEL, words, 0)
        if self.rows.has_comments:
            self.put(circuit.shown_line())

    def release(self, circuit: Circuit) -> None:
        """Ends the connection of a circuit: its channel may be used again if it is surely free."""
        if circuit.channel is not None and circuit.is_free:
            self.channels.release(circuit.channel)

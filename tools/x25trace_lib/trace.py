"""The trace of a capture: its packets are spooled and seen, then the header, the rows and the counts are written."""
from __future__ import annotations

import tempfile
from collections.abc import Iterable, Iterator, Sequence
from functools import cached_property, partial
from itertools import chain
from typing import IO

from x25tools_lib import notes
from x25tools_lib.choices import Carrier
from x25tools_lib.header import LAST_CHANNEL, Header, Wishes
from x25tools_lib.ledger import Ledger, Reason, Topic
from x25tools_lib.notes import Head, comment
from x25tools_lib.refusals import Refusal, Why
from x25tools_lib.streams import CHUNK

from .channels import assign, in_order
from .estimate import estimates, header_of, seen_of
from .evidence import Evidence, largest, ranked_first
from .frames import Dropped, Frame
from .halves import halves_of
from .lines import Line, preferred
from .packets import Item, Missing, Packet, channel_of
from .ranking import MOST_ROWS, NO_SCANNER, Ranker, Tried
from .reading import Reading
from .sides_tried import tried_both
from .spool import ALL, Spool
from .taken import Opener, ends_words, opener_of
from .window import Window
from .xot import Circuit

LARGEST_TEXT = 1 << 30


def several_words(lines: Sequence[Line]) -> str:
    """The refusal of a capture with several links, with the options for each."""
    if all(line.device is None for line in lines):
        words = " and ".join(line.words for line in lines)
        return f"{words}; a trace is of one interface: --only says which"
    each = "; ".join(f"{line.words}: {line.options}" for line in lines)
    return f"the capture has {len(lines)} links, and a trace is of one interface: {each}"


class Trace:
    """Everything gathered from a capture until its trace can be written."""

    def __init__(
        self, ledger: Ledger, reading: Reading, wishes: Wishes, has_comments: bool, ranker: Ranker = Ranker(),
    ) -> None:
        self.ledger, self.reading, self.wishes, self.ranker = ledger, reading, wishes, ranker
        self.spool, self.window = Spool(has_comments), Window()
        # On what the sides rest, where that is not what the reading itself knows, and what speaks for the other ones.
        self.basis = self.doubt = ""
        self.lines = reading.lines
        self.is_assigned = False
        reading.xot.on_end = self.forget
        ledger.keep = self.spool.note

    def gather(self, frames: Iterable[Frame | Dropped]) -> None:
        """Reads all packets of the frames, and the gaps between them."""
        window = self.window
        for line, item in self.reading.packets(frames):
            if line and line.carrier is Carrier.XOT:
                if window.rows:
                    self.settle(0)
                self.take_circuit(line, item)
                continue
            if not window.rows:
                self.ledger.keep = window.note
            window.add(line, item)
            if window.is_full:
                self.settle(window.MOST)
        self.settle(0)

    def settle(self, most: int) -> None:
        """Keeps what comes before the last packets and gaps of links, of which so many wait for late ones."""
        keep, self.ledger.keep = self.ledger.keep, self.spool.note
        for entry in self.window.first(most):
            if isinstance(entry, str):
                self.spool.note(entry)
            elif isinstance(entry[1], Missing):
                self.miss(entry[0], entry[1])
            else:
                self.take(entry[0], entry[1])
        self.ledger.keep = keep if most else self.spool.note

    def take(self, line: Line | None, packet: Packet) -> None:
        """Keeps a packet of a link."""
        assert line
        octets = packet.octets
        line.packets += 1
        if line.beginning.is_open:
            self.begin(line, packet)
        line.sides.add(packet.side)
        key = channel_of(octets) if len(octets) >= 2 else 0
        line.estimator.see(key, False, packet.side, octets, True)
        if self.lines.pairs:
            self.lines.see(line, octets)
        self.spool.add(packet, -line.number)

    def take_circuit(self, line: Line, item: Item) -> None:
        """Keeps a packet or a gap of an XOT circuit."""
        if isinstance(item, Missing):
            self.miss(line, item)
            return
        circuit = item.circuit
        assert circuit
        line.packets += 1
        line.estimator.see(circuit.number, circuit.from_opening, item.side, item.octets, False)
        self.spool.add(item, circuit.number)
        circuit.rows += 1
        circuit.last_row = self.spool.rows
        if circuit.rows == 1:
            circuit.first_row = circuit.last_row

    def forget(self, circuit: Circuit) -> None:
        """Removes a circuit: it has no more packets."""
        for line in self.lines.all:
            line.estimator.forget(circuit)

    def begin(self, line: Line, packet: Packet) -> None:
        """Reads one of the first packets of a line."""
        words = line.beginning.see(packet)
        if words and self.wishes.join is None:
            self.ledger.report(Topic.BEGINNING, words)

    def miss(self, line: Line | None, missing: Missing) -> None:
        """Adds a gap, of one link or of all; options decide about a gap before the beginning."""
        if missing.is_beginning and self.wishes.join is not None:
            return
        for one in (line,) if line else self.lines.all:
            if missing.circuit is missing.channel is None:
                one.beginning.miss()
            one.estimator.miss(missing)
            one.gaps += 1
        self.spool.add_gap(missing, -line.number if line else ALL)

    @cached_property
    def line(self) -> Line:
        """The link whose packets are the rows. Raises Refusal where there is none, or more than one."""
        lines = self.lines.used()
        if not lines:
            raise self.reading.no_packet()
        if parts := self.reading.parts:
            numbers = " and ".join(map(str, parts))
            raise Refusal(Why.MIXED, f"the interfaces {numbers} have a link each: --interface says which one is read")
        for line in lines:
            if line.lapb and (words := line.lapb.ends.absent()):
                raise Refusal(Why.NO_PACKET, words)
        if len(lines) == 1:
            return lines[0]
        if self.lines.are_same(lines):
            line = preferred(lines)
            others = ", ".join(f"{other.place} ({other.options})" for other in lines if other is not line)
            self.ledger.report(Topic.SAME, f"{line.words} are read; the same ones were recorded in {others}")
            return line
        raise Refusal(Why.MIXED, several_words(lines), [line.link for line in lines])

    @property
    def used(self) -> list[Circuit]:
        """The circuits with a packet."""
        return [circuit for circuit in self.reading.xot.circuits if circuit.rows]

    def header(self, line: Line) -> Header:
        """The header of the rows of a link; XOT circuits get their channels by it."""
        has_gaps, estimator = line.gaps > 0 or self.spool.has_common_gaps, line.estimator
        if line.carrier is not Carrier.XOT:
            join = line.beginning.is_joined
            return header_of(self.wishes, estimator, estimator.permanent, estimator.highest, join, has_gaps)
        used = self.used
        permanent = sum(circuit.permanent for circuit in used)
        first = permanent if self.wishes.permanent is None else self.wishes.permanent
        highest = min(first + len(used) - permanent, LAST_CHANNEL)
        header = header_of(self.wishes, estimator, permanent, highest, False, has_gaps)
        if not self.is_assigned:
            self.is_assigned = True
            assign(used, header, self.ledger)
        return header

    @property
    def is_guess(self) -> bool:
        """Whether the DTE of the link is a guess, as far as no option says it."""
        lapb = self.line.lapb
        return not lapb or lapb.ends.is_guess

    def other_sides(self) -> tuple[Tried, Tried] | None:
        """The best headers with these sides and with the sides exchanged, where a reset or a clear reports an error."""
        line = self.line
        if not line.estimator.has_reactions:
            return None
        header, kept = self.header(line), (self.spool.gaps, self.spool.circuits)
        rows = self.spool.replay(self.reading.xot.circuits, MOST_ROWS, header.outgoing, -line.number)
        seen = seen_of(self.wishes, header, line.estimator)
        numbers = {"MOD": header.modulus, "WIN": header.window, "SIZE": header.size}
        fixed = {name: value for name, value in numbers.items() if name not in seen}
        found = tried_both(self.ranker, header, fixed, self.beginning_of(rows))
        self.spool.gaps, self.spool.circuits = kept[0], []
        self.spool.replayed = 0
        return found

    @property
    def opener(self) -> Opener | None:
        """The end that opened the link, where its sides are a guess."""
        return opener_of(self.line.lapb.ends) if self.line.lapb and self.is_guess else None

    def beginning_of(self, rows: Iterator[str]) -> Iterator[str]:
        """The parts with the rows that are tried."""
        for part in rows:
            yield part
            if self.spool.replayed >= MOST_ROWS:
                return

    def head(self, name: str, line: Line, header: Header, evidence: Evidence) -> Head:
        """What the trace says before its rows."""
        header.window = evidence.values.get("WIN", header.window)
        header.size = evidence.values.get("SIZE", header.size)
        head = Head(header.line(), estimates=estimates(self.wishes, header, evidence))
        head.comments.append(f"from {name} by x25trace, {self.reading.frames} frames; {self.spool.numbers_text()}")
        if head.estimates:
            head.comments.append(notes.estimates_text(head.estimates))
        for words in filter(None, (*evidence.sentences(), self.doubt)):
            self.ledger.say(words)
            head.comments.append(words)
        if ends := ends_words(self.reading, line, self.basis):
            head.comments.append(ends)
        head.comments += self.doubts(line, header)
        head.halves = halves_of(self.reading, line, line.sides)
        head.comments += [it.text for it in head.halves]
        self.ledger.lack(head.halves)
        return head

    def evidence(self, line: Line, header: Header, rows: Iterator[str], beginning: IO[str]) -> Evidence:
        """The basis of the window and the packet size, where data shows them and no option gives them.

        The text of the rows that are tried is written to a file, which is then at its beginning.
        """
        seen = seen_of(self.wishes, header, line.estimator)
        if not seen or self.ranker.program is None:
            return largest(seen, self.ranker.why)
        place = beginning.write(header.line() + "\n")
        for part in rows:
            beginning.write(part)
            if self.spool.replayed >= MOST_ROWS:
                break
        ranking = self.ranker.ranked(beginning)
        beginning.seek(place)
        if not ranking:
            return largest(seen, NO_SCANNER)
        return ranked_first(ranking, header, seen, self.spool.rows <= MOST_ROWS, line.estimator.sizes)

    def doubts(self, line: Line, header: Header) -> Iterator[str]:
        """Sentences on doubts about the header."""
        moduli = line.estimator.moduli
        strange = sum(moduli.values()) - moduli[header.modulus]
        if strange:
            yield f"{strange} packets are not of modulo {header.modulus}"
        if not self.spool.by_frames:
            yield "the frames are too many to number the rows by them, which count from 1"

    def parts(self, head: Head, rows: Iterable[str]) -> Iterator[str]:
        """The text of the trace, in parts."""
        yield from map(comment, head.comments)
        yield head.header + "\n"
        if self.spool.has_comments:
            yield from (circuit.shown_line() for circuit in in_order(self.used))
        yield from rows
        self.ledger.counts[Reason.GAP_ROW] = self.spool.gaps
        yield from map(comment, self.ledger.lines())

    def write(self, name: str, out: IO[str]) -> Head:
        """Writes the trace; returns what it has besides rows."""
        line, size = self.line, 0
        header = self.header(line)
        rows = self.spool.replay(self.reading.xot.circuits, MOST_ROWS, header.outgoing, -line.number)
        with tempfile.TemporaryFile("w+", encoding="ascii", newline="\n") as beginning:
            head = self.head(name, line, header, self.evidence(line, header, rows, beginning))
            for part in self.parts(head, chain(iter(partial(beginning.read, CHUNK), ""), rows)):
                size += len(part)
                out.write(part)
        if size > LARGEST_TEXT:
            words = f"the trace has {size} bytes, and x25scan reads {LARGEST_TEXT}: split the capture"
            self.ledger.damaged(Reason.LARGE_TEXT, words)
        head.circuits = self.spool.circuits
        return head

"""TCP connections: the octets of both directions in order, each once, and the gaps between them.

What moves, in one direction of a connection:

    delivered           next        held
    ....................|   missing |#####|   |###|

A segment waits while octets before it are missing, and also while it acknowledges octets of the other direction that
were not delivered yet: its sender had them, so what it sends may answer them. Missing octets are given up once the
other side has acknowledged them and more segments wait than a recorder puts out of order.

A place is a number without a bound, and its sequence number the rest of a division by 2^32: a segment begins at the place
with its number that is nearest to the next one. A FIN has the place after the last octet. Of a place that several segments
have, the copy that was recorded first counts: held pieces do not overlap.
"""
from __future__ import annotations

import bisect
from dataclasses import dataclass
from operator import attrgetter

from x25tools_lib.ledger import Ledger, Reason

from .internet import FIN, RST, SYN, Segment

CIRCLE = 1 << 32
HALF = 1 << 31
# Flags of segments that begin or end a direction.
ENDS = SYN | FIN | RST
# The most octets that wait, including a cost for each segment, of one connection and of all.
SEGMENT_COST = 512
MOST_OF_ONE = 1 << 20
MOST_OF_ALL = 1 << 26
# How many segments wait for octets that were acknowledged, and, where only one direction was recorded, for octets of
# which nothing is known.
PATIENCE = 8
PATIENCE_ONE_WAY = 64
# Why octets are missing; gaps in a direction that was not recorded at all are not reported one by one.
NOT_RECORDED, CUT_OFF, UNSAID = "before it were not recorded", "were cut off", ""
# An acknowledgement further ahead than this is damaged.
FARTHEST = 1 << 24


def ahead(number: int, other: int) -> int:
    """How far a sequence number is ahead of another one, on the circle of 2^32."""
    return (number - other + HALF) % CIRCLE - HALF


@dataclass(slots=True)
class Chunk:
    """Octets of one direction that follow those delivered before; the frame is the one that held them."""

    index: int
    frame: int
    octets: bytes
    time: int | None


@dataclass(slots=True)
class Gap:
    """Missing octets of one direction, and the frame that shows it."""

    index: int
    frame: int
    octets: int
    how: str
    time: int | None = None


Event = Chunk | Gap


@dataclass(slots=True)
class Piece:
    """What a segment has from one place up to another: octets, perhaps some that were cut off, and perhaps a FIN."""

    at: int
    until: int
    octets: bytes
    is_end: bool
    acknowledged: int | None
    frame: int
    time: int | None

    @property
    def cut_off(self) -> int:
        """How many octets at its end were cut off."""
        return self.until - self.at - len(self.octets) - self.is_end

    def part(self, begin: int, until: int) -> Piece:
        """The part between two of its places; the FIN goes with the last part."""
        octets = self.octets[begin - self.at:until - self.at]
        return Piece(begin, until, octets, self.is_end and until == self.until, self.acknowledged, self.frame, self.time)


class Stream:
    """One direction: the next place, the number that was acknowledged of it, and the pieces that wait."""

    __slots__ = ("first", "next", "acknowledged", "held", "ended")

    def __init__(self) -> None:
        self.first: int | None = None
        self.next: int | None = None
        self.acknowledged: int | None = None
        self.held: list[Piece] = []
        self.ended = False

    @property
    def following(self) -> int:
        """The next place, of a stream whose beginning is known."""
        assert self.next is not None
        return self.next

    @property
    def number(self) -> int | None:
        """The next sequence number."""
        return None if self.next is None else self.next % CIRCLE

    def piece(self, segment: Segment) -> Piece:
        """What a segment has, at its places."""
        at, is_end = self.following + ahead(segment.sequence, self.following), bool(segment.flags & FIN)
        until = at + len(segment.payload) + segment.missing + is_end
        return Piece(at, until, segment.payload, is_end, segment.acknowledged, segment.frame, segment.time)

    def hold(self, piece: Piece) -> None:
        """Keeps a piece in the order of the places."""
        bisect.insort(self.held, piece, key=attrgetter("at"))

    def parts(self, piece: Piece) -> list[Piece]:
        """The parts of a piece that were not delivered and that no held one has, in order."""
        begin, parts = max(piece.at, self.following), list[Piece]()
        at = bisect.bisect_right(self.held, begin, key=attrgetter("at"))
        for held in self.held[max(at - 1, 0):]:
            if held.at >= piece.until:
                break
            if held.at > begin:
                parts.append(piece.part(begin, held.at))
            begin = max(begin, held.until)
        if begin < piece.until:
            parts.append(piece.part(begin, piece.until))
        return parts


class Budget:
    """The octets that wait in all connections, including a cost for each segment."""

    def __init__(self) -> None:
        self.used = 0


class Connection:
    """Two ends and the stream from each: index 0 is the end that opened the connection, as far as that is known."""

    def __init__(self, ledger: Ledger, budget: Budget, ends: tuple[bytes, bytes]) -> None:
        self.ledger, self.budget, self.ends = ledger, budget, ends
        self.streams = (Stream(), Stream())
        self.cost = 0
        self.leaving = [False, False]
        self.over = False

    def begin(self, index: int, segment: Segment) -> None:
        """Reads the sequence number of an opening segment."""
        stream = self.streams[index]
        if stream.next is None:
            stream.first = segment.sequence
            stream.next = segment.sequence + 1
        if segment.acknowledged is not None and self.streams[1 - index].next is None:
            self.streams[1 - index].next = segment.acknowledged
        segment.sequence = (segment.sequence + 1) % CIRCLE

    def is_late(self, index: int) -> bool:
        """Whether the opening segment of an end was not recorded before what acknowledges it."""
        return self.streams[index].first is None and self.streams[index].next is not None

    def was_seen(self, index: int) -> bool:
        """Whether a segment of an end was recorded: one that opened its direction, or acknowledged the other direction."""
        return self.streams[index].first is not None or self.streams[1 - index].acknowledged is not None

    def takes(self, index: int, segment: Segment) -> bool:
        """The fast path: accepts a segment whose octets follow all that both sides sent; others go to `feed`."""
        stream, other, payload = self.streams[index], self.streams[1 - index], segment.payload
        if segment.acknowledged is None or segment.acknowledged != other.number:
            return False
        if segment.sequence != stream.number or not payload:
            return False
        if self.cost or segment.flags & ENDS or segment.missing:
            return False
        other.acknowledged = segment.acknowledged
        stream.next = stream.following + len(payload)
        return True

    def feed(self, index: int, segment: Segment) -> list[Event]:
        """The chunks and gaps that a segment completes, in order."""
        stream, events, payload = self.streams[index], list[Event](), segment.payload
        if segment.flags & SYN:
            self.begin(index, segment)
        self.acknowledge(1 - index, segment, events)
        if segment.flags & FIN:
            self.leaving[index] = True
        elif not payload and not segment.missing:
            self.ledger.left_out(Reason.NO_OCTETS)
            self.judge(events)
            return events
        if stream.next is None:
            if stream.acknowledged is None:
                self.miss_opening(index, segment, events)
            elif (many := ahead(segment.sequence, stream.acknowledged)) > 0:
                events.append(Gap(index, segment.frame, many, NOT_RECORDED, segment.time))
            stream.next = segment.sequence
        piece = stream.piece(segment)
        if not self.cost and piece.at == stream.next and self.answers(index, piece):
            self.deliver(index, piece, events)
        else:
            self.keep(stream, piece)
            self.pump(events)
            self.judge(events)
        return events

    def acknowledge(self, index: int, segment: Segment, events: list[Event]) -> None:
        """Reads an acknowledgement. In a direction that was not recorded, what it acknowledges is a gap at once."""
        if segment.acknowledged is None:
            return
        stream = self.streams[index]
        if stream.next is None and self.opens(1 - index, segment):
            stream.next = segment.acknowledged
        elif stream.next is None and stream.acknowledged is not None:
            many = ahead(segment.acknowledged, stream.acknowledged)
            # A FIN takes a sequence number, which the other side may acknowledge after its own FIN.
            if many > self.leaving[1 - index]:
                events.append(Gap(index, segment.frame, many, UNSAID, segment.time))
        elif stream.next is None:
            self.miss_opening(index, segment, events)
        stream.acknowledged = segment.acknowledged

    def opens(self, index: int, segment: Segment) -> bool:
        """Whether a segment is the first of the opener after its SYN: the other end has sent no octet that it acknowledges."""
        first = self.streams[index].first
        return index == 0 and first is not None and segment.sequence == (first + 1) % CIRCLE

    def miss_opening(self, index: int, segment: Segment, events: list[Event]) -> None:
        """Adds the gap of a direction whose opening is missing while the other side's was recorded; octets may be missing too."""
        if self.streams[1 - index].first is not None:
            events.append(Gap(index, segment.frame, 0, UNSAID, segment.time))

    def keep(self, stream: Stream, piece: Piece) -> None:
        """Holds what a piece has and no held one, until it can be delivered."""
        parts = stream.parts(piece)
        if not parts:
            self.ledger.left_out(Reason.REPEATED_OCTETS)
        for part in parts:
            stream.hold(part)
            self.charge(len(part.octets) + SEGMENT_COST)

    def take_back(self, stream: Stream) -> Piece:
        """Removes and returns the first piece that waits."""
        piece = stream.held.pop(0)
        self.charge(-len(piece.octets) - SEGMENT_COST)
        return piece

    def charge(self, cost: int) -> None:
        """Adds to the octets that wait, here and in all connections."""
        self.cost += cost
        self.budget.used += cost

    def answers(self, index: int, piece: Piece) -> bool:
        """Whether all that a piece acknowledges was delivered."""
        other = self.streams[1 - index].next
        if other is None or piece.acknowledged is None:
            return True
        beyond = (piece.acknowledged - other) % CIRCLE
        return beyond == 0 or beyond > FARTHEST

    def pump(self, events: list[Event]) -> None:
        """Delivers the pieces that need not wait any longer, the lower frame first."""
        while True:
            ready = []
            for index, stream in enumerate(self.streams):
                head = next(iter(stream.held), None)
                if head and head.at <= stream.following and self.answers(index, head):
                    ready.append((head.frame, index))
            if not ready:
                return
            _, index = min(ready)
            self.deliver(index, self.take_back(self.streams[index]), events)

    def deliver(self, index: int, piece: Piece, events: list[Event]) -> None:
        """Delivers a piece, whose places are the next ones."""
        stream = self.streams[index]
        if piece.octets:
            events.append(Chunk(index, piece.frame, piece.octets, piece.time))
        stream.next = piece.until
        if piece.cut_off:
            events.append(Gap(index, piece.frame, piece.cut_off, CUT_OFF, piece.time))
        stream.ended |= piece.is_end
        self.over = all(one.ended for one in self.streams)

    def give_up(self) -> None:
        """Counts the segments that wait as left out."""
        for stream in self.streams:
            self.ledger.left_out(Reason.AFTER_BREAK, len(stream.held))
            stream.held.clear()
        self.budget.used -= self.cost
        self.cost = 0

    def judge(self, events: list[Event]) -> None:
        """Gives up octets that will not come, while pieces wait for them."""
        # Both ends sent FIN and had acknowledged all octets; or one did, and nothing of the other one was recorded.
        ended = all(self.leaving) and self.acknowledged_all()
        ended |= any(self.leaving[index] and not self.was_seen(1 - index) for index in (0, 1))
        while self.cost and (ended or self.is_overdue()):
            self.lose(events)

    def acknowledged_all(self) -> bool:
        """Whether the last octet that waits in each direction was acknowledged."""
        return all(
            not stream.held
            or stream.acknowledged is not None
            and ahead(stream.held[-1].at + len(stream.held[-1].octets), stream.acknowledged) <= 0
            for stream in self.streams
        )

    def is_overdue(self) -> bool:
        """Whether too much waits, or a piece waits for octets that surely no later segment has."""
        if self.cost > MOST_OF_ONE or self.budget.used > MOST_OF_ALL:
            return True
        many = sum(len(stream.held) for stream in self.streams)
        index, _, _ = self.missing()
        stream = self.streams[index]
        if stream.acknowledged is None:
            return many > PATIENCE_ONE_WAY
        return many > PATIENCE and ahead(stream.acknowledged, stream.following) > 0

    def missing(self) -> tuple[int, int, Piece]:
        """The first octets that a piece waits for: their direction, their number, and the piece."""
        _, index = min((stream.held[0].frame, index) for index, stream in enumerate(self.streams) if stream.held)
        head, other = self.streams[index].held[0], self.streams[1 - index]
        many = head.at - self.streams[index].following
        if many > 0:
            return index, many, head
        many = ahead(head.acknowledged or 0, other.following)
        if other.held:
            many = min(many, other.held[0].at - other.following)
        return 1 - index, many, head

    def lose(self, events: list[Event]) -> None:
        """Gives up the first octets that a piece waits for."""
        index, many, head = self.missing()
        stream = self.streams[index]
        if many > 0:
            how = UNSAID if index == 1 and not self.was_seen(1) else NOT_RECORDED
            events.append(Gap(index, head.frame, many, how, head.time))
            stream.next = stream.following + many
        else:
            # Each direction acknowledges what comes next in the other one.
            self.deliver(index, self.take_back(stream), events)
        self.pump(events)

    def flush(self) -> list[Event]:
        """Delivers the pieces that still wait, with their gaps, after the last segment."""
        events: list[Event] = []
        while self.cost:
            self.lose(events)
        return events

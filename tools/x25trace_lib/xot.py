"""XOT: packets of X.25 in TCP connections, one connection a circuit."""
from __future__ import annotations

import struct
from collections import deque
from collections.abc import Callable, Iterable, Iterator
from dataclasses import dataclass, field

from x25tools_lib.ledger import Ledger, Reason, Topic
from x25tools_lib.notes import circuit_line, circuit_text, cut_off_text
from x25tools_lib.sides import Side

from .internet import RST, SYN, Segment, port_of
from .packets import LONGEST, Item, Missing, Packet, Type, address_text, channel_of, modulus_of
from .tcp import CIRCLE, Budget, Chunk, Connection, Event, Gap, ahead

HEAD = struct.Struct(">HH")
PVC_SETUP = 0xF5
MOST_OVER = 1000
# Of so many hosts a refusal knows.
MOST_HOSTS = 64
LINE_TYPES = frozenset((Type.RESTART, Type.RESTART_CONFIRM, Type.DIAGNOSTIC, Type.REGISTRATION, Type.REGISTERED))
CALL_TYPES = frozenset((Type.CALL, Type.CLEAR, Type.CLEAR_CONFIRM))


@dataclass(slots=True)
class Circuit:
    """One connection of the trace. The first end is the one that opened it."""

    number: int
    ends: tuple[bytes, bytes]
    sides: tuple[Side, Side]
    frame: int
    from_opening: bool
    permanent: bool = False
    modulus: int | None = None
    # The first and the last logical channel of the packets from each end: each end may have one of its own.
    line_channels: list[int | None] = field(default_factory=lambda: [None, None])
    last_channels: list[int | None] = field(default_factory=lambda: [None, None])
    caller: Side | None = None
    called: bool = False
    cleared_by: Side | None = None
    confirmed: bool = False
    spoiled: bool = False
    # Whether a channel was requested while frames were read.
    begun: bool = False
    rows: int = 0
    first_row: int = 0
    last_row: int = 0
    channel: int | None = None
    again: bool = False
    rests: list[bytes] = field(default_factory=lambda: [b"", b""])
    synchronised: list[bool] = field(default_factory=lambda: [True, True])
    has_gaps: bool = False
    # The side of its last packet, whether both sides have packets, and from which end octets surely are missing.
    side: Side | None = None
    both: bool = False
    lacks: list[bool] = field(default_factory=lambda: [False, False])
    # The gap before its next packet, or None.
    missing: Missing | None = None
    # Whether its packets are left out from here on; whether it broke; whether its connection ended.
    left: bool = False
    broken: bool = False
    ended: bool = False
    # The frame in which the connection ended without a clear of its call.
    cut_off: int | None = None

    def who(self) -> str:
        """The two ends with their sides."""
        ends = [f"{address_text(end)} port {port_of(end)} ({side.name})" for end, side in zip(self.ends, self.sides)]
        return " and ".join(ends)

    def shown_words(self) -> str:
        """The comment before its first row."""
        again = ", which another one had before" if self.again else ""
        over = "" if self.cut_off is None else f"; {cut_off_text(self.cut_off)}"
        return circuit_text(self.number, self.channel, f"{again}: {self.who()}{self.line_words()}{over}")

    def shown_line(self) -> str:
        """The comment on it that programs read."""
        ends = sorted(zip(self.sides, self.ends), key=lambda end: end[0] is Side.N)
        return circuit_line(self.number, self.channel, [(address_text(end), port_of(end)) for _, end in ends])

    def line_words(self) -> str:
        """Its logical channels in the capture."""
        known = {side.title: channel for side, channel in zip(self.sides, self.line_channels) if channel is not None}
        if len(set(known.values())) < 2:
            return "".join(f", logical channel {channel} in the capture" for channel in set(known.values()))
        channels = " and ".join(f"{channel} of the {title}" for title, channel in known.items())
        return f", logical channels {channels} in the capture"

    @property
    def is_free(self) -> bool:
        """Whether its channel is surely in p1: its call was cleared and that was confirmed, without an error after it."""
        return self.confirmed and not self.spoiled and not self.permanent

    def see(self, side: Side) -> None:
        """Reads a packet whose side differs from that of the last one."""
        self.both = self.side is not None
        self.side = side

    def miss(self, frame: int, time: int | None) -> None:
        """Notes a gap here; after a confirmed clear a missing packet may have left p1."""
        self.missing = Missing(frame, time, self)
        self.spoiled |= self.confirmed

    def taken_missing(self) -> Iterator[Missing]:
        """Removes and returns the gap before its next packet."""
        if self.missing:
            yield self.missing
            self.missing = None

    @property
    def is_half(self) -> bool:
        """Whether it has packets of one side only, and octets of the other side are missing."""
        return self.side is not None and not self.both and self.lacks[self.sides.index(self.side.other)]

    @property
    def is_cut_off(self) -> bool:
        """Whether its call was not cleared."""
        return self.called and self.cleared_by is None and not self.permanent

    def end_words(self) -> str | None:
        """The message where the connection ends without a confirmed clear, or None."""
        if self.is_half:
            return None
        if self.permanent:
            return "the connection of a permanent circuit ends"
        if self.is_cut_off:
            return "it ends without a clear"
        if self.called and self.cleared_by and not self.confirmed:
            return f"it ends before the clear of {self.cleared_by.name} was confirmed"
        return None

    def step(self, side: Side, kind: int, length: int) -> None:
        """Follows the call by the packets that open and end it."""
        # Packets of the DTE after the clear, and a clear without a cause, are errors that leave p1 or do not reach it.
        self.spoiled |= self.confirmed and side is Side.T and kind != Type.CALL or kind == Type.CLEAR and length < 4
        if kind == Type.CALL:
            self.called, self.cleared_by, self.confirmed = True, None, False
            self.caller = self.caller or side
        elif kind == Type.CLEAR:
            self.confirmed = self.confirmed or self.cleared_by not in (None, side)
            self.cleared_by = self.cleared_by or side
        elif kind == Type.CLEAR_CONFIRM and self.cleared_by not in (None, side):
            self.confirmed = True


def begins(octets: bytes, circuit: Circuit, index: int) -> bool | None:
    """Whether a segment from an end begins with an XOT header and a packet of a circuit; None where more octets are needed."""
    if not b"\0\0".startswith(octets[:2]):
        return False
    if len(octets) < HEAD.size + 3:
        return None
    packet = octets[HEAD.size:]
    if modulus_of(packet) is None or circuit.modulus not in (None, modulus_of(packet)):
        return False
    first, last = circuit.line_channels[index], circuit.last_channels[index]
    if first is not None and channel_of(packet) not in (first, last):
        return False
    at = 0
    while len(octets) - at >= HEAD.size:
        version, length = HEAD.unpack_from(octets, at)
        if version or not 3 <= length <= LONGEST:
            return False
        at += HEAD.size + length
    return True


# A connection, which of its ends a segment is from, and its circuit.
Entry = tuple[Connection, int, Circuit]


class Xot:
    """All connections of a capture, and the packets that they carry."""

    def __init__(self, ledger: Ledger, ports: Iterable[int], dte: bytes | None, swapped: bool) -> None:
        self.ledger, self.ports, self.dte = ledger, frozenset(ports), dte
        self.sides = (Side.N, Side.T) if swapped else (Side.T, Side.N)
        # Hosts of connections without the host of --dte.
        self.hosts: set[bytes] = set()
        self.budget = Budget()
        self.circuits: list[Circuit] = []
        self.table: dict[tuple[bytes, bytes], Entry] = {}
        # Connections that have ended stay in the table for a while: their last segments may be repeated.
        self.over: deque[Connection] = deque()
        # The circuits of connections that ended with the last segment; on_end is called for them with the next one: by
        # then their packets were read.
        self.ending: list[Circuit] = []
        self.on_end: Callable[[Circuit], object] | None = None

    def take(self, segment: Segment) -> Iterable[Item]:
        """The packets that a segment completes; the caller reads them before the next segment."""
        while self.ending:
            circuit = self.ending.pop()
            if self.on_end:
                self.on_end(circuit)
        if self.dte is not None and self.dte not in (segment.source[:-2], segment.target[:-2]):
            self.ledger.left_out(Reason.OTHER_HOST)
            if len(self.hosts) < MOST_HOSTS:
                self.hosts.update((segment.source[:-2], segment.target[:-2]))
            return ()
        entry = self.table.get((segment.source, segment.target))
        if segment.flags & SYN and not (entry and self.goes_on(entry[0], entry[1], segment)):
            return self.begin(entry, segment)
        if entry is None:
            if segment.flags & RST or not segment.payload and not segment.missing:
                self.ledger.left_out(Reason.NO_OCTETS)
                return ()
            entry = self.open(segment, False)
        connection, index, circuit = entry
        if segment.flags & SYN and connection.is_late(index):
            words = "its opening segment was recorded after the answer to it, so the clocks of two recorders differ"
            self.ledger.report(Topic.ORDER, f"frame {segment.frame}: connection {circuit.number}: {words}")
        if not circuit.left and connection.takes(index, segment):
            return self.packets(circuit, Chunk(index, segment.frame, segment.payload, segment.time))
        return self.feed(connection, index, circuit, segment)

    def begin(self, before: Entry | None, segment: Segment) -> Iterator[Item]:
        """Begins a new connection, after the waiting segments of the previous one on the same ports."""
        if before:
            yield from self.finish(before[0], before[2], segment.frame)
        yield from self.feed(*self.open(segment, True), segment)

    def goes_on(self, connection: Connection, index: int, segment: Segment) -> bool:
        """Whether an opening segment belongs to a known connection: its second one, or a repeated one."""
        stream = connection.streams[index]
        if stream.first is not None:
            return stream.first == segment.sequence
        # A SYN may be recorded after its answer.
        is_first = segment.acknowledged is None and stream.number == (segment.sequence + 1) % CIRCLE
        return (segment.acknowledged is not None or is_first) and not connection.over

    def open(self, segment: Segment, syn: bool) -> Entry:
        """Begins a connection; its opener is the sender of the first SYN, else the end without an XOT port."""
        answered = syn and segment.acknowledged is not None
        from_server = not syn and port_of(segment.source) in self.ports and port_of(segment.target) not in self.ports
        index = 1 if answered or from_server else 0
        ends = (segment.target, segment.source) if index else (segment.source, segment.target)
        connection = Connection(self.ledger, self.budget, ends)
        circuit = self.circuit(ends, segment.frame, syn)
        if not syn:
            circuit.missing = Missing(segment.frame, segment.time, circuit, is_beginning=True)
        self.table[ends] = (connection, 0, circuit)
        self.table[ends[::-1]] = (connection, 1, circuit)
        return connection, index, circuit

    def circuit(self, ends: tuple[bytes, bytes], frame: int, syn: bool) -> Circuit:
        """The circuit of a connection; its DTE is the host that an option names, else the opener."""
        sides = self.sides if self.dte in (None, ends[0][:-2]) else self.sides[::-1]
        circuit = Circuit(len(self.circuits) + 1, ends, sides, frame, syn)
        circuit.synchronised = [syn, syn]
        circuit.called = not syn
        self.circuits.append(circuit)
        return circuit

    def feed(self, connection: Connection, index: int, circuit: Circuit, segment: Segment) -> Iterator[Item]:
        """The packets of the octets that a segment completes."""
        events: Iterable[Event] = ()
        if circuit.left:
            self.pass_over(connection, index, segment)
        else:
            events = connection.feed(index, segment)
        if segment.flags & RST or connection.over:
            return self.read_to_the_end(connection, circuit, events, segment.frame)
        return self.read(connection, circuit, events)

    def read(self, connection: Connection, circuit: Circuit, events: Iterable[Event]) -> Iterator[Item]:
        """The packets of chunks, up to a break of the circuit; a gap is reported before the packets after it."""
        for event in events:
            if isinstance(event, Chunk):
                yield from self.packets(circuit, event)
            else:
                self.lose(circuit, event)
            if circuit.broken:
                connection.give_up()
                return

    def read_to_the_end(self, connection: Connection, circuit: Circuit, events: Iterable[Event], frame: int) -> Iterator[Item]:
        yield from self.read(connection, circuit, events)
        yield from self.finish(connection, circuit, frame)

    def pass_over(self, connection: Connection, index: int, segment: Segment) -> None:
        """Counts a segment that is not read any more."""
        end = len(segment.payload) + segment.missing
        following = connection.streams[index].number
        if not end:
            self.ledger.left_out(Reason.NO_OCTETS)
        elif following is not None and ahead(segment.sequence + end, following) <= 0:
            self.ledger.left_out(Reason.REPEATED_OCTETS)
        else:
            self.ledger.left_out(Reason.AFTER_BREAK)

    def lose(self, circuit: Circuit, gap: Gap) -> None:
        """Reads a gap: the part of a packet is dropped, and the next packet is sought at the beginnings of segments."""
        rest = circuit.rests[gap.index]
        circuit.rests[gap.index] = b""
        circuit.synchronised[gap.index] = False
        circuit.has_gaps = True
        circuit.lacks[gap.index] |= gap.octets > 0
        circuit.miss(gap.frame, gap.time)
        self.ledger.miss(Reason.LOST_OCTETS, gap.octets)
        self.ledger.left_out(Reason.PASSED_OCTETS, len(rest))
        if gap.how:
            words = f"frame {gap.frame}: connection {circuit.number}: {gap.octets} octets"
            self.ledger.report(Reason.LOST_OCTETS, f"{words} of {circuit.sides[gap.index].name} {gap.how}")

    def finish(self, connection: Connection, circuit: Circuit, frame: int) -> Iterator[Item]:
        """Writes how a connection ended, after the packets that waited."""
        if circuit.ended:
            return
        yield from self.close(connection, circuit)
        circuit.left = circuit.ended = True
        words = circuit.end_words()
        if words and not circuit.broken:
            self.ledger.report(Topic.CONNECTION, f"frame {frame}: connection {circuit.number}: {words}")
            circuit.cut_off = frame if circuit.is_cut_off else None
        circuit.rests, circuit.synchronised = [], []
        self.over.append(connection)
        if len(self.over) > MOST_OVER:
            self.forget(self.over.popleft())
        if self.on_end:
            self.ending.append(circuit)

    def forget(self, connection: Connection) -> None:
        """Removes a connection from the table, unless its ports are used again."""
        for ends in (connection.ends, connection.ends[::-1]):
            if (entry := self.table.get(ends)) and entry[0] is connection:
                del self.table[ends]

    def close(self, connection: Connection, circuit: Circuit) -> Iterator[Item]:
        """The packets that still waited, and the gap after the last one."""
        yield from self.read(connection, circuit, connection.flush())
        if circuit.side:
            yield from circuit.taken_missing()
        for index in range(len(circuit.lacks)):
            circuit.lacks[index] |= not connection.was_seen(index)
        for index, rest in enumerate(circuit.rests):
            if rest and not circuit.broken:
                side = circuit.sides[index].name
                words = f"connection {circuit.number} ends after {len(rest)} octets of a packet of {side}"
                self.ledger.damaged(Reason.CUT_XOT, words)

    def end(self) -> Iterator[Iterable[Item]]:
        """The packets that waited when the recording ended, of one connection after the other, in their order."""
        left = [entry for entry in self.table.values() if entry[1] == 0 and not entry[2].ended]
        for connection, _, circuit in sorted(left, key=lambda entry: entry[2].number):
            yield self.close(connection, circuit)

    def packets(self, circuit: Circuit, chunk: Chunk) -> list[Item]:
        """The packets that end in a chunk, and the gap before them."""
        index, octets, packets = chunk.index, chunk.octets, list[Item]()
        if circuit.rests[index]:
            octets = circuit.rests[index] + octets
        if not circuit.synchronised[index]:
            octets = self.found(circuit, chunk, octets)
            if not octets:
                return packets
        at, side, size = 0, circuit.sides[index], len(octets)
        while size - at >= 4:
            version, length = HEAD.unpack_from(octets, at)
            if version:
                self.leave(circuit, chunk, version, size - at)
                return packets
            begin = at + 4
            if begin + length > size:
                break
            at = begin + length
            packet = self.packet(circuit, chunk, side, octets[begin:at])
            if packet:
                if circuit.missing:
                    packets += circuit.taken_missing()
                packets.append(packet)
        circuit.rests[index] = octets[at:] if at < size else b""
        return packets

    def found(self, circuit: Circuit, chunk: Chunk, octets: bytes) -> bytes:
        """The octets from a segment on that begins with a packet, or none. A segment that is too short to decide is kept."""
        found = begins(octets, circuit, chunk.index)
        if found is False and octets is not chunk.octets:
            self.ledger.left_out(Reason.PASSED_OCTETS, len(octets) - len(chunk.octets))
            circuit.miss(chunk.frame, chunk.time)
            circuit.rests[chunk.index] = b""
            octets = chunk.octets
            found = begins(octets, circuit, chunk.index)
        if found is None:
            circuit.rests[chunk.index] = octets
        elif found:
            circuit.synchronised[chunk.index] = True
            return octets
        else:
            self.ledger.left_out(Reason.UNSYNCHRONISED)
            self.ledger.left_out(Reason.PASSED_OCTETS, len(octets))
            circuit.miss(chunk.frame, chunk.time)
        return b""

    def leave(self, circuit: Circuit, chunk: Chunk, version: int, many: int) -> None:
        """Reads a header of another version: a wrong place, where a packet was sought; else the circuit is not XOT."""
        circuit.rests[chunk.index] = b""
        words = f"frame {chunk.frame}: connection {circuit.number}: an XOT header of version {version}"
        if circuit.has_gaps or not circuit.from_opening:
            circuit.synchronised[chunk.index] = False
            circuit.miss(chunk.frame, chunk.time)
            self.ledger.left_out(Reason.UNSYNCHRONISED)
            self.ledger.damaged(Reason.PASSED_OCTETS, f"{words}; {many} octets are passed over", many)
            return
        circuit.left = circuit.broken = True
        self.ledger.damaged(Reason.NOT_XOT, f"{words}; it is left out from here on")

    def packet(self, circuit: Circuit, chunk: Chunk, side: Side, octets: bytes) -> Packet | None:
        """A packet of a circuit, or None for one that is left out."""
        if len(octets) >= 3:
            kind, line_channel = octets[2], (octets[0] & 15) << 8 | octets[1]
            flows = not kind & 1 or kind & 0x1F == Type.READY
            known = flows and line_channel == circuit.last_channels[chunk.index] and not circuit.confirmed
            if not known and not self.follow(circuit, chunk, octets):
                return None
        if side is not circuit.side and not circuit.both:
            circuit.see(side)
        return Packet(chunk.frame, side, octets, circuit, chunk.time)

    def follow(self, circuit: Circuit, chunk: Chunk, octets: bytes) -> bool:
        """Follows the circuit by a packet that is not data or RR on its last channel; returns whether it is one of the circuit."""
        kind, line_channel, frame, side = octets[2], channel_of(octets), chunk.frame, circuit.sides[chunk.index]
        if kind == PVC_SETUP and not circuit.called:
            self.set_up(circuit, frame, side)
            return False
        if not line_channel and kind in LINE_TYPES:
            words = f"a packet of type {kind:02X} on channel 0, of {side.name}"
            self.ledger.damaged(Reason.LINE_PACKET, f"frame {frame}: connection {circuit.number}: {words}")
            return False
        if circuit.confirmed or kind in CALL_TYPES:
            circuit.step(side, kind, len(octets))
        if circuit.last_channels[chunk.index] != line_channel:
            self.other_channel(circuit, chunk, line_channel)
        if circuit.modulus is None:
            circuit.modulus = modulus_of(octets)
        return True

    def set_up(self, circuit: Circuit, frame: int, side: Side) -> None:
        """Reads an XOT packet that sets up a permanent circuit; it is not an X.25 packet."""
        circuit.permanent = True
        self.ledger.left_out(Reason.PVC_SETUP)
        words = f"{side.name} sets up a permanent circuit"
        self.ledger.report(Topic.PVC_SETUP, f"frame {frame}: connection {circuit.number}: {words}")

    def other_channel(self, circuit: Circuit, chunk: Chunk, line_channel: int) -> None:
        """Reads a logical channel that differs from that of the previous packet of its side."""
        index, before = chunk.index, circuit.last_channels[chunk.index]
        if before is None:
            circuit.line_channels[index] = line_channel
        else:
            words = f"logical channel {line_channel} after {before}; a connection has one circuit"
            self.ledger.report(Topic.CHANNEL, f"frame {chunk.frame}: connection {circuit.number}: {words}")
        circuit.last_channels[index] = line_channel

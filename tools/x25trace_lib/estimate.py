"""The header of a trace, from options or from what was seen."""
from __future__ import annotations

from collections import Counter
from dataclasses import dataclass, field

from x25tools_lib.header import LARGEST_SIZE, LAST_CHANNEL, SMALLEST_SIZE, Header, Wishes
from x25tools_lib.notes import Estimate
from x25tools_lib.refusals import Refusal, Why
from x25tools_lib.sides import Side

from .evidence import Evidence
from .packets import MODULI, PACKET_SIZES, SET_UP, WINDOWS, Missing, Type, facilities_of
from .xot import Circuit

STANDARD_SIZE = 128
STANDARD_WINDOW = 2
# The cause of a local procedure error.
LOCAL_ERRORS: dict[int, int] = {Type.RESET: 5, Type.CLEAR: 19}
# The diagnostic of a packet that is too long.
TOO_LONG = 39
# RR, RNR and REJ, without their numbers.
FLOW = frozenset((1, 5, 9))


@dataclass(slots=True)
class Seen:
    """What was seen on a channel: the lower edge of each side's window, None where it is unknown.

    Also whether data counts now, and the values that its call agreed on.
    """

    edges: dict[Side, int | None]
    flows: bool = True
    agreed: set[int] = field(default_factory=set)
    # The longest user data of each side since data flows, where the call agreed on no packet size.
    longest: dict[Side, int] = field(default_factory=dict)


class Estimator:
    """Sees each packet once, with the key of its channel."""

    def __init__(self) -> None:
        self.moduli: dict[int | None, int] = {8: 0, 128: 0, None: 0}
        self.seen: dict[int, Seen] = {}
        # The user data of each length that may show the packet size, and those that the DCE calls too long.
        self.lengths: Counter[int] = Counter()
        self.refused: Counter[int] = Counter()
        self.most = 0
        self.restarted = False
        # Whether a reset or a clear says that the other side made an error.
        self.has_reactions = False
        self.highest = 0
        # Channels of a line with calls, and those with data and no known call.
        self.with_calls: set[int] = set()
        self.with_data: set[int] = set()
        # Channels with missing packets, perhaps calls.
        self.with_gaps: set[int] = set()

    def see(self, key: int, known: bool, side: Side, octets: bytes, line: bool) -> None:
        """Reads a packet of a channel; `known` means that the channel's state was known from its beginning."""
        if len(octets) < 3:
            return
        modulus = MODULI.get(octets[0] & 0x30)
        self.moduli[modulus] += 1
        if modulus is None:
            return
        kind = octets[2]
        if line:
            if key == 0:
                self.restart(kind)
                return
            self.line_channel(key, kind)
        seen = self.seen.get(key)
        if seen is None:
            edge = 0 if known or self.restarted else None
            seen = self.seen[key] = Seen({Side.T: edge, Side.N: edge})
        if not kind & 1:
            self.data(seen, side, octets, modulus)
        elif kind & 0x1F in FLOW and (modulus == 8 or kind < 16):
            if modulus == 8 or len(octets) >= 4:
                seen.edges[side.other] = kind >> 5 if modulus == 8 else octets[3] >> 1
        else:
            if len(octets) > 3 and LOCAL_ERRORS.get(kind) == octets[3]:
                self.has_reactions = True
                if octets[4:5] == bytes((TOO_LONG,)) and seen.longest.get(side.other):
                    self.refused[seen.longest[side.other]] += 1
            self.signal(seen, kind, octets)

    def forget(self, circuit: Circuit) -> None:
        """Removes a circuit: it has no more packets."""
        self.seen.pop(circuit.number, None)

    def miss(self, missing: Missing) -> None:
        """Reads a gap: what the missing packets acknowledged is unknown, and data may flow."""
        key = missing.circuit.number if missing.circuit else missing.channel
        if key is None:
            # A restart may be among the missing packets.
            self.restarted = False
        elif not missing.circuit:
            self.highest = max(self.highest, key)
            self.with_gaps.add(key)
        for seen in self.seen.values() if key is None else filter(None, (self.seen.get(key),)):
            seen.flows = True
            seen.edges = dict.fromkeys(Side)
            seen.longest.clear()

    def restart(self, kind: int) -> None:
        if kind == Type.RESTART:
            self.restarted = True
            self.seen.clear()
            self.with_gaps.clear()

    def line_channel(self, channel: int, kind: int) -> None:
        self.highest = max(self.highest, channel)
        if kind in SET_UP:
            self.with_calls.add(channel)
        elif self.restarted and channel not in self.with_gaps:
            self.with_data.add(channel)

    def data(self, seen: Seen, side: Side, octets: bytes, modulus: int) -> None:
        size = len(octets) - (3 if modulus == 8 else 4)
        if size < 0 or not seen.flows:
            return
        seen.edges[side.other] = octets[2] >> 5 if modulus == 8 else octets[3] >> 1
        if PACKET_SIZES not in seen.agreed:
            self.lengths[size] += 1
            if size > seen.longest.get(side, 0):
                seen.longest[side] = size
        send = octets[2] >> 1 & 7 if modulus == 8 else octets[2] >> 1
        edge = seen.edges[side]
        if edge is not None and (send - edge) % modulus >= self.most and WINDOWS not in seen.agreed:
            self.most = (send - edge) % modulus + 1

    @staticmethod
    def signal(seen: Seen, kind: int, octets: bytes) -> None:
        """Reads a packet that begins or ends the flow of data."""
        if kind in (Type.CALL, Type.CLEAR):
            seen.flows = False
            seen.agreed = facilities_of(octets) if kind == Type.CALL else set()
        elif kind == Type.RESET:
            # Where two requests collide, the second one is a confirmation.
            seen.flows = not seen.flows
        elif kind == Type.ACCEPTED:
            seen.flows = True
            seen.agreed |= facilities_of(octets)
        elif kind in (Type.RESET_CONFIRM, Type.CLEAR_CONFIRM):
            seen.flows = True
        if kind in (Type.CALL, Type.ACCEPTED, Type.CLEAR, Type.RESET, Type.RESET_CONFIRM):
            seen.edges = dict.fromkeys(Side, 0)
            seen.longest.clear()

    @property
    def modulus(self) -> int:
        return 128 if self.moduli[128] > self.moduli[8] else 8

    @property
    def window(self) -> int:
        return min(self.most, self.modulus - 1) or STANDARD_WINDOW

    @property
    def largest(self) -> int:
        """The largest user data."""
        return max(self.lengths, default=0)

    @property
    def sizes(self) -> range:
        """The packet sizes with which what the DCE calls too long is too long, and no other data; there may be none."""
        kept = max((length for length, many in self.lengths.items() if many > self.refused[length]), default=0)
        return range(size_for(kept), min(self.refused, default=0))

    @property
    def size(self) -> int:
        """The smallest packet size for all data, except for what the DCE calls too long."""
        return self.sizes[0] if self.sizes else size_for(self.largest) if self.largest else STANDARD_SIZE

    @property
    def permanent(self) -> int:
        """The last channel with data after a restart and without a call, below all channels with calls."""
        first_call = min(self.with_calls, default=LAST_CHANNEL + 1)
        return max((channel for channel in self.with_data if channel < first_call), default=0)


def size_for(length: int) -> int:
    """The smallest packet size for user data of a length."""
    return min(max(SMALLEST_SIZE, 1 << (length - 1).bit_length()), LARGEST_SIZE)


def header_of(wishes: Wishes, estimator: Estimator, permanent: int, highest: int, join: bool, has_gaps: bool) -> Header:
    """The header: options first, then what was seen."""
    join = wishes.join if wishes.join is not None else join
    permanent = wishes.permanent if wishes.permanent is not None else permanent
    last = wishes.calls or wishes.outgoing or max(highest, permanent, wishes.two_way or 0, wishes.incoming or 0, 1)
    two_way = wishes.two_way if wishes.two_way is not None else last
    incoming = wishes.incoming if wishes.incoming is not None else min(permanent, two_way)
    header = Header(
        modulus=wishes.modulus or estimator.modulus,
        window=wishes.window or estimator.window,
        size=wishes.size or estimator.size,
        permanent=permanent,
        incoming=incoming,
        two_way=two_way,
        outgoing=last,
        join=join,
        form=3 if join or has_gaps else 2 if wishes.one_way else 1,
    )
    if wishes.window is None:
        header.window = min(header.window, header.modulus - 1)
    if fault := header.fault():
        raise Refusal(Why.HEADER, fault)
    return header


def seen_of(wishes: Wishes, header: Header, estimator: Estimator) -> dict[str, int]:
    """The window and the packet size of a header, where data shows them and no option gives them."""
    seen = {}
    if wishes.window is None and estimator.most:
        seen["WIN"] = header.window
    if wishes.size is None and estimator.largest:
        seen["SIZE"] = header.size
    return seen


def estimates(wishes: Wishes, header: Header, evidence: Evidence) -> list[Estimate]:
    """The numbers that no option gave."""
    last = wishes.calls or wishes.outgoing
    words = {
        "MOD": (wishes.modulus, header.modulus, "the general format identifiers"),
        "WIN": (wishes.window, header.window, evidence.source("WIN")),
        "SIZE": (wishes.size, header.size, evidence.source("SIZE")),
        "PVC": (wishes.permanent, header.permanent, "channels with data and no call"),
        "SVC" if header.form == 1 else "OUT": (last, header.outgoing, "the channels used"),
    }
    return [Estimate(name, value, why) for name, (wish, value, why) in words.items() if wish is None]

"""Finds unwanted TCP ports that look like XOT, so that a capture on another port does not seem empty."""
from __future__ import annotations

import struct
from collections import Counter
from collections.abc import Iterator

from .packets import LONGEST, SET_UP, modulus_of

HEAD = struct.Struct(">HH")
# Many protocols begin with a length of four octets. What looks like XOT is named after this number of segments; one that sets
# up or clears a call counts as many.
ENOUGH = 3
MOST_PAIRS = 10_000
# Two ports, in octets, the lower one first.
Pair = tuple[bytes, bytes]


def weight(payload: bytes) -> int:
    """The weight of a segment's octets as whole XOT packets: 0, 1, or ENOUGH where one sets up or clears a call."""
    at, found = 0, 0
    while at < len(payload):
        if len(payload) - at < HEAD.size + 3:
            return 0
        version, length = HEAD.unpack_from(payload, at)
        packet = payload[at + HEAD.size:at + HEAD.size + length]
        if version or not 3 <= length <= LONGEST or len(packet) < length or modulus_of(packet) is None:
            return 0
        found = max(found, ENOUGH if packet[2] in SET_UP else 1)
        at += HEAD.size + length
    return found


class OtherPorts:
    """The pairs of ports, in octets, between which segments look like XOT."""

    def __init__(self) -> None:
        self.weights: Counter[Pair] = Counter()
        self.segments: Counter[Pair] = Counter()
        # The ports to which connections were opened: of a pair with equal weights, this one is reported.
        self.servers: set[bytes] = set()

    def see(self, one: bytes, other: bytes, payload: bytes) -> None:
        """Reads a segment from one port to another."""
        many = weight(payload)
        pair = (one, other) if one < other else (other, one)
        if many and (pair in self.weights or len(self.weights) < MOST_PAIRS):
            self.weights[pair] += many
            self.segments[pair] += 1

    def ports(self) -> Iterator[tuple[int, int]]:
        """Each port that looks like XOT, with the number of its segments, the greatest number first."""
        left = dict(self.weights)
        while left:
            weights, segments = Counter[bytes](), Counter[bytes]()
            for pair, many in left.items():
                for port in pair:
                    weights[port] += many
                    segments[port] += self.segments[pair]
            port = min(weights, key=lambda one: (-weights[one], one not in self.servers, one))
            if weights[port] < ENOUGH:
                return
            yield int.from_bytes(port, "big"), segments[port]
            left = {pair: many for pair, many in left.items() if port not in pair}

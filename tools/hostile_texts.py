#!/usr/bin/env python3
"""hostile_texts.py SEED: writes a trace text that tries what a trace may hold.

Each text is a header of any form and rows of an interface that mostly keeps to the protocol, with every packet type, every
field at its limits and octets that are cut or changed mixed in, and now and then a line that is no row. Under the third
form there are gap rows, and with some of them rows are left out. The same seed always gives the same text.
"""
from __future__ import annotations

import random
import sys

TYPES = [0x0B, 0x0F, 0x13, 0x17, 0x1B, 0x1F, 0x23, 0x27, 0xFB, 0xFF, 0xF1, 0xF3, 0xF7]
SIDES = "TN"
# The approximate number of lines of a text.
COUNTS = [0, 1, 5, 40, 120, 300]
# Rows, each with its side and its octets.
Rows = list[tuple[str, bytes]]


def other(side: str) -> str:
    return "N" if side == "T" else "T"


class Interface:
    """The parameters of an interface, and its header line."""

    def __init__(self, source: random.Random) -> None:
        self.modulus = source.choice([8, 8, 8, 128])
        self.window = source.choice([1, 2, 2, 3, self.modulus - 1])
        self.size = source.choice([16, 16, 32, 128, 4096])
        self.permanent = permanent = source.choice([0, 0, 1, 2])
        self.has_gaps = False
        if source.random() < 0.4:
            last = max(1, permanent + source.randint(0, 4))
            self.channels, self.incoming, self.two_way = last, permanent, last
            form = f"X25 1 MOD {self.modulus} WIN {self.window} SIZE {self.size} PVC {permanent} SVC {last}"
        else:
            incoming = permanent + source.randint(0, 2)
            two_way = incoming + source.randint(0, 2)
            outgoing = max(1, two_way + source.randint(0, 2))
            self.channels, self.incoming, self.two_way = outgoing, incoming, two_way
            self.has_gaps = source.random() < 0.6
            form = (
                f"X25 {3 if self.has_gaps else 2} MOD {self.modulus} WIN {self.window} SIZE {self.size} PVC {permanent} "
                f"IN {incoming} TWO {two_way} OUT {outgoing}" + source.choice(["", " JOIN"])
            )
        self.header = form

    def callers(self, channel: int) -> str:
        """The sides that may call on a channel."""
        if channel <= self.incoming:
            return "N"
        return SIDES if channel <= self.two_way else "T"

    def general_format(self) -> int:
        return 0x10 if self.modulus == 8 else 0x20

    def counted(self, kind: int | None, send: int, receive: int, more: int) -> bytes:
        """The octets after the channel of a packet with sequence numbers; `kind` is None for data."""
        if self.modulus == 8:
            low = (send % 8) << 1 | more << 4 if kind is None else kind
            return bytes([(receive % 8) << 5 | low])
        if kind is None:
            return bytes([(send % 128) << 1, (receive % 128) << 1 | more])
        return bytes([kind, (receive % 128) << 1])


class Channel:
    """What a well-behaved user of a channel keeps of its state."""

    def __init__(self) -> None:
        self.forget()

    def forget(self) -> None:
        self.up = False
        self.pad = False
        self.begin()

    def begin(self) -> None:
        self.sent = {"T": 0, "N": 0}
        self.known = {"T": 0, "N": 0}


class Writer:
    """Writes one text by the choices of a random source."""

    def __init__(self, source: random.Random) -> None:
        self.source = source
        self.interface = Interface(self.source)
        self.gap_share = self.source.choice([0, 0.02, 0.1, 0.5])
        self.channels = [Channel() for _ in range(self.interface.channels + 1)]
        self.number = 0
        self.lines: list[bytes] = []

    def chance(self, share: float) -> bool:
        return self.source.random() < share

    # ---- packets

    def start(self, channel: int, bits: int = 0) -> bytes:
        return bytes([self.interface.general_format() | bits | channel >> 8 & 15, channel & 255])

    def octets(self, length: int) -> bytes:
        return self.source.randbytes(length)

    def address_block(self) -> bytes:
        called, calling = (self.source.choice([0, 0, 1, 5, 14, 15]) for _ in SIDES)
        digits = [self.source.randrange(10) for _ in range(called + calling)]
        if digits and self.chance(0.05):
            digits[self.source.randrange(len(digits))] = self.source.randint(10, 15)
        if len(digits) % 2:
            digits.append(self.source.choice([0, 15]))
        pairs = zip(digits[::2], digits[1::2])
        return bytes([calling << 4 | called]) + bytes(high << 4 | low for high, low in pairs)

    def facilities(self) -> bytes:
        source = self.source
        known = [
            lambda: bytes([0x01, source.choice([0, 1, 0x80, 0x81, 0xC0, 0xFF])]),
            lambda: bytes([0x42, source.choice([3, 4, 7, 12, 13]), source.choice([4, 5, 12, 0])]),
            lambda: bytes([0x43, source.choice([0, 1, 2, 7, 8, 127]), source.choice([1, 2, 7, 128])]),
            lambda: bytes([0x00, source.choice([0, 0xFF, 0x0F])]),
            lambda: bytes([0x02, source.randrange(256)]),
            lambda: bytes([0xC9, 2]) + self.octets(2),
            lambda: bytes([0x83]) + self.octets(source.choice([3, 2])),
        ]
        made = b"".join(source.choice(known)() for _ in range(source.choice([0, 0, 1, 2, 3])))
        length = len(made) + (source.choice([1, -1, 200]) if self.chance(0.05) else 0)
        return bytes([length % 256]) + made

    def call_data(self) -> bytes:
        return self.source.choice([b"", b"\x01\0\0\0", b"\x01\0\0\0", b"\x01", b"\xC0"]) + self.octets(
            self.source.choice([0, 0, 0, 1, 11, 12, 13, 16, 17, 124, 128, 129])
        )

    def call(self, kind: int) -> bytes:
        parts = [self.address_block(), self.facilities(), self.call_data()]
        return bytes([kind]) + b"".join(parts[:self.source.choice([3, 3, 3, 2, 1, 0])])

    def sound_call(self, kind: int) -> bytes:
        """A call packet without a fault, mostly of a PAD."""
        if kind == 0x0F:
            return bytes([kind]) + self.source.choice([b"", b"", b"\0\0", b"\0\x03\x42\x07\x07", b"\0\x03\x43\x01\x02"])
        facilities = self.source.choice([b"\0", b"\0", b"\x02\x01\x01", b"\x02\x01\x80", b"\x03\x42\x05\x04", b"\x03\x43\x03\x02"])
        return bytes([kind, 0x21, 0x12, 0x30]) + facilities + self.source.choice([b"\x01\0\0\0", b"\x01\0\0\0", b""])

    def message(self) -> bytes:
        """A PAD message, as the user data of a data packet."""
        source = self.source
        code = source.choice([0, 1, 2, 3, 4, 5, 6, 6, 7, 8, 9, 0x10, 2, 4, 0])
        references = [0, 1, 2, 3, 8, 11, 12, 15, 16, 18, 22, 23, 128, 130, 255]
        pairs = b"".join(
            bytes([source.choice(references), source.choice([0, 1, 2, 127, 128, 255])]) for _ in range(source.choice([0, 0, 1, 2, 5]))
        )
        if self.interface.size == 4096 and self.chance(0.1):
            pairs = self.octets(source.choice([1022, 1023, 1024, 1025]))
        return (bytes([code]) + pairs)[:None if self.chance(0.9) else -1]

    def data(self, number: int, channel: Channel, side: str) -> bytes:
        interface, send, receive = self.interface, channel.sent[side], channel.sent[other(side)]
        if self.chance(0.06):
            send += self.source.choice([-1, 1, 2, interface.modulus - 1])
        if self.chance(0.06):
            receive += self.source.choice([-2, -1, 1])
        qualified = channel.pad and self.chance(0.5)
        more = self.chance(0.25)
        size = interface.size
        field = self.message() if qualified and self.chance(0.8) else self.octets(
            self.source.choice([0, 1, 2, 15, min(size, 300) - 1, min(size, 300)]) if self.chance(0.97) else min(size + 1, 4100)
        )
        if more and self.chance(0.7):
            field = (field + self.octets(size))[:min(size, 600)]
        channel.sent[side] += 1
        channel.known[other(side)] = channel.sent[other(side)]
        bits = (0x80 if qualified else 0) | (0x40 if self.chance(0.05) else 0)
        return self.start(number, bits) + interface.counted(None, send, receive, int(more)) + field

    def ready(self, number: int, channel: Channel, side: str) -> bytes:
        kinds = {8: [0x01, 0x01, 0x05, 0x09], 128: [0x01, 0x01, 0x05, 0x09]}[self.interface.modulus]
        receive = channel.sent[other(side)] + (self.source.choice([-1, 1]) if self.chance(0.05) else 0)
        channel.known[other(side)] = channel.sent[other(side)]
        return self.start(number) + self.interface.counted(self.source.choice(kinds), 0, receive, 0)

    def plain(self, kind: int) -> bytes:
        """The octets of a packet that carries a cause and a diagnostic, or nothing."""
        lengths = {0x13: [2, 1, 0, 5], 0x1B: [2, 1, 0, 3], 0xFB: [2, 1, 0, 3], 0x23: [1, 32, 0, 33]}.get(kind, [0, 1])
        return bytes([kind]) + self.octets(lengths[0] if self.chance(0.85) else self.source.choice(lengths))

    # ---- rows

    def answered(self, number: int, side: str, asks: bytes, answers: bytes) -> Rows:
        """A packet and its answer, which is left out now and then."""
        rows = [(side, self.start(number) + asks), (other(side), self.start(number) + answers)]
        return rows if self.chance(0.93) else rows[:1]

    def common(self) -> Rows:
        """A packet that a side sends next on some channel."""
        number = self.source.randint(1, self.interface.channels)
        channel, side = self.channels[number], self.source.choice(SIDES)
        if self.chance(0.03):
            for each in self.channels:
                each.forget()
            return self.answered(0, side, self.plain(0xFB), self.plain(0xFF))
        if not channel.up and number > self.interface.permanent:
            side = self.source.choice(self.interface.callers(number)) if self.chance(0.9) else side
            call = self.sound_call if self.chance(0.8) else self.call
            request = call(0x0B)
            channel.up, channel.pad = True, b"\x01\0\0\0" in request
            channel.begin()
            return self.answered(number, side, request, call(0x0F))
        draw = self.source.random()
        if draw < 0.06:
            channel.forget()
            return self.answered(number, side, self.plain(0x13), self.plain(0x17))
        if draw < 0.12:
            channel.begin()
            return self.answered(number, side, self.plain(0x1B), self.plain(0x1F))
        if draw < 0.17:
            return self.answered(number, side, self.plain(0x23), self.plain(0x27))
        if channel.sent[side] - channel.known[side] >= self.interface.window or draw < 0.3:
            return [(other(side), self.ready(number, channel, other(side)))]
        return [(side, self.data(number, channel, side))]

    def strange(self) -> Rows:
        """Any packet, at any time."""
        number = self.source.choice([0, 1, self.interface.channels, self.interface.channels + 1, 255, 4095])
        kind = self.source.choice([*TYPES, self.source.randrange(256)])
        made = self.call(kind) if kind in (0x0B, 0x0F) else self.plain(kind)
        return [(self.source.choice(SIDES), self.start(number, self.source.choice([0, 0, 0, 0x40, 0x80])) + made)]

    def spoilt(self, octets: bytes) -> bytes:
        """Octets that are cut or changed."""
        if not octets or self.chance(0.6):
            return octets[:self.source.randint(0, len(octets))]
        changed = bytearray(octets)
        changed[self.source.randrange(min(len(changed), 6))] ^= 1 << self.source.randrange(8)
        return bytes(changed)

    def row(self, side: str, octets: bytes) -> None:
        if self.chance(0.04):
            octets = self.spoilt(octets)
        self.number += 1 if self.chance(0.95) else self.source.choice([2, 10, 100_000])
        digits = octets.hex() if self.chance(0.2) else octets.hex().upper()
        self.lines.append(f"{self.number} {side} {digits or '-'}".encode())

    def gap(self) -> None:
        """A gap row, of a channel or of all."""
        self.number += 1
        channel = "*" if self.chance(0.3) else self.source.randint(1, self.interface.channels)
        self.lines.append(f"{self.number} ? {channel}".encode())

    def more(self) -> None:
        """Further rows; where gap rows are allowed, some come with a gap row, and some are replaced by one."""
        rows = self.strange() if self.chance(0.06) else self.common()
        if self.interface.has_gaps and self.chance(self.gap_share):
            self.gap()
            rows = rows[self.source.randint(0, len(rows)):]
        for side, octets in rows:
            self.row(side, octets)

    def broken(self) -> bytes:
        """A line that is not a row, or a header where none is allowed."""
        number = self.number + 1
        return self.source.choice([
            b"", b" ", b"\r", f"{number} T".encode(), f"{number} T 1".encode(), f"{number}  T 10".encode(),
            f"{number} X 1000FF".encode(), f"0{number} T 1000FF".encode(), f"{self.number} T 1000FF".encode(),
            f"{number} T 1000FG".encode(), f"{number} T 1000FF\r".encode(), f"{number} T 1000FF ".encode(),
            b"1000000000 T 1000FF", f"{number} t 1000FF".encode(), f"{number} T --".encode(),
            f"{number} T {'00' * 4201}".encode(), b"#" + b"x" * 8500, self.interface.header.encode(), b"\xff\xfe\x00",
            f"{number} ? 0".encode(), f"{number} ? {self.interface.channels + 1}".encode(), f"{number} ? 01".encode(),
            f"{number} ? -".encode(), f"{number} ? **".encode(), f"{self.number} ? *".encode(), f"{number} ?".encode(),
        ])

    def broken_header(self) -> bytes:
        header = self.interface.header
        return self.source.choice([
            header.lower(), header + " ", header.replace("MOD 8", "MOD 9"), header.replace("X25", "X26"),
            header.replace("WIN", "WIN 0"), header.replace("SIZE ", "SIZE 0"), header.rsplit(" ", 1)[0], "",
        ]).encode()

    def text(self, count: int | None = None) -> bytes:
        """The text, of at least `count` lines where one is named."""
        source = self.source
        if self.chance(0.2):
            self.lines.append(b"# a recording")
        self.lines.append(self.broken_header() if self.chance(0.03) else self.interface.header.encode())
        count = source.choice(COUNTS) if count is None else count
        while len(self.lines) < count:
            self.more()
            if self.chance(0.02):
                self.lines.append(b"# " + self.octets(5).replace(b"\n", b""))
        if self.lines and self.chance(0.2):
            at = source.randint(max(0, len(self.lines) - 20), len(self.lines))
            self.lines.insert(at, self.broken())
        if self.chance(0.02):
            self.lines = [line for line in self.lines if line.startswith(b"#")]
        return b"\n".join(self.lines) + (b"" if self.chance(0.3) else b"\n")


def text_of(seed: int) -> bytes:
    """The text of a seed."""
    return Writer(random.Random(seed)).text()


if __name__ == "__main__":
    if len(sys.argv) != 2 or not sys.argv[1].isdigit():
        sys.exit(__doc__)
    sys.stdout.buffer.write(text_of(int(sys.argv[1])))

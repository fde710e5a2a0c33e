"""Traces of calls with planted faults: the DTE breaks its window or its packet size, and the DCE answers with a reset.

Everything follows from a seed. A packet of the DCE may be on its way while an error reaches it, and the DTE goes on
until the reset reaches it, as on a real line.
"""
import random
from dataclasses import dataclass, field

# The causes and diagnostic codes of the resets: a local procedure error; the window; the packet size.
LOCAL_ERROR, OUT_OF_WINDOW, TOO_LONG = 5, 1, 39
WINDOWS = (1, 2, 3, 4, 5, 7)
SIZES = (32, 64, 128, 256, 512)


@dataclass
class Call:
    """A logical channel: the next number of each side, and what the other side acknowledged."""

    channel: int
    sent: dict = field(default_factory=lambda: {"T": 0, "N": 0})
    acknowledged: dict = field(default_factory=lambda: {"T": 0, "N": 0})

    def reset(self):
        self.sent = {"T": 0, "N": 0}
        self.acknowledged = {"T": 0, "N": 0}


class Line:
    """An interface of modulo 8 with a window and a packet size that its trace does not state."""

    def __init__(self, seed, channels=3):
        self.source = random.Random(seed)
        self.window, self.size = self.source.choice(WINDOWS), self.source.choice(SIZES)
        self.calls = [Call(channel) for channel in range(1, channels + 1)]
        self.rows = []
        # The rows that break a rule, by their numbers.
        self.planted = []

    def row(self, side, call, octets):
        self.rows.append((side, bytes([0x10, call.channel]) + octets))

    def data(self, side, call, length):
        other = "N" if side == "T" else "T"
        octet = call.sent[other] % 8 << 5 | call.sent[side] % 8 << 1
        self.row(side, call, bytes([octet]) + bytes(length))
        call.acknowledged[other] = call.sent[other]
        call.sent[side] += 1

    def ready(self, side, call):
        other = "N" if side == "T" else "T"
        self.row(side, call, bytes([call.sent[other] % 8 << 5 | 1]))
        call.acknowledged[other] = call.sent[other]

    def is_open(self, side, call):
        return call.sent[side] - call.acknowledged[side] < self.window

    def length(self):
        """A length of user data: full packets are the most."""
        return self.size if self.source.random() < 0.5 else self.source.randint(1, self.size)

    def talk(self, call):
        """Some data, within the window, and its acknowledgement."""
        side = self.source.choice("TN")
        for _ in range(self.source.choice((1, self.window, self.window))):
            if self.is_open(side, call):
                self.data(side, call, self.length())
        self.ready("N" if side == "T" else "T", call)

    def answer(self, call, code):
        """What is on its way, the reset, and its confirmation."""
        for _ in range(self.source.choice((0, 0, 1, 2))):
            if self.is_open("N", call):
                self.data("N", call, self.length())
        if self.source.random() < 0.5:
            self.row("T", call, bytes([call.sent["N"] % 8 << 5 | 1]))
        self.row("N", call, bytes([0x1B, LOCAL_ERROR, code]))
        self.row("T", call, b"\x1f")
        call.reset()

    def break_window(self, call):
        while self.is_open("T", call):
            self.data("T", call, self.length())
        self.planted.append(len(self.rows) + 1)
        self.data("T", call, self.length())
        self.answer(call, OUT_OF_WINDOW)

    def break_size(self, call):
        if not self.is_open("T", call):
            self.ready("N", call)
        self.planted.append(len(self.rows) + 1)
        self.data("T", call, self.size + self.source.randint(1, self.size))
        self.answer(call, TOO_LONG)

    def run(self, rounds=120, faults=3):
        """Calls, data, and this number of faults of each kind."""
        for call in self.calls:
            self.row("T", call, bytes.fromhex("0B0000"))
            self.row("N", call, b"\x0f")
        steps = [self.talk] * rounds + [self.break_size] * faults
        if self.window < 7:
            steps += [self.break_window] * faults
        self.source.shuffle(steps)
        for step in steps:
            step(self.source.choice(self.calls))

    def trace(self, window=2, size=128):
        """The trace under a header."""
        lines = [f"X25 1 MOD 8 WIN {window} SIZE {size} PVC 0 SVC {len(self.calls)}"]
        lines += [f"{at} {side} {octets.hex().upper()}" for at, (side, octets) in enumerate(self.rows, 1)]
        return "\n".join(lines).encode() + b"\n"


def line_of(seed):
    line = Line(seed)
    line.run()
    return line

#!/usr/bin/env python3
"""Writes a trace text that a busy interface could have left.

Each channel makes a call, sends data with random octets in both directions inside
its windows, is acknowledged by RR packets, and now and then is cleared and called
again. With --restart-every the DTE restarts the interface after that number of rows.
With --kind calls each call is cleared as soon as it is up, so four rows are a call;
with --kind findings the DCE sends data outside the window once the calls are up, so
each row is a finding; with --kind gaps the rows of the busy interface have gap rows
among them, of a channel after 100 rows and of all after 10,000. The same arguments
always give the same bytes.
"""

import argparse
import random
import sys

WINDOW = 2
SIZE = 128
CHUNK = 1 << 16
GAP_EVERY, GAP_OF_ALL_EVERY = 100, 10_000


class Channel:
    """One logical channel: its call, and the sequence numbers of both directions."""

    def __init__(self, number):
        self.header = bytes([0x10 | number >> 8, number & 255]).hex().upper()
        self.waiting = []
        self.reset()

    def reset(self):
        self.up = False
        self.waiting.clear()
        # Packets sent and acknowledged, by side.
        self.sent = {"T": 0, "N": 0}
        self.acknowledged = {"T": 0, "N": 0}


def address_block(source):
    """Ten digits of a called and a calling address."""
    digits = "".join(source.choice("0123456789") for _ in range(20))
    return "AA" + digits


def call_rows(channel, source):
    """A call request with addresses, no facilities and a PAD's user data, and its confirmation."""
    request = channel.header + "0B" + address_block(source) + "00" + "01000000"
    return [("T", request), ("N", channel.header + "0F")]


def clear_rows(channel, side):
    other = "N" if side == "T" else "T"
    return [(side, channel.header + "130000"), (other, channel.header + "17")]


def data_row(channel, side, source, lengths):
    """A data packet within the window of its side; its P(R) acknowledges all of the other side's."""
    other = "N" if side == "T" else "T"
    send = channel.sent[side] % 8
    receive = channel.sent[other] % 8
    channel.sent[side] += 1
    channel.acknowledged[other] = channel.sent[other]
    length = lengths[source.getrandbits(10)]
    return (
        side,
        f"{channel.header}{receive << 5 | send << 1:02X}"
        + source.randbytes(length).hex().upper(),
    )


def ready_row(channel, side):
    """RR of a side, which acknowledges all that the other side sent."""
    other = "N" if side == "T" else "T"
    channel.acknowledged[other] = channel.sent[other]
    return (side, f"{channel.header}{channel.sent[other] % 8 << 5 | 1:02X}")


def next_rows(channel, source, lengths):
    """What the channel does next."""
    if not channel.up:
        channel.up = True
        return call_rows(channel, source)
    draw = source.getrandbits(10)
    side = "T" if draw & 1 else "N"
    other = "N" if side == "T" else "T"
    if draw < 4:
        channel.reset()
        return clear_rows(channel, side)
    outstanding = channel.sent[side] - channel.acknowledged[side]
    if outstanding == WINDOW or (outstanding and draw < 256):
        return [ready_row(channel, other)]
    return [data_row(channel, side, source, lengths)]


def brief_call_rows(channel, source, lengths):
    """A call that is cleared as soon as it is up."""
    return call_rows(channel, source) + clear_rows(channel, "T")


def unsound_rows(channel, source, lengths):
    """A call, and from then on data of the DCE outside the window."""
    if not channel.up:
        channel.up = True
        return call_rows(channel, source)
    octets = source.randbytes(lengths[source.getrandbits(10)])
    return [("N", f"{channel.header}{5 << 1:02X}{octets.hex().upper()}")]


KINDS = {"busy": next_rows, "calls": brief_call_rows, "findings": unsound_rows, "gaps": next_rows}


def packets(arguments):
    """Pairs of a side and the packet's octets in hex, without an end."""
    source = random.Random(arguments.seed)
    rows_of = KINDS[arguments.kind]
    # Lengths of data: many short ones, many full packets.
    lengths = [
        SIZE if source.random() < 0.3 else source.randint(1, SIZE) for _ in range(1024)
    ]
    channels = [Channel(number) for number in range(1, arguments.channels + 1)]
    since = 0
    while True:
        if arguments.restart_every and since >= arguments.restart_every:
            since = 0
            for channel in channels:
                channel.reset()
            yield "T", "1000FB0000"
            yield "N", "1000FF"
        channel = channels[source.randrange(len(channels))]
        for row in rows_of(channel, source, lengths):
            since += 1
            yield row


def with_gaps(rows, channels):
    """Rows with gap rows among them, of a channel each time and now and then of all."""
    for count, row in enumerate(rows, 1):
        yield row
        if count % GAP_EVERY == 0:
            yield "?", "*" if count % GAP_OF_ALL_EVERY == 0 else count // GAP_EVERY % channels + 1


def header(arguments):
    """The header of the trace."""
    terms = f"MOD 8 WIN {WINDOW} SIZE {SIZE} PVC 0"
    if arguments.kind == "gaps":
        return f"X25 3 {terms} IN 0 TWO {arguments.channels} OUT {arguments.channels}\n"
    return f"X25 1 {terms} SVC {arguments.channels}\n"


def main():
    parser = argparse.ArgumentParser(description=__doc__)
    parser.add_argument("--rows", type=int, default=1_000_000)
    parser.add_argument("--channels", type=int, default=64)
    parser.add_argument("--restart-every", type=int, default=0)
    parser.add_argument("--kind", choices=KINDS, default="busy")
    parser.add_argument("--seed", type=int, default=1)
    arguments = parser.parse_args()
    if not 1 <= arguments.channels <= 4095:
        parser.error("--channels is 1 to 4095")
    out = sys.stdout.buffer
    out.write(header(arguments).encode())
    rows = packets(arguments)
    if arguments.kind == "gaps":
        rows = with_gaps(rows, arguments.channels)
    lines = []
    for number, (side, octets) in zip(range(1, arguments.rows + 1), rows):
        lines.append(f"{number} {side} {octets}\n")
        if len(lines) == CHUNK:
            out.write("".join(lines).encode())
            lines.clear()
    out.write("".join(lines).encode())


if __name__ == "__main__":
    main()

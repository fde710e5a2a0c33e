#!/usr/bin/env python3
"""Writes a trace text as a capture: each row is the packet of a LAPB I frame of link type 207, a millisecond after the last.

The N(R) of each I frame acknowledges all of the other side's. Where a side sends four frames in a row, the other side
acknowledges them by an RR. The trace comes from standard input and has no gap rows; the capture goes to standard output.
"""
import struct
import sys

SECOND = 1_700_000_000
ADDRESS = {"T": 1, "N": 3}
OTHER = {"T": "N", "N": "T"}
RR = 1
MOST = 4
LINK_TYPE = 207


def records(rows):
    """The records of the frames of rows, each a side and the octets of a packet."""
    sent, acknowledged, number = {"T": 0, "N": 0}, {"T": 0, "N": 0}, 0
    for side, packet in rows:
        other = OTHER[side]
        yield record(number, side, bytes([ADDRESS[side], sent[other] % 8 << 5 | sent[side] % 8 << 1]) + packet)
        number += 1
        sent[side] += 1
        acknowledged[other] = sent[other]
        if sent[side] - acknowledged[side] == MOST:
            yield record(number, other, bytes([ADDRESS[side], sent[side] % 8 << 5 | RR]))
            number += 1
            acknowledged[side] = sent[side]


def record(number, side, frame):
    """A record of a pcap file, of a frame that the DTE recorded."""
    octets = bytes([side == "T"]) + frame
    return struct.pack("<IIII", SECOND + number // 1000, number % 1000 * 1000, len(octets), len(octets)) + octets


def rows_of(lines):
    """The rows after the header of a trace."""
    for line in lines:
        words = line.split()
        if words[0] != "X25":
            yield words[1], bytes.fromhex(words[2])


def main():
    out = sys.stdout.buffer
    out.write(struct.pack("<IHHIIII", 0xA1B2C3D4, 2, 4, 0, 0, 262_144, LINK_TYPE))
    for octets in records(rows_of(sys.stdin)):
        out.write(octets)


if __name__ == "__main__":
    main()

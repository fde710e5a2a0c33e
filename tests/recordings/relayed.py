"""Recordings of XOT between two hosts whose frames a relay lost, repeated and delayed. What each host sent is known.

Each recording is that of tcpdump on one host: it has all octets, many of them more than once or late. NAME.packets has the
packets of all connections in the order in which the hosts sent them, a line each: the port of the DTE, the side, the octets.
"""
from __future__ import annotations

import gzip
import pathlib
import random
import struct
import tempfile
from collections import defaultdict
from collections.abc import Iterator, Sequence

import runner

FOLDER = pathlib.Path(__file__).resolve().parent / "relayed"
# Of so many frames each, one is removed, as a recorder loses it.
ONE_OF = (200, 50, 20, 5)
GAP = "?"
Packets = dict[int, list[tuple[str, str]]]


def without_channel(digits: str) -> str:
    """The octets of a packet without its logical channel, which the trace changes."""
    return digits[0] + digits[4:]


def sent_in(path: pathlib.Path) -> Packets:
    """The packets that were sent, by the port of the DTE."""
    found: Packets = defaultdict(list)
    for line in gzip.decompress(path.read_bytes()).decode().splitlines():
        port, side, digits = line.split(" ")
        found[int(port)].append((side, without_channel(digits)))
    return found


def rows_in(trace: str) -> Packets:
    """The rows of a trace, by the port of the DTE."""
    ports, circuit = dict[str, int](), ""
    found: Packets = defaultdict(list)
    for line in trace.splitlines():
        words = line.split(" ")
        if line.startswith("#@ circuit "):
            ports[words[2]] = int(words[5])
        elif line.startswith("#@ "):
            circuit = words[3]
        elif line[0].isdigit():
            found[ports[circuit]].append((words[1], "" if words[1] == GAP else without_channel(words[2])))
    return found


def are_of(rows: Sequence[tuple[str, str]], sent: Sequence[tuple[str, str]]) -> bool:
    """Whether rows are the packets that were sent, in their order, and those that are missing are at gaps."""
    places, is_gap = {0}, False
    for row in rows:
        if row[0] == GAP:
            is_gap = True
            continue
        ways = range(min(places), len(sent)) if is_gap else sorted(places)
        places, is_gap = {at + 1 for at in ways if at < len(sent) and sent[at] == row}, False
        if not places:
            return False
    return is_gap or len(sent) in places


def frames_of(octets: bytes) -> Iterator[bytes]:
    """The records of a pcap file."""
    at = 24
    while at < len(octets):
        size = 16 + struct.unpack_from("<I", octets, at + 8)[0]
        yield octets[at:at + size]
        at += size


def printed(scanner: str, octets: bytes) -> str:
    """The trace that the program prints of a capture."""
    with tempfile.NamedTemporaryFile(suffix=".pcap") as file:
        file.write(octets)
        file.flush()
        return runner.run([scanner, "--trace", file.name]).output.decode()


def problems(scanner: str, path: pathlib.Path) -> Iterator[str]:
    """What is wrong with the rows of a recording, and of what is left of it where frames are removed."""
    octets, sent = gzip.decompress(path.read_bytes()), sent_in(path.with_name(path.name.replace(".pcap", ".packets")))
    rows = rows_in(printed(scanner, octets))
    yield from (f"port {port}: other rows than what was sent" for port in sent if rows[port] != sent[port])
    for one_of in ONE_OF:
        chance = random.Random(f"{path.name} {one_of}")
        left = octets[:24] + b"".join(frame for frame in frames_of(octets) if chance.randrange(one_of))
        rows = rows_in(printed(scanner, left))
        for port, packets in sent.items():
            # A connection without a row has no packet that is whole.
            if rows[port] and not are_of(rows[port], packets):
                yield f"port {port}, without one frame of {one_of}: rows that were not sent so"


def recordings() -> list[pathlib.Path]:
    """The recordings."""
    return sorted(FOLDER.glob("*.pcap.gz"))

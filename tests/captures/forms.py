"""Captures byte by byte: files, link headers, Internet packets, XOT and LAPB, after the formats' own descriptions."""
import functools
import struct

SECONDS = 1_700_000_000
DTE, DCE = "192.0.2.1", "192.0.2.2"


# Files ---------------------------------------------------------------------------------------------------------------

def pcap(link, frames, order="<", nano=False, snap=262_144, network=None, begin=0):
    """A pcap file; a frame is its octets, or the octets kept and the length on the line. Each is a second later."""
    magic = 0xA1B23C4D if nano else 0xA1B2C3D4
    head = struct.pack(order + "IHHIIII", magic, 2, 4, 0, 0, snap, link if network is None else network)
    return head + b"".join(record(frame, at, order) for at, frame in enumerate(frames, begin))


def record(frame, at=0, order="<"):
    octets, length = frame if isinstance(frame, tuple) else (frame, len(frame))
    return struct.pack(order + "IIII", SECONDS + at, at, len(octets), length) + octets


def modified(link, frames, order="<"):
    """A pcap file of the modified form; a frame is its octets and the kind of the packet, 4 for one that was sent."""
    more = [(octets, struct.pack(order + "IHBB", 2, 0x0800, kind, 0)) for octets, kind in frames]
    return with_more(0xA1B2CD34, link, more, order)


def with_more(magic, link, frames, order="<"):
    """A pcap file whose records have more in their headers; a frame is its octets and that."""
    file = struct.pack(order + "IHHIIII", magic, 2, 4, 0, 0, 262_144, link)
    for at, (octets, more) in enumerate(frames):
        file += struct.pack(order + "IIII", SECONDS + at, at, len(octets), len(octets)) + more + octets
    return file


def snoop(link, frames):
    """A snoop file: records of whole words of four octets."""
    file = b"snoop\0\0\0" + struct.pack(">II", 2, link)
    for at, octets in enumerate(frames):
        padded = octets + bytes(-len(octets) % 4)
        file += struct.pack(">IIIIII", len(octets), len(octets), 24 + len(padded), 0, SECONDS + at, at) + padded
    return file


def block(kind, body, order="<"):
    body += bytes(-len(body) % 4)
    length = struct.pack(order + "I", 12 + len(body))
    return struct.pack(order + "I", kind) + length + body + length


def option(code, value, order="<"):
    return struct.pack(order + "HH", code, len(value)) + value + bytes(-len(value) % 4)


def section(order="<"):
    return block(0x0A0D0D0A, struct.pack(order + "IHHq", 0x1A2B3C4D, 1, 0, -1), order)


def interface(link, snap=0, order="<", options=b""):
    return block(1, struct.pack(order + "HHI", link, 0, snap) + options, order)


def enhanced(octets, which=0, length=None, order="<", flags=None, time=0, options=b""):
    """An enhanced packet block; flags 1 is inbound, 2 outbound. The time is in units of the interface."""
    stamp = (time >> 32, time & 0xFFFFFFFF)
    head = struct.pack(order + "IIIII", which, *stamp, len(octets), len(octets) if length is None else length)
    body = head + octets + bytes(-len(octets) % 4)
    if flags is not None:
        body += option(2, struct.pack(order + "I", flags), order) + option(0, b"", order)
    return block(6, body + options, order)


def simple(octets, length=None, order="<"):
    return block(3, struct.pack(order + "I", len(octets) if length is None else length) + octets, order)


def obsolete(octets, which=0, order="<", time=0):
    stamp = (time >> 32, time & 0xFFFFFFFF)
    return block(2, struct.pack(order + "HHIIII", which, 0, *stamp, len(octets), len(octets)) + octets, order)


def dump(frames):
    """A hex dump; a frame is its octets and the line before it."""
    text = ""
    for octets, before in frames:
        text += before + "\n" if before else ""
        for at in range(0, len(octets), 16):
            text += f"{at:04x}  {octets[at:at + 16].hex(' ')}\n"
    return text.encode()


# Link headers --------------------------------------------------------------------------------------------------------

def ethernet(octets, kind=0x0800, tags=()):
    head = bytes.fromhex("020000000002 020000000001")
    for tag, vlan in tags:
        head += struct.pack(">HH", tag, vlan)
    return head + struct.pack(">H", kind) + octets


def cooked_1(octets, kind, protocol=0x0800):
    return struct.pack(">HHH8sH", kind, 1, 6, bytes.fromhex("0200000000010000"), protocol) + octets


def cooked_2(octets, kind, protocol=0x0800):
    return struct.pack(">HHIHBB8s", protocol, 0, 1, 1, kind, 6, bytes.fromhex("0200000000010000")) + octets


# The Internet --------------------------------------------------------------------------------------------------------

@functools.cache
def packed(address):
    if ":" in address:
        left, _, right = address.partition("::")
        parts = [[int(word, 16) for word in side.split(":") if word] for side in (left, right)]
        words = parts[0] + [0] * (8 - len(parts[0]) - len(parts[1])) + parts[1]
        return struct.pack(">8H", *words)
    return bytes(int(word) for word in address.split("."))


def checksum(octets):
    octets += bytes(len(octets) % 2)
    total = sum(struct.unpack(f">{len(octets) // 2}H", octets))
    while total >> 16:
        total = (total & 0xFFFF) + (total >> 16)
    return total ^ 0xFFFF


def ipv4(source, target, payload, place=0, more=False, identity=1, protocol=6):
    field = place // 8 | (0x2000 if more else 0)
    head = struct.pack(">BBHHHBBH", 0x45, 0, 20 + len(payload), identity, field, 64, protocol, 0)
    ends = packed(source) + packed(target)
    return head[:10] + struct.pack(">H", checksum(head + ends)) + ends + payload


def ipv6(source, target, payload, first=6):
    return struct.pack(">IHBB", 6 << 28, len(payload), first, 64) + packed(source) + packed(target) + payload


def udp(source_port, target_port, payload):
    return struct.pack(">HHHH", source_port, target_port, 8 + len(payload), 0) + payload


def gre(payload, kind=0x0800, flags=0, fields=b""):
    """GRE: flags 80 has a checksum, 20 a key, 10 a sequence number, each with four octets of the fields."""
    return struct.pack(">BBH", flags, 0, kind) + fields + payload


def mpls(payload, labels):
    """Labels, of which the last has the mark of the bottom."""
    stack = b""
    for at, label in enumerate(labels):
        stack += struct.pack(">I", label << 12 | (at == len(labels) - 1) << 8 | 64)
    return stack + payload


def pppoe(payload, protocol=0x0021):
    return struct.pack(">BBHHH", 0x11, 0, 7, 2 + len(payload), protocol) + payload


def tcp(source, target, ports, sequence, acknowledged, flags, payload=b""):
    acks = acknowledged is not None
    head = struct.pack(">HHIIBBHHH", *ports, sequence % 2**32, (acknowledged or 0) % 2**32, 0x50,
                       flags | (16 if acks else 0), 8192, 0, 0)
    pseudo = packed(source) + packed(target) + struct.pack(">II", len(head) + len(payload), 6)
    return head[:16] + struct.pack(">H", checksum(pseudo + head + payload)) + head[18:] + payload


class Talk:
    """One TCP connection; each call gives the Internet packet of the next segment of a side."""

    def __init__(self, ends=(DTE, DCE), ports=(1025, 1998), first=(1000, 5000), wrap=ipv4):
        self.ends, self.ports, self.wrap = ends, ports, wrap
        self.next = list(first)

    def segment(self, side, payload=b"", flags=0, acks=True, at=None, acknowledged=None):
        """A segment of a side (0 opened); at is its sequence number, where it is not the next one."""
        step = 1 if side == 0 else -1
        ends, ports = self.ends[::step], self.ports[::step]
        sequence = self.next[side] if at is None else at
        if acks and acknowledged is None:
            acknowledged = self.next[1 - side]
        segment = tcp(*ends, ports, sequence, acknowledged, flags, payload)
        if at is None:
            self.next[side] += len(payload) + bool(flags & 3)
        return self.wrap(*ends, segment)

    def open(self):
        return [self.segment(0, flags=2, acks=False), self.segment(1, flags=2), self.segment(0)]

    def close(self):
        return [self.segment(0, flags=1), self.segment(1, flags=1), self.segment(0)]

    def a(self, *packets):
        return self.segment(0, b"".join(map(xot, packets)))

    def b(self, *packets):
        return self.segment(1, b"".join(map(xot, packets)))


def xot(packet):
    """An XOT packet of the hex digits of one of X.25."""
    octets = bytes.fromhex(packet)
    return struct.pack(">HH", 0, len(octets)) + octets


# LAPB ----------------------------------------------------------------------------------------------------------------

def information(side, send, receive, packet, extended=False):
    """An I frame; commands of the DTE have the address 01, those of the DCE 03."""
    control = bytes((send << 1, receive << 1)) if extended else bytes((receive << 5 | send << 1,))
    return address(side, True) + control + bytes.fromhex(packet)


def ready(side, receive, reject=False, extended=False):
    """An RR or REJ, as a response."""
    kind = 9 if reject else 1
    return address(side, False) + (bytes((kind, receive << 1)) if extended else bytes((receive << 5 | kind,)))


def unnumbered(side, control, command):
    return address(side, command) + bytes((control,))


def address(side, command):
    return b"\x01" if (side == "T") == command else b"\x03"


def check(octets):
    """The frame check sequence: the remainder of the octets, low bits first, by x^16 + x^12 + x^5 + 1."""
    rest = 0xFFFF
    for octet in octets:
        for bit in range(8):
            feed = (rest ^ octet >> bit) & 1
            rest = rest >> 1 ^ (0x8408 if feed else 0)
    return struct.pack("<H", rest ^ 0xFFFF)

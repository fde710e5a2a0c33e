"""Tunnels, labels and sessions around the Internet packets of a conversation, and other files that hold its frames."""
from case import Case
from forms import *
from link_cases import REPORT, ROWS, carried, conversation, on_line, packets_of
from time_cases import MICROSECONDS
from tcp_cases import fragments

OUTER = ("198.51.100.1", "198.51.100.2")
OUTER_6 = ("2001:db8:f::1", "2001:db8:f::2")
KEY, CHECK, SEQUENCE = b"\0\0\0\7", b"\x12\x34\0\0", b"\0\0\0\1"


def on_ethernet(name, packets, kind=0x0800, **more):
    return carried(name, pcap(1, [ethernet(one, kind) for one in packets]), **more)


def in_ip(protocol, payloads):
    return [ipv4(*OUTER, payload, protocol=protocol) for payload in payloads]


def tunnel_cases():
    frames = conversation()
    sixes = conversation(ipv6, ("2001:db8::1", "2001:db8::2"))
    yield on_ethernet("ip-in-ip", in_ip(4, frames))
    yield on_ethernet("ipv6-in-ip", in_ip(41, sixes))
    yield on_ethernet("ip-in-ipv6", [ipv6(*OUTER_6, one, 4) for one in frames], 0x86DD)
    yield on_ethernet("gre", in_ip(47, [gre(one) for one in frames]))
    yield on_ethernet("gre-with-ipv6", in_ip(47, [gre(one, 0x86DD) for one in sixes]))
    yield on_ethernet("gre-with-a-key", in_ip(47, [gre(one, flags=0x20, fields=KEY) for one in frames]))
    all_fields = [gre(one, flags=0xB0, fields=CHECK + KEY + SEQUENCE) for one in frames]
    # The checksum is none: tshark does not look into what seems damaged to it.
    yield on_ethernet("gre-with-all-fields", in_ip(47, all_fields), tshark=None)
    yield on_ethernet("gre-with-ethernet", in_ip(47, [gre(ethernet(one), 0x6558) for one in frames]))
    yield on_ethernet("gre-with-mpls", in_ip(47, [gre(mpls(one, [16]), 0x8847) for one in frames]))
    yield on_ethernet("gre-on-ipv6", [ipv6(*OUTER_6, gre(one), 47) for one in frames], 0x86DD)
    vxlan = [udp(50_000, 4789, b"\x08\0\0\0\0\0\x07\0" + ethernet(one)) for one in frames]
    yield on_ethernet("vxlan", in_ip(17, vxlan))
    old = [udp(50_000, 8472, b"\x08\0\0\0\0\0\x07\0" + ethernet(one, tags=[(0x8100, 9)])) for one in frames]
    yield on_ethernet("vxlan-on-the-old-port", in_ip(17, old), tshark=None)
    halves = []
    for at, payload in enumerate([gre(one) for one in frames]):
        halves += fragments(ipv4(*OUTER, payload, protocol=47), 24, at)
    halves = [one[:9] + b"\x2f" + one[10:] for one in halves]
    yield rows_of_every_second("gre-in-fragments", pcap(101, halves))
    deep = frames
    for _ in range(8):
        deep = in_ip(4, deep)
    yield on_ethernet("ip-in-ip-eight-times", deep)


def rows_of_every_second(name, octets):
    """The conversation where each packet ends in the second of two frames."""
    rows = ROWS.splitlines(keepends=True)
    rows = rows[0] + "".join(f"{2 * int(row[0])}{row[1:]}" for row in rows[1:])
    report = "C 1 1 1 out - - 8 10 16 T 1 1 0 0 1\nA - 1 1\nP 1 10\nZ 6 0 1 1 1\n"
    return Case(name, octets, rows, report=report, tshark=None)


def label_cases():
    frames = conversation()
    yield on_ethernet("mpls", [mpls(one, [16]) for one in frames], 0x8847)
    yield on_ethernet("mpls-three-labels", [mpls(one, [16, 17, 18]) for one in frames], 0x8848)
    sixes = conversation(ipv6, ("2001:db8::1", "2001:db8::2"))
    yield on_ethernet("mpls-with-ipv6", [mpls(one, [16]) for one in sixes], 0x8847)
    wires = [mpls(b"\0\0\0\0" + ethernet(one), [16]) for one in frames]
    yield on_ethernet("mpls-with-ethernet", wires, 0x8847, tshark=None)
    yield on_ethernet("pppoe", [pppoe(one) for one in frames], 0x8864)
    yield on_ethernet("pppoe-with-ipv6", [pppoe(one, 0x0057) for one in sixes], 0x8864)
    tagged = [ethernet(pppoe(one), 0x8864, [(0x8100, 7)]) for one in frames]
    yield carried("pppoe-in-vlan", pcap(1, tagged))
    yield carried("mpls-in-ppp", pcap(9, [b"\xff\x03\x02\x81" + mpls(one, [16]) for one in frames]))
    yield carried("vlan-in-cooked-1", pcap(113, [cooked_1(b"\0\x05\x08\0" + one, 4, 0x8100) for one in frames]))


def file_cases():
    frames = [ethernet(one) for one in conversation()]
    yield carried("snoop", snoop(4, frames), ending="snoop")
    times = Case("snoop-times", snoop(0, frames), ROWS, report=REPORT, ending="snoop", times=MICROSECONDS,
                 tshark=None)
    yield times
    damaged = snoop(4, frames) + struct.pack(">IIIIII", 60, 60, 80, 0, 0, 0) + bytes(60)
    yield carried("snoop-damaged-record", damaged, ending="snoop", status=1, tshark=None)
    yield carried("snoop-ends-in-a-header", snoop(4, frames) + bytes(9), ending="snoop", status=1, tshark=None)
    for order, name in (("<", "little"), (">", "big")):
        yield carried(f"pcap-modified-{name}-endian", modified(1, [(one, 0) for one in frames], order))
    old_forms = (("red-hat", 0xA1B2C3D4, 8), ("nokia", 0xA1B2C3D4, 4), ("suse", 0xA1B2CD34, 12))
    for name, magic, more in old_forms:
        yield carried(f"pcap-of-{name}", with_more(magic, 1, [(one, bytes(more)) for one in frames]))
    directed = [(octets, 4 if side == "T" else 0) for side, octets in packets_of()]
    yield on_line("pcap-modified-directions", modified(147, directed), "--as 147=x25", tshark=None)


def port_cases():
    """XOT on port 2000 and on 1998, and a port whose segments have a length of four octets before text."""
    talk, other = Talk(ports=(1026, 2000)), Talk(ports=(1027, 3000))
    frames = conversation() + talk.open() + [talk.a("10010B0000"), talk.b("10010F")]
    frames += other.open() + [other.segment(at % 2, b"\0\0\0\5hello") for at in range(9)]
    frames += [other.segment(0, b"\0\0\0\4\x10\1\0")] * 3
    yield carried("port-that-looks-like-xot", pcap(101, frames))


def cases():
    for topic in (tunnel_cases, label_cases, file_cases, port_cases):
        yield from topic()

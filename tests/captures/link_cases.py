"""A conversation by every link type and file format; the rows are the same wherever the frames are."""
from case import Case, gaps_header, text
from forms import *

CALL, ACCEPTED, DATA, READY = "10010B0000", "10010F", "100100AA", "100121"
CLEAR, CONFIRMED = "1001130000", "100117"
RESTART, RESTARTED = "1000FB0700", "1000FF"

# The opening of the connection is frames 1 to 3, its end 10 to 12.
ROWS = text("""
    X25 1 MOD 8 WIN 1 SIZE 16 PVC 0 SVC 1
    4 T 10010B0000
    5 N 10010F
    6 T 100100AA
    7 N 100121
    8 T 1001130000
    9 N 100117
""")
REPORT = text("""
    C 1 1 1 out - - 4 5 8 T 1 1 0 0 1
    A - 1 1
    P 1 5
    Z 6 0 1 1 1
""")
SIX = (("T", CALL), ("N", ACCEPTED), ("T", DATA), ("N", READY), ("T", CLEAR), ("N", CONFIRMED))

# The same packets on a line, after a restart: frames 1 to 8.
LINE = (("T", RESTART), ("N", RESTARTED)) + SIX
LINE_ROWS = text("""
    X25 1 MOD 8 WIN 1 SIZE 16 PVC 0 SVC 1
    1 T 1000FB0700
    2 N 1000FF
    3 T 10010B0000
    4 N 10010F
    5 T 100100AA
    6 N 100121
    7 T 1001130000
    8 N 100117
""")
LINE_REPORT = text("""
    C 1 2 1 out - - 3 4 7 T 1 1 0 0 1
    A - 1 1
    P 1 4
    Z 8 0 1 1 1
""")


def conversation(wrap=ipv4, ends=(DTE, DCE)):
    """A connection from its opening to its end, with a call that is set up, used and cleared: twelve segments."""
    talk = Talk(ends, wrap=wrap)
    frames = talk.open()
    frames += [talk.a(packet) if side == "T" else talk.b(packet) for side, packet in SIX]
    return frames + talk.close()


def line(packets=LINE):
    """The packets of a line in LAPB I frames: the side, and the frame."""
    sent = {"T": 0, "N": 0}
    for side, packet in packets:
        other = "N" if side == "T" else "T"
        yield side, information(side, sent[side] % 8, sent[other] % 8, packet)
        sent[side] += 1


def packets_of(pairs=LINE):
    return [(side, bytes.fromhex(packet)) for side, packet in pairs]


def carried(name, octets, words="", **more):
    return Case(name, octets, ROWS, words, report=REPORT, **more)


def on_line(name, octets, words="", **more):
    return Case(name, octets, LINE_ROWS, words, report=LINE_REPORT, **more)


def six(source, target, payload):
    """IPv6 with a hop-by-hop header, a routing header and destination options before TCP."""
    options = bytes.fromhex("2b 00 01 04 00 00 00 00") + bytes.fromhex("3c 00 00 00 00 00 00 00")
    return ipv6(source, target, options + bytes.fromhex("06 00 01 04 00 00 00 00") + payload, 0)


def internet_cases():
    frames = conversation()
    sixes = conversation(six, ("2001:db8::1", "2001:db8::2"))
    yield carried("ethernet", pcap(1, [ethernet(one) for one in frames]))
    yield carried("ethernet-padded", pcap(1, [ethernet(one).ljust(60, b"\x55") for one in frames]))
    yield carried("vlan", pcap(1, [ethernet(one, tags=[(0x8100, 5)]) for one in frames]))
    yield carried("vlan-in-vlan", pcap(1, [ethernet(one, tags=[(0x88A8, 5), (0x8100, 6)]) for one in frames]))
    yield carried("ipv6-with-extension-headers", pcap(1, [ethernet(one, 0x86DD) for one in sixes]))
    yield carried("cooked-1", pcap(113, [cooked_1(one, 4) for one in frames]))
    yield carried("cooked-2", pcap(276, [cooked_2(one, 0) for one in frames]))
    for link in (12, 14, 101, 228):
        yield carried(f"raw-ip-{link}", pcap(link, frames), tshark=None if link in (12, 14) else [])
    yield carried("raw-ip-229", pcap(229, sixes))
    yield carried("bsd-loopback", pcap(0, [b"\x02\0\0\0" + one for one in frames]))
    yield carried("ppp", pcap(9, [b"\xff\x03\0\x21" + one for one in frames]))
    yield carried("ppp-in-hdlc", pcap(50, [b"\xff\x03\0\x21" + one for one in frames]))
    yield carried("cisco-hdlc", pcap(104, [b"\x0f\0\x08\0" + one for one in frames]))


def lapb_cases():
    frames = list(line())
    flagged = [bytes((side == "T",)) + frame for side, frame in frames]
    bare = [frame for _, frame in frames]
    # tshark does not know link type 207.
    yield on_line("lapb-with-direction", pcap(207, flagged), tshark=None)
    yield on_line("lapb-on-a-user-link-type", pcap(147, bare), "--as 147=lapb",
                  tshark=["-o", 'uat:user_dlts:"User 0 (DLT=147)","lapb","0","","0",""'])
    yield on_line("lapb-with-direction-on-a-user-link-type", pcap(150, flagged), "--as lapb-dir", tshark=None)
    yield on_line("lapb-in-cisco-hdlc", pcap(104, bare), tshark=None)
    yield on_line("lapb-in-ppp", pcap(50, bare), tshark=None)
    cooked = [cooked_1(frame, 4 if side == "T" else 0, 0x0019) for side, frame in frames]
    yield on_line("lapb-in-cooked-1", pcap(113, cooked), tshark=None)
    over = [ethernet(len(frame).to_bytes(2, "little") + frame, 0x6000).ljust(60, b"\0") for frame in bare]
    yield on_line("lapb-over-ethernet", pcap(1, over), tshark=None)
    checked = [frame + check(frame) for frame in bare]
    yield on_line("hdlc-with-check-sequence", pcap(147, checked), "--as 147=hdlc", tshark=None)
    flags = [b"\x7e" + frame + b"\x7e" for frame in checked]
    yield on_line("hdlc-with-flags", pcap(147, flags), "--as 147=hdlc", tshark=None)
    yield check_that_ends_like_a_flag()


def check_that_ends_like_a_flag():
    """Interrupts whose check sequences end with the octet of a flag, with flags and without."""
    frames = [information("N", 0, 0, f"100123{octet:02X}{octet2:02X}") for octet in range(256) for octet2 in (0, 1)]
    ends = [frame + check(frame) for frame in frames if check(frame)[1:] == b"\x7e"][:2]
    rows = gaps_header(join=True)
    rows += f"1 N {ends[0][2:-2].hex().upper()}\n"
    return Case("hdlc-check-sequence-that-ends-like-a-flag", pcap(147, [b"\x7e" + ends[0] + b"\x7e\x7e", ends[0]]), rows,
                "--as 147=hdlc", status=1, report="P 0 -\nG 0\nZ 1 0 0 0 0\n", tshark=None)


def packet_cases():
    """Packets without a link header; cooked captures, pcapng or an octet show who sent them."""
    packets = packets_of()
    cooked = [cooked_1(octets, 4 if side == "T" else 0, 0x0805) for side, octets in packets]
    yield on_line("x25-in-cooked-1", pcap(113, cooked), tshark=None)
    device = [cooked_2(b"\0" + octets, 4 if side == "T" else 0, 0x0805) for side, octets in packets]
    yield on_line("x25-in-cooked-2-of-a-linux-device", pcap(276, device), tshark=None)
    words = [cooked_1(b"\x01", 4, 0x0805), cooked_1(b"\x01", 0, 0x0805)]
    rows = "".join(shifted(line, 2) for line in LINE_ROWS.splitlines(keepends=True))
    report = "C 1 2 1 out - - 5 6 9 T 1 1 0 0 1\nA - 1 1\nP 1 6\nZ 8 0 1 1 1\n"
    yield Case("words-of-a-linux-device", pcap(113, words + cooked), rows, report=report, tshark=None)
    directed = [bytes((side == "T",)) + octets for side, octets in packets]
    yield on_line("x25-with-direction-on-a-user-link-type", pcap(147, directed), "--as 147=x25-dir", tshark=None)
    swapped = [bytes((side == "N",)) + octets for side, octets in packets]
    yield on_line("x25-recorded-by-the-dce", pcap(147, swapped), "--as 147=x25-dir --swap", tshark=None)


def shifted(row, many):
    """A row with a number that is higher; the header as it is."""
    number, rest = row.split(" ", 1)
    return row if number == "X25" else f"{int(number) + many} {rest}"


def file_cases():
    frames = [ethernet(one) for one in conversation()]
    yield carried("pcap-big-endian", pcap(1, frames, ">"))
    yield carried("pcap-nanoseconds", pcap(1, frames, nano=True))
    yield carried("pcap-big-endian-nanoseconds", pcap(1, frames, ">", True))
    checks = [frame + b"\x11\x22\x33\x44" for frame in frames]
    yield carried("pcap-frame-check-sequences", pcap(1, checks, network=1 | 1 << 26 | 2 << 28), tshark=None)
    for name, order in (("little", "<"), ("big", ">")):
        blocks = section(order) + interface(1, order=order) + b"".join(enhanced(one, order=order) for one in frames)
        yield carried(f"pcapng-{name}-endian", blocks, ending="pcapng")
    halves = section() + interface(1) + b"".join(enhanced(one) for one in frames[:6])
    halves += section(">") + interface(101, order=">") + b"".join(enhanced(one[14:], order=">") for one in frames[6:])
    yield carried("pcapng-two-sections", halves, ending="pcapng")
    two = section() + interface(1) + interface(101)
    two += b"".join(enhanced(one[14 * (at % 2):], at % 2) for at, one in enumerate(frames))
    yield carried("pcapng-two-interfaces", two, ending="pcapng")
    yield carried("pcapng-simple-blocks", section() + interface(1) + b"".join(map(simple, frames)), ending="pcapng")
    old = section() + interface(1) + b"".join(map(obsolete, frames))
    yield carried("pcapng-obsolete-blocks", old, ending="pcapng")
    yield from direction_cases()
    yield from number_cases(frames)


def direction_cases():
    """Packets that say inbound or outbound in pcapng, or come from an interface that records one wire."""
    user = ["-o", 'uat:user_dlts:"User 0 (DLT=147)","x.25","0","","0",""']
    flags = [enhanced(octets, flags=2 if side == "T" else 1) for side, octets in packets_of()]
    yield on_line("pcapng-directions", section() + interface(147) + b"".join(flags), "--as 147=x25", ending="pcapng",
                  tshark=user)
    wires = [enhanced(octets, int(side == "N")) for side, octets in packets_of()]
    yield on_line("pcapng-an-interface-for-each-wire", section() + interface(147) * 2 + b"".join(wires),
                  "--as 147=x25 --sender 0=dte --sender 1=dce", ending="pcapng", tshark=user)
    other = section() + interface(147) + interface(1) + b"".join(flags[:4])
    other += enhanced(ethernet(conversation()[0]), 1) + b"".join(flags[4:])
    rows = LINE_ROWS.replace("\n8 ", "\n9 ").replace("\n7 ", "\n8 ").replace("\n6 ", "\n7 ").replace("\n5 ", "\n6 ")
    report = "C 1 2 1 out - - 3 4 8 T 1 1 0 0 1\nA - 1 1\nP 1 4\nZ 8 0 1 1 1\n"
    yield Case("pcapng-one-interface-of-two", other, rows, "--as 147=x25 --interface 0", report=report, ending="pcapng",
               tshark=None)


def number_cases(frames):
    """Blocks without frames: statistics and names have no number; custom blocks and journals count for Wireshark."""
    custom = struct.pack("<I", 32473) + b"note"
    blocks = [enhanced(one) for one in frames]
    blocks[2:2] = [block(5, struct.pack("<III", 0, 0, 0)), block(4, struct.pack("<I", 0))]
    file = section() + interface(1) + b"".join(blocks)
    yield carried("pcapng-blocks-without-a-number", file, ending="pcapng")
    blocks[2:4] = [block(9, b"__REALTIME_TIMESTAMP=1700000000000000\nMESSAGE=note\n"), block(0xBAD, custom)]
    rows = "".join(shifted(line, 2) for line in ROWS.splitlines(keepends=True))
    report = "C 1 1 1 out - - 6 7 10 T 1 1 0 0 1\nA - 1 1\nP 1 7\nZ 6 0 1 1 1\n"
    file = section() + interface(1) + b"".join(blocks)
    yield Case("pcapng-blocks-with-a-number", file, rows, report=report, ending="pcapng")


def dump_cases():
    said = [(octets, "O" if side == "T" else "I 10:15:14.5476") for side, octets in packets_of()]
    yield on_line("dump-of-packets", dump(said), "--as x25", ending="txt", tshark=None)
    yield on_line("dump-of-lapb", dump([(frame, "") for _, frame in line()]), "--as lapb", ending="txt", tshark=None)
    text_column = ""
    for octets in map(ethernet, conversation()):
        for at in range(0, len(octets), 16):
            part = octets[at:at + 16]
            shown = "".join(chr(one) if 32 < one < 127 else "." for one in part)
            text_column += f"{at:04x}  {part.hex(' '):<47}   {shown}\n"
        text_column += "\n"
    yield carried("dump-of-ethernet-with-a-text-column", text_column.encode(), "--as ethernet", ending="txt",
                  tshark=None)


def cases():
    for topic in (internet_cases, lapb_cases, packet_cases, file_cases, dump_cases):
        yield from topic()

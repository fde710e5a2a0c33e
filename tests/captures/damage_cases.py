"""Damaged files: each damage is reported with its offset, and what can be read is read."""
from case import Case, gaps_header, text, with_gaps
from forms import *
from link_cases import CALL, LINE_REPORT, LINE_ROWS, REPORT, ROWS, SIX, conversation, packets_of, shifted

HEADER, RECORD = 24, 16


def parts():
    """The records of the conversation in a pcap file."""
    return [record(ethernet(one), at) for at, one in enumerate(conversation())]


def file_header():
    return pcap(1, [])


def pcap_cases():
    records = parts()
    file = file_header() + b"".join(records)
    yield Case("pcap-ends-in-a-header", file + records[0][:7], ROWS, status=1, report=REPORT, tshark=None)
    # Of the last record, the confirmation of the clear, the packet's last octet is missing.
    cut = file_header() + b"".join(records[:9])[:-1]
    rows = gaps_header(1, 16) + "".join(ROWS.splitlines(keepends=True)[1:-1]) + "9 ? 1\n"
    yield Case("pcap-ends-in-a-record", cut, rows, status=1, tshark=None,
               report=with_gaps(REPORT.replace("Z 6", "Z 5"), 1))
    # A record header of nonsense, and eleven octets that look like nothing.
    bad = file_header() + b"".join(records[:5]) + b"\xff" * 27 + b"".join(records[5:])
    yield Case("pcap-damaged-record", bad, ROWS, status=1, report=REPORT, tshark=None)
    # The length of record 6 is damaged: the frame with the data packet is lost.
    lost = bytearray(records[5])
    lost[8:12] = b"\xff\xff\xff\x7f"
    again = [record(ethernet(one), 20 + at) for at, one in enumerate(conversation_again())]
    bad = file_header() + b"".join(records[:5]) + lost + b"".join(records[6:] + again)
    yield Case("pcap-damaged-length", bad, text("""
        X25 3 MOD 8 WIN 1 SIZE 16 PVC 0 IN 0 TWO 2 OUT 2
        4 T 10010B0000
        5 N 10010F
        6 ? 1
        7 N 100121
        8 T 1001130000
        9 N 100117
        15 T 10020B0000
        16 N 10020F
        17 T 100200AA
        18 N 100221
        19 T 1002130000
        20 N 100217
    """), status=1, report=text("""
        C 1 1 1 out - - 4 5 8 T 0 0 0 0 0
        C 2 1 2 out - - 15 16 19 T 1 1 0 0 1
        A - 2 1
        P 1 5
        G 1
        Z 11 0 2 1 1
    """), tshark=None)
    frames = [ethernet(one) for one in conversation()]
    cut = [(b"\2\0\0\0\0\2", 60), (frames[0][:20], 54), (frames[0][:40], 54)]
    yield Case("pcap-cut-headers", pcap(1, cut + frames),
               "".join(shifted(row, 3) for row in ROWS.splitlines(keepends=True)), status=1, tshark=None,
               report="C 1 1 1 out - - 7 8 11 T 1 1 0 0 1\nA - 1 1\nP 1 8\nZ 6 0 1 1 1\n")


def conversation_again():
    talk = Talk(ports=(1026, 1998))
    frames = talk.open()
    return frames + [talk.a(packet) if side == "T" else talk.b(packet) for side, packet in SIX] + talk.close()


def pcapng_cases():
    blocks = [enhanced(ethernet(one)) for one in conversation()]
    start = section() + interface(1)
    file = start + b"".join(blocks)

    def case(name, octets, rows=ROWS, report=REPORT):
        return Case(name, octets, rows, status=1, report=report, ending="pcapng", tshark=None)

    yield case("pcapng-ends-in-a-head", file + blocks[0][:7])
    yield case("pcapng-ends-in-a-block", file + blocks[0][:30])
    # The last block is cut after its frame, of which nothing is missing.
    yield case("pcapng-ends-behind-a-frame", start + b"".join(blocks[:9])[:-3])
    differ = blocks[4][:-4] + struct.pack("<I", 100)
    yield case("pcapng-lengths-differ", start + b"".join(blocks[:4]) + differ + b"".join(blocks[5:]))
    yield case("pcapng-damaged-block", start + b"".join(blocks[:5]) + b"\xff" * 24 + b"".join(blocks[5:]))
    # Packets without a link header have no numbers that show whether one is missing.
    packets = [enhanced(octets, flags=2 if side == "T" else 1) for side, octets in packets_of()]
    bad = section() + interface(147) + b"".join(packets[:4]) + b"\xff" * 24 + b"".join(packets[4:])
    rows = LINE_ROWS.splitlines(keepends=True)[1:]
    rows = gaps_header(1, 16) + "".join([*rows[:4], "5 ? *\n", *(f"{int(row[0]) + 1}{row[1:]}" for row in rows[4:])])
    yield Case("pcapng-damaged-block-of-a-line", bad, rows, "--as 147=x25 --win 1 --size 16", status=1, ending="pcapng",
               tshark=None, report="C 1 2 1 out - - 3 4 8 T 1 1 0 0 1\nA - 1 1\nP 1 4\nG 1\nZ 8 0 1 1 1\n")
    undescribed = enhanced(ethernet(conversation()[0]), 7)
    rows = "".join(shifted(row, 1) for row in ROWS.splitlines(keepends=True))
    report = "C 1 1 1 out - - 5 6 9 T 1 1 0 0 1\nA - 1 1\nP 1 6\nZ 6 0 1 1 1\n"
    yield case("pcapng-undescribed-interface", start + undescribed + b"".join(blocks), rows, report)
    yield case("pcapng-short-block", start + block(6, bytes(12)) + b"".join(blocks), rows, report)
    # The captured length of a block is more than the block holds.
    long = bytearray(blocks[0])
    long[20:24] = struct.pack("<I", 200)
    yield case("pcapng-captured-length-too-long", start + bytes(long) + b"".join(blocks), rows, report)


def dump_cases():
    said = [(octets, "O" if side == "T" else "I") for side, octets in packets_of()]
    good = dump(said).decode()

    def case(name, octets, rows, report, **more):
        return Case(name, octets.encode(), rows, "--as x25", status=1, report=report, ending="txt", tshark=None, **more)

    yield case("dump-line-without-a-beginning", "0010  00 11\n" + good, LINE_ROWS, LINE_REPORT)
    # A line of the data packet is missing: the packet is left out, and a gap row is in its place.
    broken = good.replace("0000  10 01 00 aa", "0000  10 01 00 aa\n0010  bb")
    rows = gaps_header() + "".join(LINE_ROWS.splitlines(keepends=True)[1:]).replace("5 T 100100AA", "5 ? 1")
    yield case("dump-line-missing", broken, rows, text("""
        C 1 2 1 out - - 3 4 7 T 0 0 0 0 0
        A - 1 0
        P 1 4
        G 1
        Z 7 0 1 0 0
    """))
    # Without I or O before them the second and the third packet have no side: each is a gap.
    unsaid = dump([said[0], (said[1][0], ""), (said[2][0], "T")] + said[3:])
    rows = text("""
        X25 3 MOD 8 WIN 1 SIZE 16 PVC 0 IN 0 TWO 1 OUT 1
        1 T 1000FB0700
        2 ? *
        3 ? 1
        4 N 10010F
        5 T 100100AA
        6 N 100121
        7 T 1001130000
        8 N 100117
    """)
    yield case("dump-without-a-side", unsaid.decode(), rows, text("""
        P 0 -
        G 2
        Z 6 0 0 0 0
    """))


def link_type_cases():
    """A file with an unknown link type and a known one."""
    frames = [ethernet(one) for one in conversation()]
    file = section() + interface(1) + interface(148) + b"".join(map(enhanced, frames)) + enhanced(b"abcd", 1) * 2
    yield Case("pcapng-unknown-link-type", file, ROWS, status=1, report=REPORT, ending="pcapng", tshark=None)


def cases():
    for topic in (pcap_cases, pcapng_cases, dump_cases, link_type_cases):
        yield from topic()

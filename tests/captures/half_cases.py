"""Recordings of one side alone: the DTE or the DCE, on some connections, on a link, or on the whole line."""
from case import Case, gaps_header, text
from forms import *
from lapb_cases import data
from link_cases import ACCEPTED, CALL, CLEAR, CONFIRMED, RESTART
from tcp_cases import file_of

FIRST = [(0, CALL), (1, ACCEPTED), (0, "100100AA"), (1, "100121"), (0, CLEAR), (1, CONFIRMED)]
UNCLEARED = [(0, CALL), (1, ACCEPTED), (1, "100100AA"), (0, "100121"), (1, "1001130501"), (0, CONFIRMED)]
GIVEN = "--win 2 --size 128"


def connection(talk, packets, only=None):
    """The segments of a connection, of which only those of one side may be recorded."""
    sent = [(0, talk.segment(0, flags=2, acks=False)), (1, talk.segment(1, flags=2)), (0, talk.segment(0))]
    sent += [(side, talk.segment(side, xot(packet))) for side, packet in packets]
    sent += [(0, talk.segment(0, flags=1)), (1, talk.segment(1, flags=1)), (0, talk.segment(0))]
    return [segment for side, segment in sent if only in (None, side)]


def talks():
    """Connections of one pair of hosts, each from a port of its own."""
    return (Talk(ports=(port, 1998)) for port in range(1025, 1100))


def header(last):
    return f"X25 1 MOD 8 WIN 2 SIZE 128 PVC 0 SVC {last}\n"


def one_direction():
    """Ports were mirrored in one direction alone."""
    frames = [segment for talk, _ in zip(talks(), range(3)) for segment in connection(talk, FIRST, 0)]
    yield Case("half-dte-on-all-connections", file_of(frames), gaps_header(last=3) + text("""
        3 T 10010B0000
        4 ? 1
        5 T 100100AA
        6 ? 1
        7 T 1001130000
        10 T 10020B0000
        11 ? 2
        12 T 100200AA
        13 ? 2
        14 T 1002130000
        17 T 10030B0000
        18 ? 3
        19 T 100300AA
        20 ? 3
        21 T 1003130000
        22 ? 1
        23 ? 2
        24 ? 3
    """), GIVEN, status=1, report=text("""
        C 1 1 1 out - - 3 5 7 T 1 1 0 0 1
        C 2 1 2 out - - 10 12 14 T 1 1 0 0 1
        C 3 1 3 out - - 17 19 21 T 1 1 0 0 1
        A - 3 3
        P 1 5
        G 9
        Z 9 0 3 3 3
    """), tshark=None)
    frames = connection(Talk(), UNCLEARED, 1)
    yield Case("half-dce-on-one-connection", file_of(frames), gaps_header() + text("""
        1 ? 1
        2 N 10010F
        3 N 100100AA
        4 ? 1
        5 N 1001130501
        6 ? 1
    """), GIVEN, status=1, report="P 0 -\nG 3\nZ 3 0 0 0 0\n", tshark=None)


def among_others():
    """The second and the third of four connections were recorded in one direction, each in another one."""
    one, two, three, four = (talk for talk, _ in zip(talks(), range(4)))
    frames = connection(one, FIRST) + connection(two, FIRST, 0) + connection(three, FIRST, 1) + connection(four, FIRST)
    yield Case("half-connections-among-whole-ones", file_of(frames), gaps_header(last=4) + text("""
        4 T 10010B0000
        5 N 10010F
        6 T 100100AA
        7 N 100121
        8 T 1001130000
        9 N 100117
        15 T 10020B0000
        16 ? 2
        17 T 100200AA
        18 ? 2
        19 T 1002130000
        20 ? 3
        21 N 10030F
        22 ? 3
        23 N 100321
        24 ? 3
        25 N 100317
        28 T 10040B0000
        29 N 10040F
        30 T 100400AA
        31 N 100421
        32 T 1004130000
        33 N 100417
        34 ? 2
        35 ? 3
    """), GIVEN, status=1, report=text("""
        C 1 1 1 out - - 4 5 8 T 1 1 0 0 1
        C 2 1 2 out - - 15 17 19 T 1 1 0 0 1
        C 3 1 4 out - - 28 29 32 T 1 1 0 0 1
        A - 3 3
        P 1 5
        G 7
        Z 18 0 3 3 3
    """), tshark=None)


def acknowledged():
    """The DTE acknowledges octets of the DCE, of which only the opening segment was recorded."""
    talk = Talk()
    frames = connection(talk, FIRST, 0)
    frames.insert(1, Talk().segment(1, flags=2, acknowledged=1001))
    yield Case("half-dce-acknowledged-and-not-recorded", file_of(frames), gaps_header() + text("""
        4 T 10010B0000
        5 ? 1
        6 T 100100AA
        7 ? 1
        8 T 1001130000
        9 ? 1
    """), GIVEN, status=1, report="C 1 1 1 out - - 4 6 8 T 1 1 0 0 1\nA - 1 1\nP 1 6\nG 3\nZ 3 0 1 1 1\n", tshark=None)


def whole():
    """A call that was not answered yet: the segments of the DCE show that it sent no packet."""
    talk = Talk()
    frames = talk.open() + [talk.a(CALL), talk.segment(1)]
    yield Case("half-not-where-the-other-side-is-silent", file_of(frames), header(1) + "4 T 10010B0000\n", GIVEN,
               report="C 1 1 1 out - - 4 - - open 0 0 0 0 0\nA - 1 0\nP 0 -\nZ 1 0 1 0 0\n")


def links():
    """A link of which one direction was recorded, one whose DCE only acknowledges, and packets of one side."""
    wire = [information("T", at, 0, packet) for at, packet in enumerate((RESTART, CALL, data(0)))]
    rows = "X25 1 MOD 8 WIN 2 SIZE 128 PVC 0 SVC 1\n" + text("""
        1 T 1000FB0700
        2 T 10010B0000
        3 T 100100A0
    """)
    report = "F {0} T r2 18\nP 0 -\nZ 3 1 0 0 0\n"
    words = f"--as 147=lapb {GIVEN}"
    yield Case("half-dte-on-a-link", pcap(147, wire), rows, words, status=1, report=report.format(2), tshark=None)
    answered = [wire[0], ready("N", 1), wire[1], ready("N", 2), wire[2], ready("N", 3)]
    numbered = rows.replace("\n3 T", "\n5 T").replace("\n2 T", "\n3 T")
    yield Case("half-not-where-the-dce-acknowledges", pcap(147, answered), numbered, words, report=report.format(3),
               tshark=None)
    sent = [bytes((1,)) + bytes.fromhex(packet) for packet in (RESTART, CALL, data(0))]
    yield Case("half-dte-without-a-link-header", pcap(147, sent), rows, f"--as 147=x25-dir {GIVEN}", status=1,
               report=report.format(2), tshark=None)


def cases():
    for topic in (one_direction, among_others, acknowledged, whole, links):
        yield from topic()

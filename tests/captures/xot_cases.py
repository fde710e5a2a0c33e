"""XOT: where a recording begins in the middle, the two hosts, circuits and their channels, packets that are none."""
from case import Case, gaps_header, text, with_gaps
from forms import *
from link_cases import ACCEPTED, CALL, CLEAR, CONFIRMED, DATA, READY, REPORT, ROWS
from tcp_cases import SENT, SIX, call, file_of, header, report

OTHER = "192.0.2.3"
MIDDLE = [(0, "100146AA"), (1, "100181"), (1, "100184BB"), (0, CLEAR), (1, CONFIRMED), (0, CALL), (1, ACCEPTED)]
LINE_1024 = [packet[:1] + "400" + packet[4:] for packet in SIX]


def middle(window, first, sides_and_packets):
    """Rows of a recording that begins inside of a connection: a gap row with a number, and the packets after it."""
    rows = gaps_header(window, 16) + f"{first} ? 1\n"
    for number, (side, packet) in enumerate(sides_and_packets, first + 1):
        rows += f"{number} {'TN'[side]} {packet}\n"
    return rows


def from_the_middle():
    talk = Talk()
    frames = [talk.segment(side, xot(packet)) for side, packet in MIDDLE]
    yield Case("xot-from-the-middle", file_of(frames), middle(1, 1, MIDDLE),
               report=with_gaps(report(7, 8, None, 0, 7), 1))
    talk = Talk()
    frames = [talk.segment(0, xot(SENT[0])[6:])] + [talk.segment(side, xot(packet)) for side, packet in MIDDLE]
    yield Case("xot-from-the-middle-of-a-packet", file_of(frames), middle(1, 1, MIDDLE), status=1,
               report=with_gaps(report(7, 8, None, 0, 7), 1), tshark=None)
    # The first frame is of the host with the XOT port; of the DCE's data nothing was acknowledged before.
    talk = Talk()
    frames = [talk.segment(side, xot(packet)) for side, packet in MIDDLE[1:]]
    yield Case("xot-from-the-middle-server-first", file_of(frames), middle(2, 1, MIDDLE[1:]),
               report=with_gaps(report(6, 7, None, 0, 6), 1))


def both_ways():
    """Two connections of one pair of hosts, each opened by another one; both use logical channel 1024."""
    one, two = Talk(), Talk((DCE, DTE), (1025, 1998))
    frames = one.open() + two.open() + call(one, LINE_1024[:2]) + call(two, LINE_1024[:2])
    return file_of(frames + call(one, LINE_1024[2:]) + call(two, LINE_1024[2:]) + one.close() + two.close())


def rows_both_ways(sides):
    """Who sends in the first connection, and who answers; in the second one the DTE sends."""
    first, second = sides
    return text(f"""
        7 {first} 10010B0000
        8 {second} 10010F
        9 T 10020B0000
        10 N 10020F
        11 {first} 100100AA
        12 {second} 100121
        13 {first} 1001130000
        14 {second} 100117
        15 T 100200AA
        16 N 100221
        17 T 1002130000
        18 N 100217
    """)


def circuits_of_one_pair():
    second = text("""
        C 2 1 2 out - - 9 10 17 T 1 1 0 0 1
        A - 2 2
        P 2 10
        Z 12 0 2 2 2
    """)
    outgoing, incoming = "C 1 1 1 out - - 7 8 13 T 1 1 0 0 1\n", "C 1 1 1 in - - 7 8 13 N 0 0 1 1 1\n"
    yield Case("xot-circuits-of-one-pair", both_ways(), header(last=2) + rows_both_ways("TN"), report=outgoing + second)
    yield Case("xot-dte-by-its-address", both_ways(), header(last=2) + rows_both_ways("NT"), "--dte 192.0.2.2",
               report=incoming + second)
    # The DTE's call may not have channel 1, which is for incoming calls, nor the DCE's channel 2.
    one_way = "X25 2 MOD 8 WIN 1 SIZE 16 PVC 0 IN 1 TWO 1 OUT 2\n"
    yield Case("xot-one-way-channels", both_ways(), one_way + rows_both_ways("NT"),
               "--dte 192.0.2.2 --in 1 --two 1 --out 2", report=incoming + second)


def no_channel_left():
    yield Case("xot-no-channel-left", both_ways(), header() + text("""
        7 T 10010B0000
        8 N 10010F
        11 T 100100AA
        12 N 100121
        13 T 1001130000
        14 N 100117
    """), "--svc 1", status=1, report=report(7, 8, 13, 1, 6), tshark=None)


def channel_used_again():
    one, two = Talk(), Talk(ports=(1026, 1998))
    frames = one.open() + call(one) + one.close() + two.open() + call(two) + two.close()
    yield Case("xot-channel-used-again", file_of(frames), header() + text("""
        4 T 10010B0000
        5 N 10010F
        6 T 100100AA
        7 N 100121
        8 T 1001130000
        9 N 100117
        16 T 10010B0000
        17 N 10010F
        18 T 100100AA
        19 N 100121
        20 T 1001130000
        21 N 100117
    """), "--svc 1", report=text("""
        C 1 1 1 out - - 4 5 8 T 1 1 0 0 1
        C 2 1 1 out - - 16 17 20 T 1 1 0 0 1
        A - 2 2
        P 1 5
        Z 12 0 2 2 2
    """))


def other_host():
    one, two = Talk(), Talk((OTHER, DCE))
    frames = one.open() + call(one) + one.close() + two.open() + call(two) + two.close()
    yield Case("xot-other-host", file_of(frames), ROWS, "--dte 192.0.2.1", report=REPORT, tshark=None)


def another_port():
    one, two = Talk(ports=(1025, 2000)), Talk(ports=(1025, 80))
    frames = one.open() + two.open() + call(one) + one.close()
    frames += [two.segment(0, b"GET /"), ipv4(DTE, DCE, b"x" * 8, protocol=17)]
    yield Case("xot-on-another-port", file_of(frames), header() + text("""
        7 T 10010B0000
        8 N 10010F
        9 T 100100AA
        10 N 100121
        11 T 1001130000
        12 N 100117
    """), "--port 2000", report=report(7, 8, 11, 1, 6), tshark=["-d", "tcp.port==2000,xot"])


def packets_of_a_line():
    """Restart and diagnostic packets on channel 0; the one on channel 2 is an error of the circuit."""
    talk = Talk()
    frames = talk.open() + [talk.a("1000FB0700"), talk.a(CALL), talk.b(ACCEPTED), talk.b("1000F100")]
    frames.append(talk.a("1002FB0000"))
    yield Case("xot-packets-of-a-line", file_of(frames), header(2, 128) + text("""
        5 T 10010B0000
        6 N 10010F
        8 T 1001FB0000
    """), status=1, report=text("""
        F 8 T d1 41
        C 1 1 1 out - - 5 6 - open 0 0 0 0 0
        A - 1 0
        P 1 6
        Z 3 1 1 0 0
    """), tshark=None)


def short_packets():
    talk = Talk()
    frames = talk.open() + [talk.a(""), talk.a("10"), talk.a("1001"), talk.a(CALL)]
    yield Case("xot-short-packets", file_of(frames), header(2, 128) + text("""
        4 T -
        5 T 10
        6 T 1001
        7 T 10010B0000
    """), report=text("""
        F 4 T - 38
        F 5 T - 38
        F 6 T p1 38
        P 0 -
        Z 4 3 0 0 0
    """), tshark=None)


def long_packets():
    talk = Talk()
    long, longest = "100100" + "AA" * 4198, "100100" + "AA" * 4197
    frames = talk.open() + call(talk, SIX[:2]) + [talk.a(long), talk.a(longest)] + call(talk, SIX[4:])
    yield Case("xot-long-packets", file_of(frames), gaps_header(2, 4096) + text(f"""
        4 T 10010B0000
        5 N 10010F
        6 ? 1
        7 T {longest}
        8 T 1001130000
        9 N 100117
    """), status=1, report=text("""
        C 1 1 1 out - - 4 5 8 T 0 0 0 0 0
        A - 1 0
        P 1 5
        G 1
        Z 5 0 1 0 0
    """), tshark=None)


def permanent_circuit():
    """Packets of type F5 set up a permanent circuit and are none of X.25; the call has channel 2."""
    one, two = Talk(), Talk(ports=(1026, 1998))
    setup = "1001F5" + "00" + "08" + "0001" + "08" + "0001" + "02020707" + b"Serial0/Serial1/".hex()
    frames = one.open() + [one.a(setup), one.b(setup)] + two.open() + call(two, SIX[:2]) + call(one, [DATA, READY])
    yield Case("xot-permanent-circuit", file_of(frames), text("""
        X25 1 MOD 8 WIN 1 SIZE 16 PVC 1 SVC 2
        9 T 10020B0000
        10 N 10020F
        11 T 100100AA
        12 N 100121
    """), report=text("""
        C 1 1 2 out - - 9 10 - open 0 0 0 0 0
        A - 1 0
        P 1 10
        Z 4 0 1 1 1
    """), tshark=None)


TOPICS = (
    from_the_middle, circuits_of_one_pair, no_channel_left, channel_used_again, other_host, another_port,
    packets_of_a_line, short_packets, long_packets, permanent_circuit,
)


def cases():
    for topic in TOPICS:
        yield from topic()

"""Troubles of the TCP connections that carry XOT."""
from case import Case, gaps_header, text, with_gaps
from forms import *
from link_cases import ACCEPTED, CALL, CLEAR, CONFIRMED, DATA, READY, REPORT, ROWS

# Data packets of the DTE with P(S) 0 to 3, and what acknowledges three and four of them.
SENT = ["100100A0", "100102A1", "100104A2", "100106A3"]
READY_3, READY_4 = "100161", "100181"
SIX = [CALL, ACCEPTED, DATA, READY, CLEAR, CONFIRMED]


def report(opened, up, ended, sent, rows, octets=None):
    """Of one call of the DTE on channel 1, which sent packets of an octet each; ended is a row, or None."""
    octets = sent if octets is None else octets
    end = f"{ended} T" if ended else "- open"
    return text(f"""
        C 1 1 1 out - - {opened} {up} {end} {sent} {octets} 0 0 {sent}
        A - 1 {sent}
        P 1 {up}
        Z {rows} 0 1 {octets} {sent}
    """)


def file_of(frames):
    """Ethernet frames of Internet packets; those cut short are pairs of octets and a length."""
    return pcap(1, [ethernet(one) if isinstance(one, bytes) else one for one in frames])


def header(window=1, size=16, last=1):
    return f"X25 1 MOD 8 WIN {window} SIZE {size} PVC 0 SVC {last}\n"


def call(talk, packets=SIX):
    """The segments of a call, the sides in turns."""
    return [talk.a(packet) if at % 2 == 0 else talk.b(packet) for at, packet in enumerate(packets)]


def retransmission():
    talk = Talk()
    opening, (one, two, three, four, five, six) = talk.open(), call(talk)
    yield Case("tcp-retransmission", file_of(opening + [one, one, two, three, three, four, five, six] + talk.close()),
               header() + text("""
        4 T 10010B0000
        6 N 10010F
        7 T 100100AA
        9 N 100121
        10 T 1001130000
        11 N 100117
    """), report=report(4, 6, 10, 1, 6))


def out_of_order():
    talk = Talk()
    frames = talk.open() + [talk.a(CALL), talk.b(ACCEPTED)]
    first, second, third = (talk.a(packet) for packet in SENT[:3])
    frames += [first, third, second, talk.b(READY_3), talk.a(CLEAR), talk.b(CONFIRMED)] + talk.close()
    yield Case("tcp-out-of-order", file_of(frames), header(3) + text("""
        4 T 10010B0000
        5 N 10010F
        6 T 100100A0
        8 T 100102A1
        9 T 100104A2
        10 N 100161
        11 T 1001130000
        12 N 100117
    """), report=report(4, 5, 11, 3, 8), tshark=["-o", "tcp.reassemble_out_of_order:TRUE"])


def sequence_numbers_wrap():
    talk = Talk(first=(2**32 - 8, 2**32 - 3))
    yield Case("tcp-sequence-numbers-wrap", file_of(talk.open() + call(talk) + talk.close()), ROWS, report=REPORT)


def overlapping():
    """The second segment has the end of the first one; the fourth has what the third has, and what is before it."""
    talk = Talk()
    frames = talk.open() + [talk.a(CALL), talk.b(ACCEPTED)]
    octets = [xot(packet) for packet in SENT]
    frames.append(talk.segment(0, octets[0]))
    at = talk.next[0]
    frames.append(talk.segment(0, octets[0][-3:] + octets[1], at=at - 3))
    talk.next[0] = at + len(octets[1])
    at = talk.next[0]
    frames.append(talk.segment(0, octets[3], at=at + len(octets[2])))
    frames.append(talk.segment(0, octets[2] + octets[3][:5], at=at))
    talk.next[0] = at + len(octets[2] + octets[3])
    frames += [talk.b(READY_4), talk.a(CLEAR), talk.b(CONFIRMED)] + talk.close()
    yield Case("tcp-overlapping", file_of(frames), header(4) + text("""
        4 T 10010B0000
        5 N 10010F
        6 T 100100A0
        7 T 100102A1
        9 T 100104A2
        10 T 100106A3
        11 N 100181
        12 T 1001130000
        13 N 100117
    """), report=report(4, 5, 12, 4, 9), tshark=None)


def packets_split():
    talk = Talk()
    frames = talk.open()
    octets = xot(CALL)
    frames += [talk.segment(0, part) for part in (octets[:2], octets[2:5], octets[5:])]
    frames += [talk.b(ACCEPTED), talk.a(DATA), talk.b(READY), talk.a(CLEAR), talk.b(CONFIRMED)] + talk.close()
    yield Case("tcp-packets-split", file_of(frames), header() + text("""
        6 T 10010B0000
        7 N 10010F
        8 T 100100AA
        9 N 100121
        10 T 1001130000
        11 N 100117
    """), report=report(6, 7, 10, 1, 6), tshark=None)


def packets_packed():
    talk = Talk()
    frames = talk.open() + [talk.a(CALL), talk.b(ACCEPTED), talk.a(*SENT[:3]), talk.b(READY_3)]
    frames += [talk.a(CLEAR), talk.b(CONFIRMED)] + talk.close()
    # Three packets of frame 6 push the numbers two ahead, until frames without a packet let them catch up.
    yield Case("tcp-packets-packed", file_of(frames), header(3) + text("""
        4 T 10010B0000
        5 N 10010F
        6 T 100100A0
        7 T 100102A1
        8 T 100104A2
        9 N 100161
        10 T 1001130000
        11 N 100117
    """), report=report(4, 5, 10, 3, 8))


def packets_across_segments():
    talk = Talk()
    frames = talk.open() + [talk.a(CALL), talk.b(ACCEPTED)]
    octets = b"".join(map(xot, SENT))
    frames += [talk.segment(0, octets[:10]), talk.segment(0, octets[10:27]), talk.segment(0, octets[27:])]
    frames += [talk.b(READY_4), talk.a(CLEAR), talk.b(CONFIRMED)] + talk.close()
    # Packets have eight octets each: the first ends in frame 6, the second and third in 7, the fourth in 8.
    yield Case("tcp-packets-across-segments", file_of(frames), header(4) + text("""
        4 T 10010B0000
        5 N 10010F
        6 T 100100A0
        7 T 100102A1
        8 T 100104A2
        9 T 100106A3
        10 N 100181
        11 T 1001130000
        12 N 100117
    """), report=report(4, 5, 11, 4, 9))


# A call whose only data packet, of frame 6, is missing: the DCE's RR acknowledges what is not there.
READ_ON = text("""
    4 T 10010B0000
    5 N 10010F
    6 ? 1
    7 N 100121
    8 T 1001130000
    9 N 100117
""")
READ_ON_REPORT = with_gaps(report(4, 5, 8, 0, 5), 1)


def gap_and_next_connection():
    talk = Talk()
    frames = talk.open() + [talk.a(CALL), talk.b(ACCEPTED)]
    first, _, third = (talk.a(packet) for packet in SENT[:3])
    frames += [first, third, talk.b(READY_3), talk.a(CLEAR), talk.b(CONFIRMED)] + talk.close()
    again = Talk(ports=(1026, 1998))
    frames += again.open() + call(again) + again.close()
    yield Case("tcp-gap-and-next-connection", file_of(frames), gaps_header(1, 16, 2) + text("""
        4 T 10010B0000
        5 N 10010F
        6 T 100100A0
        7 ? 1
        8 T 100104A2
        9 N 100161
        10 T 1001130000
        11 N 100117
        17 T 10020B0000
        18 N 10020F
        19 T 100200AA
        20 N 100221
        21 T 1002130000
        22 N 100217
    """), status=1, report=text("""
        C 1 1 1 out - - 4 5 10 T 2 2 0 0 2
        C 2 1 2 out - - 17 18 21 T 1 1 0 0 1
        A - 2 3
        P 1 5
        G 1
        Z 13 0 2 3 3
    """), tshark=None)


def gap_in_the_other_direction():
    talk = Talk()
    frames = talk.open() + [talk.a(CALL), talk.b(ACCEPTED)]
    talk.a(DATA)
    # Without the gap row this RR, which acknowledges data that was not recorded, would be an error of the DCE.
    frames += [talk.b(READY), talk.segment(0, flags=4)]
    yield Case("tcp-gap-in-the-other-direction", file_of(frames), gaps_header() + text("""
        4 T 10010B0000
        5 N 10010F
        6 ? 1
        7 N 100121
    """), status=1, report=with_gaps(report(4, 5, None, 0, 3), 1), tshark=None)


def answer_recorded_before_its_data():
    talk = Talk()
    frames = talk.open() + [talk.a(CALL), talk.b(ACCEPTED)]
    data = talk.a(DATA)
    frames += [talk.b(READY), data, talk.a(CLEAR), talk.b(CONFIRMED)] + talk.close()
    yield Case("tcp-answer-recorded-before-its-data", file_of(frames), header() + text("""
        4 T 10010B0000
        5 N 10010F
        7 T 100100AA
        8 N 100121
        9 T 1001130000
        10 N 100117
    """), report=report(4, 5, 9, 1, 6), tshark=None)


def snap_length():
    talk = Talk()
    frames = talk.open() + [talk.a(CALL), talk.b(ACCEPTED)]
    long = ethernet(talk.a("100100" + "AA" * 60))
    frames += [(long[:96], len(long)), talk.b(READY), talk.a(CLEAR), talk.b(CONFIRMED)] + talk.close()
    yield Case("tcp-snap-length", file_of(frames), gaps_header() + READ_ON, status=1, report=READ_ON_REPORT,
               tshark=None)


def fragments(packet, at, identity, six=False):
    """An Internet packet in two fragments."""
    if not six:
        ends = [".".join(map(str, packet[place:place + 4])) for place in (12, 16)]
        return [ipv4(*ends, packet[20:20 + at], 0, True, identity), ipv4(*ends, packet[20 + at:], at, False, identity)]
    parts = []
    for place, more, octets in ((0, 1, packet[40:40 + at]), (at, 0, packet[40 + at:])):
        head = struct.pack(">BBHI", 6, 0, place | more, identity)
        parts.append(struct.pack(">IHBB", 6 << 28, 8 + len(octets), 44, 64) + packet[8:40] + head + octets)
    return parts


def fragmented():
    data = "100100" + "AA" * 40
    rows = text(f"""
        X25 1 MOD 8 WIN 1 SIZE 64 PVC 0 SVC 1
        4 T 10010B0000
        5 N 10010F
        7 T {data}
        8 N 100121
        9 T 1001130000
        10 N 100117
    """)
    sixes = ("2001:db8::1", "2001:db8::2")
    for name, wrap, ends, kind in (("ipv4", ipv4, (DTE, DCE), 0x0800), ("ipv6", ipv6, sixes, 0x86DD)):
        talk = Talk(ends, wrap=wrap)
        frames = talk.open() + [talk.a(CALL), talk.b(ACCEPTED)]
        frames += fragments(talk.a(data), 32, 7, kind == 0x86DD)[::-1]
        frames += [talk.b(READY), talk.a(CLEAR), talk.b(CONFIRMED)] + talk.close()
        file = pcap(1, [ethernet(one, kind) for one in frames])
        yield Case(f"{name}-fragments", file, rows, report=report(4, 5, 9, 1, 6, 40))


def fragment_missing():
    talk = Talk()
    frames = talk.open() + [talk.a(CALL), talk.b(ACCEPTED)] + fragments(talk.a("100100" + "AA" * 40), 32, 7)[1:]
    frames += [talk.b(READY), talk.a(CLEAR), talk.b(CONFIRMED)] + talk.close()
    yield Case("ipv4-fragment-missing", file_of(frames), gaps_header() + READ_ON, status=1, report=READ_ON_REPORT,
               tshark=None)


def not_cleared():
    """Ways in which a connection ends while its call is up: rows and report are the same."""
    rows = header() + text("""
        4 T 10010B0000
        5 N 10010F
        6 T 100100AA
    """)
    reported = report(4, 5, None, 1, 3)

    def begun():
        talk = Talk()
        return talk, talk.open() + call(talk, SIX[:3])

    talk, frames = begun()
    yield Case("tcp-end-without-a-clear", file_of(frames + talk.close()), rows, report=reported)
    talk, frames = begun()
    yield Case("tcp-reset-without-a-clear", file_of(frames + [talk.segment(1, flags=4)]), rows, report=reported)
    talk, frames = begun()
    frames += [talk.segment(0, xot(CLEAR)[:6])] + talk.close()
    yield Case("tcp-end-inside-of-a-packet", file_of(frames), rows, status=1, report=reported, tshark=None)
    talk, frames = begun()
    frames += [talk.segment(1, b"\0\1\0\3\x10\x01\x21")] + call(talk, SIX[4:]) + talk.close()
    yield Case("tcp-not-xot", file_of(frames), rows, status=1, report=reported, tshark=None)


def ports_used_again():
    talk, again = Talk(), Talk(first=(90_000, 95_000))
    frames = talk.open() + call(talk, SIX[:3]) + again.open() + call(again) + again.close()
    yield Case("tcp-ports-used-again", file_of(frames), header(last=2) + text("""
        4 T 10010B0000
        5 N 10010F
        6 T 100100AA
        10 T 10020B0000
        11 N 10020F
        12 T 100200AA
        13 N 100221
        14 T 1002130000
        15 N 100217
    """), report=text("""
        C 1 1 1 out - - 4 5 - open 1 1 0 0 1
        C 2 1 2 out - - 10 11 14 T 1 1 0 0 1
        A - 2 2
        P 2 11
        Z 9 0 2 2 2
    """))


def probes():
    """A SYN that is repeated, and probes: of an octet that was acknowledged, and of the one that is next."""
    rows = header() + text("""
        5 T 10010B0000
        6 N 10010F
        8 T 100100AA
        9 N 100121
        10 T 1001130000
        11 N 100117
    """)
    for name, octet in (("tcp-keep-alive", -1), ("tcp-window-probe", 0)):
        talk = Talk()
        opening = talk.open()
        frames = opening[:1] + opening + call(talk, SIX[:2])
        at = talk.next[0]
        probe = b"\0" if octet else xot(DATA)[:1]
        frames += [talk.segment(0, probe, at=at + octet)] + call(talk, SIX[2:]) + talk.close()
        yield Case(name, file_of(frames), rows, report=report(5, 6, 10, 1, 6))


def segments_after_the_end():
    talk = Talk()
    frames = talk.open() + call(talk)
    frames += [*talk.close(), frames[-1], talk.a(CALL)]
    yield Case("tcp-segments-after-the-end", file_of(frames), ROWS, status=1, report=REPORT, tshark=None)


TOPICS = (
    retransmission, out_of_order, overlapping, sequence_numbers_wrap, packets_split, packets_packed,
    packets_across_segments, gap_and_next_connection, gap_in_the_other_direction, answer_recorded_before_its_data,
    snap_length, fragmented, fragment_missing, not_cleared, ports_used_again, probes, segments_after_the_end,
)


def cases():
    for topic in TOPICS:
        yield from topic()

"""Segments that were not recorded: XOT is read on at the next one that begins with a header of the circuit.

And frames of which the capture says that they were dropped.
"""
from case import Case, gaps_header, text
from forms import *
from link_cases import ACCEPTED, CALL, CLEAR, CONFIRMED, RESTART, RESTARTED, ROWS, conversation
from tcp_cases import file_of


def data(number, octet="A0"):
    """A data packet of the DTE."""
    return f"1001{number % 8 << 1:02X}{octet}"


def ready(number):
    """An RR of the DCE."""
    return f"1001{number % 8 << 5 | 1:02X}"


def gap(name, frames, rows, report, words="--win 7 --size 16", window=7):
    return Case(name, file_of(frames), gaps_header(window, 16) + rows, words, status=1, report=report, tshark=None)


def begun():
    talk = Talk()
    return talk, talk.open() + [talk.a(CALL), talk.b(ACCEPTED)]


def lost_inside_of_packets():
    """Frame 6 ends inside of a packet. Its rest is lost, with the head of the next one, whose end is frame 7."""
    talk, frames = begun()
    octets = b"".join(map(xot, (data(0), data(1), data(2, "AA" * 20), data(3))))
    first, lost, rest, last = octets[:10], octets[10:30], octets[30:-8], octets[-8:]
    frames.append(talk.segment(0, first))
    talk.segment(0, lost)
    frames += [talk.segment(0, rest), talk.segment(0, last), talk.b(ready(4)), talk.a(CLEAR), talk.b(CONFIRMED)]
    yield gap("gap-inside-of-packets", frames + talk.close(), text("""
        4 T 10010B0000
        5 N 10010F
        6 T 100100A0
        7 ? 1
        8 T 100106A0
        9 N 100181
        10 T 1001130000
        11 N 100117
    """), text("""
        C 1 1 1 out - - 4 5 10 T 2 2 0 0 2
        A - 1 2
        P 1 5
        G 1
        Z 7 0 1 2 2
    """))


def gaps_that_share_a_row():
    """A data packet and the RR for it were not recorded: there is no packet between the two gaps. Later P(S) is wrong."""
    talk, frames = begun()
    frames.append(talk.a(data(0)))
    talk.a(data(1))
    talk.b(ready(2))
    frames += [talk.a(data(2)), talk.b(ready(3)), talk.a(data(5)), talk.b("10011B0501"), talk.a("10011F")]
    yield gap("gaps-that-share-a-row", frames + talk.close(), text("""
        4 T 10010B0000
        5 N 10010F
        6 T 100100A0
        7 ? 1
        8 T 100104A0
        9 N 100161
        10 T 10010AA0
        11 N 10011B0501
        12 T 10011F
    """), text("""
        F 10 T d1 1
        C 1 1 1 out - - 4 5 - open 2 2 0 0 2
        A - 1 2
        P 1 5
        G 1
        Z 8 1 1 2 2
    """))


def places_that_look_like_headers():
    """After the gap segments begin with headers of another version, modulus, channel, length, or with one alone."""
    talk, frames = begun()
    frames.append(talk.a(data(0)))
    talk.a(data(1))
    wrong = (b"\0\1\0\4", b"\0\0\0\4\x20\1\4", b"\0\0\0\4\x10\2\4", b"\0\0\0\2\x10\1\4", b"\0\0\x10\x69\x10\1\4",
             b"\0\0\0\4\x00\1\4", b"\0\0\0\4\x10\1\4\xa0\0\1\0\4")
    frames += [talk.segment(0, octets + b"\x55") for octets in wrong]
    octets = xot(data(2))
    frames += [talk.segment(0, octets[:4]), talk.segment(0, octets[4:]), talk.b(ready(3)), talk.a(CLEAR),
               talk.b(CONFIRMED)]
    yield gap("gap-and-places-that-look-like-headers", frames + talk.close(), text("""
        4 T 10010B0000
        5 N 10010F
        6 T 100100A0
        12 ? 1
        15 T 100104A0
        16 N 100161
        17 T 1001130000
        18 N 100117
    """), text("""
        C 1 1 1 out - - 4 5 17 T 2 2 0 0 2
        A - 1 2
        P 1 5
        G 1
        Z 7 0 1 2 2
    """))


def gap_that_is_given_up():
    """The data packet before frame 10 was acknowledged in frame 11; with the ninth segment that waits it is given up.

    The other connection's call, in frame 18, overtakes what waits.
    """
    other, (talk, frames) = Talk(ports=(1026, 1998)), begun()
    frames = other.open() + frames + [talk.a(data(0))]
    talk.a(data(1))
    for number in range(2, 6):
        frames += [talk.a(data(number)), talk.b(ready(number + 1))]
    frames += [other.a(CALL), talk.a(data(6)), talk.b(ready(7)), other.b(ACCEPTED), talk.a(CLEAR), talk.b(CONFIRMED)]
    late = [("T" if at % 2 == 0 else "N", data(2 + at // 2) if at % 2 == 0 else ready(3 + at // 2)) for at in range(10)]
    rows = "7 T 10010B0000\n8 N 10010F\n9 T 100100A0\n18 T 10020B0000\n19 ? 1\n"
    rows += "".join(f"{number} {side} {packet}\n" for number, (side, packet) in enumerate(late, 20))
    rows += "30 N 10020F\n31 T 1001130000\n32 N 100117\n"
    case = gap("gap-that-is-given-up", frames, rows, text("""
        C 1 1 1 out - - 7 8 31 T 6 6 0 0 6
        C 2 1 2 out - - 18 30 - open 0 0 0 0 0
        A - 2 6
        P 2 30
        G 1
        Z 17 0 2 6 6
    """))
    case.rows = gaps_header(7, 16, 2) + rows
    yield case


def gap_of_an_acknowledgement():
    """The RR that lets the window go on was not recorded: no number says how far it was open."""
    talk, frames = begun()
    frames += [talk.a(data(0)), talk.a(data(1))]
    talk.b(ready(2))
    frames += [talk.a(data(2)), talk.b(ready(3)), talk.a(data(3)), talk.a(CLEAR), talk.b(CONFIRMED)] + talk.close()
    yield gap("gap-of-an-acknowledgement", frames, text("""
        4 T 10010B0000
        5 N 10010F
        6 T 100100A0
        7 T 100102A0
        8 ? 1
        9 T 100104A0
        10 N 100161
        11 T 100106A0
        12 T 1001130000
        13 N 100117
    """), text("""
        C 1 1 1 out - - 4 5 12 T 4 4 0 0 4
        A - 1 4
        P 1 5
        G 1
        Z 9 0 1 4 4
    """), "", 2)


LINE = [("T", RESTART), ("N", RESTARTED), ("T", CALL), ("N", ACCEPTED), ("T", data(1)), ("N", ready(2)), ("T", data(2))]
LINE_ROWS = text("""
    1 T 1000FB0700
    2 N 1000FF
    3 T 10010B0000
    4 N 10010F
""")
DROPPED_REPORT = text("""
    C 1 2 1 out - - 3 4 - open 2 2 0 0 2
    A - 1 2
    P 1 4
    G {0}
    Z 7 0 1 2 2
""")


def statistics(by_interface, by_system, which=0):
    """The statistics of an interface, with the frames that it and the system dropped so far."""
    options = option(5, struct.pack("<Q", by_interface)) + option(7, struct.pack("<Q", by_system)) + option(0, b"")
    return block(5, struct.pack("<III", which, 0, 9) + options)


def dropped(name, blocks, rows, many, words="", ending="pcapng", link="147"):
    """A line of which the capture says that frames were dropped."""
    words = f"--as {link}=x25 --win 2 --size 16 {words}".strip()
    return Case(name, blocks, gaps_header(2, 16) + LINE_ROWS + rows, words, status=1, tshark=None, ending=ending,
                report=DROPPED_REPORT.format(many))


def dropped_frames():
    """Before frame 5 frames were dropped, and statistics say so after frame 6, and again at the end."""
    frames = [enhanced(bytes.fromhex(packet), flags=2 if side == "T" else 1) for side, packet in LINE]
    start = section() + interface(147)
    drops = option(2, struct.pack("<I", 2)) + option(4, struct.pack("<Q", 3)) + option(0, b"")
    counted = enhanced(bytes.fromhex(data(1)), options=drops)
    one = start + b"".join(frames[:4]) + counted + b"".join(frames[5:])
    yield dropped("dropped-before-a-frame", one, "5 ? *\n6 T 100102A0\n7 N 100141\n8 T 100104A0\n", 1)
    two = start + statistics(0, 0) + b"".join(frames[:4]) + statistics(2, 1) + b"".join(frames[4:]) + statistics(2, 1)
    rows = "5 ? *\n6 T 100102A0\n7 N 100141\n8 T 100104A0\n"
    yield dropped("dropped-by-statistics", two, rows, 1)
    yield dropped("dropped-at-the-end", two + statistics(4, 1), rows + "9 ? *\n", 2)
    # The statistics of another interface than those that are read say nothing of them.
    wires = [obsolete(bytes.fromhex(packet), "TN".index(side)) for side, packet in LINE]
    wires[4] = wires[4][:10] + struct.pack("<H", 7) + wires[4][12:]
    three = section() + interface(147) * 3 + b"".join(wires) + statistics(1, 1, 2)
    yield dropped("dropped-before-an-obsolete-block", three, rows, 1,
                  "--interface 0 --interface 1 --sender 0=dte --sender 1=dce")


def dropped_in_snoop():
    """From frame 7 on the records say that five frames were dropped."""
    records = [snoop(4, [ethernet(one)])[16:] for one in conversation()]
    late = [record[:12] + struct.pack(">I", 5) + record[16:] for record in records[6:]]
    rows = ROWS.splitlines(keepends=True)[1:]
    tail = ["7 ? *\n", "8 N 100121\n", "9 T 1001130000\n", "10 N 100117\n"]
    yield Case("dropped-in-snoop", snoop(4, []) + b"".join(records[:6] + late), gaps_header(1, 16) + "".join(rows[:3] + tail),
               "--win 1 --size 16", status=1, ending="snoop", tshark=None, report=text("""
        C 1 1 1 out - - 4 5 9 T 1 1 0 0 1
        A - 1 1
        P 1 5
        G 1
        Z 6 0 1 1 1
    """))


def cases():
    yield from dropped_frames()
    yield from dropped_in_snoop()
    yield from lost_inside_of_packets()
    yield from gaps_that_share_a_row()
    yield from places_that_look_like_headers()
    yield from gap_that_is_given_up()
    yield from gap_of_an_acknowledgement()

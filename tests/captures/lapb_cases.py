"""LAPB: repeated frames, lost frames, both moduli, sides, and where a recording begins in the middle."""
from case import Case, gaps_header, text
from forms import *
from link_cases import LINE_REPORT, LINE_ROWS, RESTART, RESTARTED, line

SABM, SABME, UA, DISC = 0x3F, 0x7F, 0x73, 0x53
# Data packets of the DTE on channel 1, P(S) by number, P(R) 0.
HEAD = [("T", RESTART), ("N", RESTARTED), ("T", "10010B0000"), ("N", "10010F")]
HEAD_ROWS = text("""
    1 T 1000FB0700
    2 N 1000FF
    3 T 10010B0000
    4 N 10010F
""")
CALL_1 = "C 1 2 1 out - - 3 4 - open {sent} {sent} 0 0 {sent}\nA - 1 {sent}\nP 1 4\nZ {rows} 0 1 {sent} {sent}\n"


def data(number):
    return f"1001{number % 8 << 1:02X}A{number:X}"


def first(window, size=16, second="SVC 1"):
    return f"X25 1 MOD 8 WIN {window} SIZE {size} PVC 0 {second}\n"


def head():
    return [frame for _, frame in line(HEAD)]


def user(name, frames, rows, words="", tshark=True, **more):
    """LAPB frames on a user link type."""
    lapb = ["-o", 'uat:user_dlts:"User 0 (DLT=147)","lapb","0","","0",""']
    words = f"--as 147=lapb {words}".strip()
    return Case(name, pcap(147, frames), rows, words, tshark=lapb if tshark else None, **more)


def repeat_cases():
    """The DTE sends P(S) 0 in N(S) 2 and repeats it with the poll bit; the answer lets it go on."""
    one, two = information("T", 2, 2, data(0)), information("T", 3, 2, data(1))
    polled = one[:1] + bytes((one[1] | 0x10,)) + one[2:]
    frames = head() + [one, polled, ready("N", 3), two, ready("N", 4), polled]
    rows = first(2) + HEAD_ROWS + text("""
        5 T 100100A0
        8 T 100102A1
    """)
    yield user("lapb-repeated-frames", frames, rows, report=CALL_1.format(sent=2, rows=6), tshark=False)
    packets = [data(at) for at in range(10)]
    many = head()
    for at, packet in enumerate(packets):
        many += [information("T", (2 + at) % 8, (2 + at) % 8, packet),
                 information("N", (2 + at) % 8, (3 + at) % 8, f"1001{(at + 1) % 8 << 5 | 1:02X}")]
    rows = first(1) + HEAD_ROWS
    for at, packet in enumerate(packets):
        rows += f"{5 + 2 * at} T {packet}\n{6 + 2 * at} N 1001{(at + 1) % 8 << 5 | 1:02X}\n"
    yield user("lapb-numbers-wrap", many, rows, report=CALL_1.format(sent=10, rows=24))
    sent = [information("T", 2 + at, 2, data(at)) for at in range(3)]
    # The receiver does not accept N(S) 4 without N(S) 3, rejects it, and both come again.
    frames = head() + [sent[0], sent[2], ready("N", 3, True), sent[1], sent[2], ready("N", 5)]
    yield user("lapb-rejected-frame", frames, first(3) + HEAD_ROWS + text("""
        5 T 100100A0
        8 T 100102A1
        9 T 100104A2
    """), report=CALL_1.format(sent=3, rows=7), tshark=False)


def loss_cases():
    """N(S) 3 was not recorded. The N(R) 5 of the DCE's frame shows that its receiver had it."""
    sent = [information("T", 2 + at, 2, data(at)) for at in range(4)]
    frames = head() + [sent[0], sent[2], information("N", 2, 5, "100161"), sent[3]]
    rows = gaps_header(1, 16) + HEAD_ROWS + text("""
        5 T 100100A0
        6 ? *
        7 T 100104A2
        8 N 100161
        9 T 100106A3
    """)
    report = text("""
        C 1 2 1 out - - 3 4 - open 3 3 0 0 3
        A - 1 3
        P 1 4
        G 1
        Z 8 0 1 3 3
    """)
    yield user("lapb-lost-frame", frames, rows, status=1, report=report, tshark=False)
    flags = [b"\x01" + one for one in head()[::2]] + [b"\0" + one for one in head()[1::2]]
    ordered = [flags[0], flags[2], flags[1], flags[3]]
    frames = ordered + [b"\x01" + sent[0], b"\x01" + sent[2], b"\0" + ready("N", 5), b"\x01" + sent[3]]
    yield Case("lapb-lost-frame-shown-by-rr", pcap(207, frames), gaps_header(1, 16) + HEAD_ROWS + text("""
        5 T 100100A0
        6 ? *
        7 T 100104A2
        8 T 100106A3
    """), status=1, report=text("""
        C 1 2 1 out - - 3 4 - open 3 3 0 0 3
        A - 1 3
        P 1 4
        G 1
        Z 7 0 1 3 3
    """), tshark=None)
    # One wire, and N(S) 1 is missing: with N(S) 0 again the window of 7 is full, so it must have been acknowledged.
    wire = [information("T", at % 8, 0, "100101") for at in range(10) if at != 1]
    rows = gaps_header(join=True) + "1 T 100101\n2 ? *\n"
    rows += "".join(f"{number} T 100101\n" for number in range(3, 11))
    yield user("lapb-lost-frame-of-one-wire", wire, rows, status=1, report="P 0 -\nG 1\nZ 9 0 0 0 0\n", tshark=False)


def modulo_cases():
    packets = HEAD + [("T", data(0)), ("N", "100121")]
    rows = first(1) + text("""
        3 T 1000FB0700
        4 N 1000FF
        5 T 10010B0000
        6 N 10010F
        7 T 100100A0
        8 N 100121
    """)
    report = "C 1 2 1 out - - 5 6 - open 1 1 0 0 1\nA - 1 1\nP 1 6\nZ 6 0 1 1 1\n"
    extended = [frame for _, frame in extended_line(packets)]
    start = [unnumbered("T", SABME, True), unnumbered("N", UA, False)]
    yield user("lapb-modulo-128-by-sabme", start + extended, rows, report=report, tshark=False)
    numbers = text("""
        1 T 1000FB0700
        2 N 1000FF
        3 T 10010B0000
        4 N 10010F
        5 T 100100A0
        6 N 100121
    """)
    report = "C 1 2 1 out - - 3 4 - open 1 1 0 0 1\nA - 1 1\nP 1 4\nZ 6 0 1 1 1\n"
    yield user("lapb-modulo-128-by-option", extended, first(1) + numbers, "--lapb-modulo 128", report=report,
               tshark=False)
    # The link is set up again in frame 5: the numbers begin at 0, and none of them is a repeat.
    plain = [frame for _, frame in line(HEAD)]
    start = [unnumbered("N", SABM, True), unnumbered("T", UA, False)]
    frames = plain + start + [frame for _, frame in line([("T", RESTART), ("N", RESTARTED)])]
    yield user("lapb-link-set-up-again", frames, first(2, 128) + HEAD_ROWS + text("""
        7 T 1000FB0700
        8 N 1000FF
    """), report="C 1 2 1 out - - 3 4 7 restart 0 0 0 0 0\nA - 1 0\nP 1 4\nZ 6 0 1 0 0\n")


def extended_line(packets):
    sent = {"T": 0, "N": 0}
    for side, packet in packets:
        other = "N" if side == "T" else "T"
        yield side, information(side, sent[side], sent[other], packet, True)
        sent[side] += 1


def side_cases():
    frames = [(side, frame) for side, frame in line()]
    # The recording host is the DCE: it sends what has the address 03.
    flagged = [bytes((side == "N",)) + frame for side, frame in frames]
    yield Case("lapb-recorded-by-the-dce", pcap(207, flagged), LINE_ROWS, report=LINE_REPORT, tshark=None)
    yield Case("lapb-side-by-direction", pcap(207, flagged), LINE_ROWS, "--side direction --swap", report=LINE_REPORT,
               tshark=None)
    turned = [frame for _, frame in line([("N" if side == "T" else "T", packet) for side, packet in packets_of_line()])]
    yield user("lapb-sides-swapped", turned, LINE_ROWS, "--swap", report=LINE_REPORT)
    plain = [frame for _, frame in frames]
    odd = plain[:2] + [b"\x07" + plain[2][1:]] + plain[2:]
    rows = LINE_ROWS.splitlines(keepends=True)
    rows = "".join(rows[:3]) + "".join(f"{int(row[0]) + 1}{row[1:]}" for row in rows[3:])
    yield user("lapb-another-address", odd, rows, status=1, tshark=False,
               report="C 1 2 1 out - - 4 5 8 T 1 1 0 0 1\nA - 1 1\nP 1 5\nZ 8 0 1 1 1\n")
    bad = [frame + check(frame) for frame in plain]
    bad[3:3] = [bad[3][:-1] + bytes((bad[3][-1] ^ 1,))]
    rows = LINE_ROWS.splitlines(keepends=True)
    rows = "".join(rows[:4]) + "".join(f"{int(row[0]) + 1}{row[1:]}" for row in rows[4:])
    yield Case("hdlc-wrong-check-sequence", pcap(147, bad), rows, "--as 147=hdlc", status=1, tshark=None,
               report="C 1 2 1 out - - 3 5 8 T 1 1 0 0 1\nA - 1 1\nP 1 5\nZ 8 0 1 1 1\n")


def packets_of_line():
    from link_cases import LINE
    return LINE


def middle_cases():
    """The recording begins in the middle: N(S) 5 comes first, then an N(R) for frames before it."""
    frames = [information("T", 5, 3, "100146AA"), information("N", 3, 4, "100161"), information("T", 5, 3, "100146AA"),
              information("N", 4, 6, "100181"), information("T", 6, 5, "1001130000"), information("N", 5, 7, "100117")]
    yield user("lapb-from-the-middle", frames, text("""
        X25 3 MOD 8 WIN 2 SIZE 16 PVC 0 IN 0 TWO 1 OUT 1 JOIN
        1 T 100146AA
        2 N 100161
        4 N 100181
        5 T 1001130000
        6 N 100117
    """), report="P 0 -\nG 0\nZ 5 0 0 0 0\n", tshark=False)
    # The recording host is the DCE. Its RR comes first, before an address has shown which side it is.
    frames = [b"\1" + ready("N", 7), b"\0" + information("T", 7, 3, "100146AA"), b"\1" + information("N", 3, 0, "100161"),
              b"\0" + ready("T", 4), b"\0" + information("T", 0, 4, "100168BB"), b"\1" + ready("N", 1)]
    yield Case("lapb-recorded-by-the-dce-from-the-middle", pcap(207, frames), text("""
        X25 3 MOD 8 WIN 2 SIZE 16 PVC 0 IN 0 TWO 1 OUT 1 JOIN
        2 T 100146AA
        3 N 100161
        5 T 100168BB
    """), report="P 0 -\nG 0\nZ 3 0 0 0 0\n", tshark=None)
    plain = [frame for _, frame in line(HEAD + [("T", "100100" + "AA" * 40), ("N", "100121")])]
    cut = plain[:4] + [(plain[4][:30], len(plain[4])), plain[5]]
    rows = gaps_header() + HEAD_ROWS + "5 ? 1\n6 N 100121\n"
    yield user("lapb-snap-length", cut, rows, status=1, tshark=False, report=text("""
        C 1 2 1 out - - 3 4 - open 0 0 0 0 0
        A - 1 0
        P 1 4
        G 1
        Z 5 0 1 0 0
    """))


def cases():
    for topic in (repeat_cases, loss_cases, modulo_cases, side_cases, middle_cases):
        yield from topic()

"""The header: each number by what was seen and by its option, the join, and rows whose numbers are no frame's."""
from case import Case, text, with_gaps
from forms import *
from link_cases import ACCEPTED, CALL, CLEAR, CONFIRMED, RESTART, RESTARTED

USER = ["-o", 'uat:user_dlts:"User 0 (DLT=147)","x.25","0","","0",""']
WITH_TSHARK = ("header-modulo-128", "header-permanent-channels", "header-join", "header-values-of-the-other-call")
HEAD = [("T", RESTART), ("N", RESTARTED), ("T", CALL), ("N", ACCEPTED)]


def on_line(name, header, packets, words="", **more):
    """Packets with a direction, each in its own frame and a row of its own."""
    blocks = [enhanced(bytes.fromhex(packet), flags=2 if side == "T" else 1) for side, packet in packets]
    rows = "".join(f"{at} {side} {packet}\n" for at, (side, packet) in enumerate(packets, 1))
    file = section() + interface(147) + b"".join(blocks)
    return Case(name, file, header + "\n" + rows, f"--as 147=x25 {words}".strip(), ending="pcapng",
                tshark=USER if name in WITH_TSHARK else None, **more)


def data(side, send, receive, octets, more=False):
    return side, f"1001{receive << 5 | more << 4 | send << 1:02X}" + "AA" * octets


def report(sent, octets, segments, rows, findings=""):
    """Of a call of the DTE on rows 3 and 4 that stays open."""
    return findings + text(f"""
        C 1 2 1 out - - 3 4 - open {sent} {octets} 0 0 {segments}
        A - 1 {segments}
        P 1 4
        Z {rows} {findings.count('F')} 1 {octets} {segments}
    """)


def size_cases():
    """The largest data has 129 octets, and sizes are powers of two."""
    packets = HEAD + [data("T", 0, 0, 129)]
    yield on_line("header-size-of-the-largest-data", "X25 1 MOD 8 WIN 1 SIZE 256 PVC 0 SVC 1", packets,
                  report=report(1, 129, 3, 5))
    yield on_line("header-size-given", "X25 1 MOD 8 WIN 1 SIZE 128 PVC 0 SVC 1", packets, "--size 128",
                  report=report(0, 0, 0, 5, "F 5 T d1 39\n"))
    packets = HEAD + [data("T", 0, 0, 64, True), data("T", 1, 0, 1)]
    yield on_line("header-size-of-whole-sequences", "X25 1 MOD 8 WIN 2 SIZE 64 PVC 0 SVC 1", packets,
                  report=report(2, 65, 2, 6))
    yield on_line("header-without-data", "X25 1 MOD 8 WIN 2 SIZE 128 PVC 0 SVC 1", HEAD, report=report(0, 0, 0, 4))


def window_cases():
    """Three packets before the first RR, and after it never more than two."""
    packets = HEAD + [data("T", 0, 0, 1), data("T", 1, 0, 1), data("T", 2, 0, 1), ("N", "100161"),
                      data("T", 3, 0, 1), data("T", 4, 0, 1)]
    yield on_line("header-window-of-the-most", "X25 1 MOD 8 WIN 3 SIZE 16 PVC 0 SVC 1", packets,
                  report=report(5, 5, 5, 10))
    yield on_line("header-window-given", "X25 1 MOD 8 WIN 2 SIZE 16 PVC 0 SVC 1", packets, "--win 2",
                  report=report(2, 2, 2, 10, "F 7 T d1 1\n"))
    # The reset begins the counts anew: what is sent before it is confirmed does not count.
    packets = HEAD + [data("T", 0, 0, 1), ("N", "10011B0500"), data("T", 1, 0, 1), data("T", 2, 0, 1), ("T", "10011F"),
                      data("T", 0, 0, 1), ("N", "100121")]
    yield on_line("header-window-over-a-reset", "X25 1 MOD 8 WIN 1 SIZE 16 PVC 0 SVC 1", packets,
                  report=report(2, 2, 2, 11))


def facility_cases():
    """The call agrees on sizes of 512 and windows of 4: its data says nothing of the values without an agreement."""
    agreed = [("T", RESTART), ("N", RESTARTED), ("T", "10010B00064209094304" + "04"), ("N", ACCEPTED)]
    packets = agreed + [data("T", at, 0, 300) for at in range(3)]
    yield on_line("header-values-agreed-in-calls", "X25 1 MOD 8 WIN 2 SIZE 128 PVC 0 SVC 1", packets,
                  report=report(3, 900, 15, 7))
    second = [("T", "10020B0000"), ("N", "10020F"), ("T", "100200" + "AA" * 20)]
    packets = packets + second
    yield on_line("header-values-of-the-other-call", "X25 1 MOD 8 WIN 1 SIZE 32 PVC 0 SVC 2", packets, report=text("""
        C 1 2 1 out - - 3 4 - open 3 900 0 0 15
        C 2 2 2 out - - 8 9 - open 1 20 0 0 1
        A - 2 16
        P 2 9
        Z 10 0 2 920 16
    """))


def modulo_cases():
    """Modulo 128, where a packet of modulo 8 is found to have the wrong format."""
    packets = [("T", "2000FB0700"), ("N", "2000FF"), ("T", "20010B0000"), ("N", "20010F"), ("T", "20010000AA"),
               ("T", "20010200AA"), ("N", "20010104"), ("T", "100121")]
    yield on_line("header-modulo-128", "X25 1 MOD 128 WIN 2 SIZE 16 PVC 0 SVC 1", packets, report=text("""
        F 8 T - 40
        C 1 2 1 out - - 3 4 - open 2 2 0 0 2
        A - 1 2
        P 1 4
        Z 8 1 1 2 2
    """))
    yield on_line("header-modulo-given", "X25 1 MOD 8 WIN 2 SIZE 16 PVC 0 SVC 1", HEAD + [data("T", 0, 0, 1)],
                  "--mod 8 --win 2", report=report(1, 1, 1, 5))


def channel_cases():
    """Channels 1 and 2 have data after the restart and no call: they are permanent."""
    packets = [("T", RESTART), ("N", RESTARTED), ("T", "100100AA"), ("N", "100200AA"), ("T", "10030B0000"),
               ("N", "10030F"), ("N", "10050B0000")]
    reported = text("""
        C 1 2 3 out - - 5 6 - open 0 0 0 0 0
        C 2 2 5 in - - 7 - - open 0 0 0 0 0
        A - 2 0
        P 1 6
        Z 7 0 2 2 2
    """)
    yield on_line("header-permanent-channels", "X25 1 MOD 8 WIN 1 SIZE 16 PVC 2 SVC 5", packets, report=reported)
    yield on_line("header-channels-given", "X25 1 MOD 8 WIN 1 SIZE 16 PVC 2 SVC 16", packets, "--pvc 2 --svc 16",
                  report=reported)
    yield on_line("header-one-way-channels-given", "X25 2 MOD 8 WIN 1 SIZE 16 PVC 2 IN 2 TWO 4 OUT 5", packets,
                  "--in 2 --two 4 --out 5", report=text("""
        F 7 N p1 34
        C 1 2 3 out - - 5 6 - open 0 0 0 0 0
        A - 1 0
        P 1 6
        Z 7 1 1 2 2
    """))
    yield on_line("header-all-given", "X25 1 MOD 8 WIN 3 SIZE 256 PVC 2 SVC 9", packets,
                  "--mod 8 --win 3 --size 256 --pvc 2 --svc 9", report=reported)


def join_cases():
    """The capture begins with no restart: no channel is known, and none is said to be permanent."""
    packets = [("N", RESTARTED), ("T", "100144AA"), ("N", "100161"), ("N", "1002130000"), ("T", "100217")]
    # After the restart confirmation all channels are fresh.
    reported = "F 2 T {} {}\nP 0 -\nG 0\nZ 5 1 0 0 0\n"
    yield on_line("header-join", "X25 3 MOD 8 WIN 2 SIZE 16 PVC 0 IN 0 TWO 2 OUT 2 JOIN", packets,
                  report=reported.format("p1", 20))
    permanent = "X25 3 MOD 8 WIN 2 SIZE 16 PVC 1 IN 1 TWO 2 OUT 2 JOIN"
    yield on_line("header-join-with-permanent-channel-given", permanent, packets, "--pvc 1",
                  report=reported.format("d1", 1))
    yield on_line("header-no-join-wanted", "X25 1 MOD 8 WIN 2 SIZE 16 PVC 0 SVC 2", packets[:3], "--no-join --svc 2",
                  report="F 1 N r1 17\nF 2 T p1 20\nP 0 -\nZ 3 2 0 0 0\n")
    yield on_line("header-join-wanted", "X25 3 MOD 8 WIN 2 SIZE 128 PVC 0 IN 0 TWO 1 OUT 1 JOIN", HEAD, "--join",
                  report=with_gaps(report(0, 0, 0, 4).replace("C 1 2", "C 1 3"), 0))


def cases():
    for topic in (size_cases, window_cases, facility_cases, modulo_cases, channel_cases, join_cases):
        yield from topic()

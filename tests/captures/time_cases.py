"""Times and frames: a comment before each row, of the frame that holds its last octet, from all that has timestamps."""
from case import Case, text
from forms import *
from link_cases import ACCEPTED, CALL, LINE_REPORT, LINE_ROWS, REPORT, ROWS, conversation, line
from tcp_cases import SENT, file_of, header, report

# Frames 4 to 9 of a conversation have the packets, those of circuit 1; each comes a second, and a unit, after the one before.
MICROSECONDS = "".join(f"#@ {SECONDS + at}.00000{at} {at + 1} 1\n" for at in range(3, 9))
NANOSECONDS = "".join(f"#@ {SECONDS + at}.00000000{at} {at + 1} 1\n" for at in range(3, 9))


def pcap_cases():
    frames = [ethernet(one) for one in conversation()]
    for order, name in (("<", "little"), (">", "big")):
        yield Case(f"times-{name}-endian-microseconds", pcap(1, frames, order), ROWS, report=REPORT,
                   tshark=None, times=MICROSECONDS)
        yield Case(f"times-{name}-endian-nanoseconds", pcap(1, frames, order, True), ROWS, report=REPORT,
                   tshark=None, times=NANOSECONDS)


def ng(name, options, stamps, times, kind=enhanced, order="<"):
    """A conversation in a pcapng file whose interface has options; the time of each frame in its units."""
    blocks = [kind(ethernet(one), order=order, time=stamp) for one, stamp in zip(conversation(), stamps)]
    octets = section(order) + interface(1, order=order, options=options) + b"".join(blocks)
    return Case(name, octets, ROWS, report=REPORT, ending="pcapng", tshark=None, times=times)


def pcapng_cases():
    """A resolution is a power of ten, or of two where its highest bit is set; an offset is in seconds."""
    micro = [(SECONDS + at) * 10**6 + at for at in range(12)]
    yield ng("times-pcapng", b"", micro, MICROSECONDS)
    yield ng("times-pcapng-big-endian", b"", micro, MICROSECONDS, order=">")
    yield ng("times-pcapng-obsolete-blocks", b"", micro, MICROSECONDS, obsolete)
    nano = [(SECONDS + at) * 10**9 + at for at in range(12)]
    yield ng("times-pcapng-nanoseconds", option(9, b"\x09") + option(0, b""), nano, NANOSECONDS)
    # Twelve decimals, of which nine are kept.
    pico = [at * 10**12 + at * 1000 + 999 for at in range(12)]
    offset = option(14, struct.pack("<q", SECONDS))
    yield ng("times-pcapng-picoseconds-and-an-offset", option(9, b"\x0c") + offset + option(0, b""), pico, NANOSECONDS)
    binary = [at * 2**20 + 2**18 * (at % 4) for at in range(12)]
    offset = option(14, struct.pack("<q", -21))
    times = text("""
        #@ -17.25 4 1
        #@ -17 5 1
        #@ -15.75 6 1
        #@ -14.5 7 1
        #@ -13.25 8 1
        #@ -13 9 1
    """)
    yield ng("times-pcapng-binary-and-before-1970", option(9, b"\x94") + offset, binary, times)


def without_times():
    """Simple blocks and hex dumps have none: the comments of their rows have frames alone."""
    frames = [ethernet(one) for one in conversation()]
    octets = section() + interface(1) + b"".join(map(simple, frames))
    yield Case("times-that-no-block-has", octets, ROWS, report=REPORT, ending="pcapng", tshark=None,
               times="".join(f"#@ - {at} 1\n" for at in range(4, 10)))
    yield Case("times-that-no-dump-has", dump([(frame, "") for _, frame in line()]), LINE_ROWS, "--as lapb",
               report=LINE_REPORT, ending="txt", tshark=None, times="".join(f"#@ - {at}\n" for at in range(1, 9)))


def frames_of_packets():
    """Frame 6 has two packets and the head of a third, which ends in frame 8; that was recorded after frame 7."""
    talk = Talk()
    octets = b"".join(map(xot, SENT[:3]))
    frames = talk.open() + [talk.a(CALL), talk.b(ACCEPTED), talk.segment(0, octets[:19])]
    rest = talk.segment(0, octets[19:])
    frames += [talk.b("100161"), rest]
    yield Case("times-of-packets-and-frames", file_of(frames), header(3) + text("""
        4 T 10010B0000
        5 N 10010F
        6 T 100100A0
        7 T 100102A1
        8 T 100104A2
        9 N 100161
    """), report=report(4, 5, None, 3, 6), tshark=None, times=text("""
        #@ 1700000003.000003 4 1
        #@ 1700000004.000004 5 1
        #@ 1700000005.000005 6 1
        #@ 1700000005.000005 6 1
        #@ 1700000007.000007 8 1
        #@ 1700000006.000006 7 1
    """))


def link_times():
    frames = [frame for _, frame in line()]
    yield Case("times-of-lapb", pcap(147, frames), LINE_ROWS, "--as 147=lapb", report=LINE_REPORT, tshark=None,
               times="#@ 1700000000 1\n" + "".join(f"#@ {SECONDS + at}.00000{at} {at + 1}\n" for at in range(1, 8)))


def cases():
    for topic in (pcap_cases, pcapng_cases, without_times, frames_of_packets, link_times):
        yield from topic()

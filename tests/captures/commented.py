"""Tests of captures that are written again with comments: octet by octet what is expected here."""
import pathlib
import subprocess
import tempfile

import forked
from forms import *
from link_cases import ACCEPTED, CALL
from with_tshark import PROGRAM as TSHARK
from x25trace_lib.command import program

TIMEOUT = 60
END = option(0, b"")
MICROSECONDS = option(9, b"\6") + END
CALL_WORDS = (
    "x25scan: Call 1, outgoing on logical channel 1: called -, calling -; opened by frame {0}, up with frame {1}, open at "
    "the end; from the DTE 0 data packets with 0 octets, from the DCE 0 data packets with 0 octets; 0 segments"
)
FINDING = (
    "x25scan: F {0} T d1 1: Invalid P(S): P(S) 2 where 0 comes next. The DCE resets the channel (d3). "
    "(X.25 4.4.1.1, 4.4.1.2; the code by Annex E)"
)
GIVEN = ["--win", "2", "--size", "128"]


def comment(words, order="<"):
    return option(1, words.encode(), order)


def frames():
    """A call in frames 4 and 5 and a wrong P(S) in frame 6."""
    talk = Talk()
    return [ethernet(one) for one in [*talk.open(), talk.a(CALL), talk.b(ACCEPTED), talk.a("100104AA")]]


COMMENTS = {3: CALL_WORDS.format(4, 5), 5: FINDING.format(6)}


def said(at, order="<", other=b""):
    """The options of a frame of those above: others first, then the comment on it."""
    if at not in COMMENTS:
        return other and other + option(0, b"", order)
    return other + comment(COMMENTS[at], order) + option(0, b"", order)


def from_pcap():
    """Each record becomes an enhanced block with the same octets, length and time."""
    for order in "<>":
        for nano in (False, True):
            parts = 10**9 if nano else 10**6
            out = section() + interface(1, 262_144, options=option(9, b"\x09" if nano else b"\6") + END)
            for at, one in enumerate(frames()):
                out += enhanced(one, time=(SECONDS + at) * parts + at, options=said(at))
            yield f"pcap {order} {parts}", pcap(1, frames(), order, nano), out


def from_pcap_with_lengths():
    """A frame that was cut, and frame check sequences: their octets, and that they are there, are kept."""
    checked = [one + b"\1\2\3\4" for one in frames()]
    checked.append((ethernet(bytes(16), 0x0806), 64))
    out = section() + interface(1, 262_144, options=option(9, b"\6") + option(13, b"\x20") + END)
    for at, one in enumerate(checked):
        octets, length = one if isinstance(one, tuple) else (one, len(one))
        out += enhanced(octets, length=length, time=(SECONDS + at) * 10**6 + at, options=said(at))
    yield "pcap with check sequences", pcap(1, checked, network=1 | 1 << 26 | 2 << 28), out


def from_modified_pcap():
    directed = [(one, 4 if at % 2 else 3) for at, one in enumerate(frames())]
    out = section() + interface(1, 262_144, options=MICROSECONDS)
    for at, (one, kind) in enumerate(directed):
        commented = comment(COMMENTS[at]) if at in COMMENTS else b""
        commented += option(2, struct.pack("<I", 2)) if kind == 4 else b""
        out += enhanced(one, time=(SECONDS + at) * 10**6 + at, options=commented and commented + END)
    yield "modified pcap", modified(1, directed), out


def from_snoop():
    out = section() + interface(1, 262_144, options=MICROSECONDS)
    for at, one in enumerate(frames()):
        out += enhanced(one, time=(SECONDS + at) * 10**6 + at, options=said(at))
    yield "snoop", snoop(4, frames()), out


def from_pcapng():
    """Blocks of other kinds, options and comments that were there stay; a section's length is not known any more."""
    for order in "<>":
        own = option(2, struct.pack(order + "I", 1), order) + option(1, "x25scan, über".encode(), order)
        names = block(4, struct.pack(order + "I", 0), order)
        custom = block(0xBAD, struct.pack(order + "I", 32473) + b"note", order)
        start = interface(1, 96, order, option(2, b"eth0", order) + option(0, b"", order)) + names

        def file(kinds, length):
            head = struct.pack(order + "IHHq", 0x1A2B3C4D, 1, 0, length) + option(3, b"Linux", order)
            return block(0x0A0D0D0A, head, order) + start + b"".join(kinds) + names

        before = [enhanced(one, order=order, time=at, options=own + option(0, b"", order))
                  for at, one in enumerate(frames())]
        after = [enhanced(one, order=order, time=at, options=said(at, order, own)) for at, one in enumerate(frames())]
        yield f"pcapng {order}", file(before, 4096), file(after, -1)
        before = [simple(one, order=order) for one in frames()]
        after = [simple(one, order=order) if at not in COMMENTS else enhanced(one, order=order, options=said(at, order))
                 for at, one in enumerate(frames())]
        yield f"pcapng with simple blocks {order}", file(before, -1), file(after, -1)
        before = [obsolete(one, order=order, time=at) for at, one in enumerate(frames())]
        after = [one if at not in COMMENTS else block(2, one[8:-4] + said(at, order), order)
                 for at, one in enumerate(before)]
        # Wireshark numbers the custom block as a frame: it comes after those with packets.
        yield f"pcapng with obsolete blocks {order}", file([*before, custom], -1), file([*after, custom], -1)


def from_damaged_files():
    """What can be read is there, whole: a section's header before it, and the end of the block that the file ends in."""
    blocks = [enhanced(one, time=at) for at, one in enumerate(frames())]
    last = enhanced(ethernet(bytes(46), 0x0806))
    commented = [enhanced(one, time=at, options=said(at)) for at, one in enumerate(frames())]
    before = section() + interface(1)
    kept = enhanced(ethernet(bytes(46), 0x0806)[:40], length=60)
    yield "pcapng that ends in a frame", before + b"".join(blocks) + last[:68], before + b"".join(commented) + kept, 1
    yield "pcapng that ends in a head", before + b"".join(blocks) + last[:20], before + b"".join(commented), 1
    bad = block(0x0A0D0D0A, struct.pack("<I", 0x1A2B3C4D))[:4] + b"\xff\xff\xff\xff" + section()[8:]
    yield "pcapng with a damaged section", bad + interface(1) + b"".join(blocks), before + b"".join(commented), 1


TOPICS = (from_damaged_files, from_pcap, from_pcap_with_lengths, from_modified_pcap, from_snoop, from_pcapng)


def marked(octets):
    """A file whose first section has the comment by which --comments knows it."""
    order = "<" if octets[8:12] == b"\x4d\x3c\x2b\x1a" else ">"
    length, = struct.unpack_from(order + "I", octets, 4)
    body = octets[8:length - 4] + comment("written by x25trace --comments", order) + option(0, b"", order)
    return block(0x0A0D0D0A, body, order) + octets[length:]


def kept_complaints(scanner):
    """What is wrong where a file is there: one that --comments did not write stays, unless --force is given."""
    with tempfile.TemporaryDirectory() as word:
        folder = pathlib.Path(word)
        name, out = folder / "capture", folder / "out.pcapng"
        name.write_bytes(pcap(1, frames()))
        words, said = [*GIVEN, "--scanner", scanner, name, "--comments", out], []
        for content, forced, status in (
            (None, [], 0), (..., [], 0), (b"notes", [], 2), (section() + interface(1), [], 2), (b"notes", ["--force"], 0), (..., [], 0),
        ):
            if isinstance(content, bytes):
                out.write_bytes(content)
            done = forked.run(program, [*words, *forced])
            if done.returncode != status:
                said.append(f"{content!r} {forced}: status {done.returncode}, expected {status}: {done.stderr.decode()}")
            if status and (out.read_bytes() != content or b"Output: " not in done.stderr or b"--force" not in done.stderr):
                said.append(f"{content!r}: it was changed, or the refusal is another: {done.stderr.decode()}")
        left = sorted(path.name for path in folder.iterdir())
        return said + ([] if left == ["capture", "out.pcapng"] else [f"files are left: {left}"])


def complaints(scanner, capture, wanted, status=0):
    """What is wrong with the capture that is written for one."""
    with tempfile.TemporaryDirectory() as folder:
        name, out = pathlib.Path(folder, "capture"), pathlib.Path(folder, "out.pcapng")
        name.write_bytes(capture)
        done = forked.run(program, [*GIVEN, "--scanner", scanner, "--comments", out, name])
        if (done.returncode, done.stdout) != (status, b"") or b"2 comments, in 2 frames of " not in done.stderr:
            return [f"status {done.returncode}: {done.stdout} {done.stderr.decode()}"]
        octets, wanted = out.read_bytes(), marked(wanted)
        said = [] if octets == wanted else [f"got {octets.hex(' ', 4)}", f"expected {wanted.hex(' ', 4)}"]
        return said + (tshark_complaints(out) if TSHARK else [])


def tshark_complaints(out):
    """What is wrong with the comments that tshark reads."""
    words = [TSHARK, "-r", out, "-Y", 'frame.comment contains "x25scan: "', "-T", "fields", "-e", "frame.number", "-E",
             "aggregator=|", "-e", "frame.comment"]
    done = subprocess.run(words, capture_output=True, text=True, timeout=TIMEOUT)
    lines = [f"{at + 1}\t{words}" for at, words in COMMENTS.items()]
    got = [line.replace("\tx25scan, über|", "\t") for line in done.stdout.splitlines()]
    return [] if got == lines else [f"tshark: {got}"]


def outcomes(scanner):
    """Names of tests, and what is wrong with each."""
    yield "comments over a file", kept_complaints(scanner)
    for topic in TOPICS:
        for name, *files in topic():
            yield f"comments in {name}", complaints(scanner, *files)

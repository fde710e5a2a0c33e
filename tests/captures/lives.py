"""Tests that rows are written as frames come, where options give the whole header."""
import io
import pathlib
import re
import select
import signal
import subprocess
import time
import unittest

import cases
from forms import Talk, dump, enhanced, ethernet, interface, pcap, record, section
from link_cases import ACCEPTED, CALL, DATA, conversation, packets_of
from x25tools_lib.ledger import Ledger
from x25tools_lib.options import chosen
from x25tools_lib.streams import Waiting
from x25trace_lib.captures import Captures
from x25trace_lib.live import Live
from x25trace_lib.reading import Reading
from x25trace_lib.trace import Trace
from x25trace_lib.words import parsed

HERE = pathlib.Path(__file__).resolve().parent
PROGRAM = HERE.parent.parent / "bin" / "x25trace"
SECONDS = 30
GIVEN = ["--mod", "8", "--win", "2", "--size", "128", "--pvc", "0", "--svc", "4"]
STREAMS = {"stdin": subprocess.PIPE, "stdout": subprocess.PIPE, "stderr": subprocess.PIPE}
NUMBERS = re.compile(r"MOD (\d+) WIN (\d+) SIZE (\d+) PVC (\d+) (?:SVC (\d+)|IN (\d+) TWO (\d+) OUT (\d+))")
OPTIONS = ("--mod", "--win", "--size", "--pvc", "--svc", "--in", "--two", "--out")
HEAD = re.compile(
    r"X25 |# from |# estimated |# WIN |# SIZE |# connection |# \d+ packets are not of modulo |# only the D"
    r"|.* gets no channel|# .* taken for the DTE and .* for the DCE: "
)
ENDS = "192.0.2.1 port 1025 (T) and 192.0.2.2 port 1998 (N)"
# What is found in the followed frames as they come, and what follows at the end.
FOLLOWED = (["F 6 T d1 1"], ["C 1 1 1 out - - 4 5 - open 0 0 0 0 0", "A - 1 0", "P 1 5", "G 0", "Z 3 1 1 0 0"])
CHANNEL = f"# connection 1 is channel 1: {ENDS}, logical channel 1 in the capture"


def said_by(stream, many):
    """The next lines of a pipe, as soon as that number is there, or those that come before time is up."""
    octets = b""
    end = time.monotonic() + SECONDS
    while octets.count(b"\n") < many and select.select([stream], [], [], max(end - time.monotonic(), 0))[0]:
        more = stream.read1(1 << 16)
        if not more:
            break
        octets += more
    return octets.decode().splitlines()


class Rows(unittest.TestCase):
    """Each step writes to the pipe; then the lines that it adds to the trace are there, before more is written."""

    def follow(self, words, steps, status=0):
        with subprocess.Popen([PROGRAM, *GIVEN, *words, "-"], **STREAMS) as running:
            for octets, lines in steps:
                running.stdin.write(octets)
                running.stdin.flush()
                self.assertEqual(said_by(running.stdout, len(lines)), lines)
            out, errors = running.communicate(timeout=SECONDS)
        self.assertEqual(running.returncode, status, errors)
        return out.decode().splitlines()

    def test_xot(self):
        frames = [record(ethernet(one), at) for at, one in enumerate(conversation())]
        start = ["# from standard input by x25trace, as its frames come; a row has the number of its frame",
                 "X25 3 MOD 8 WIN 2 SIZE 128 PVC 0 IN 0 TWO 4 OUT 4", CHANNEL, "4 T 10010B0000"]
        steps = [(pcap(1, []) + b"".join(frames[:3]), []), (frames[3], start), (frames[4], ["5 N 10010F"]),
                 (frames[5], ["6 T 100100AA"]), (frames[6][:20], []), (frames[6][20:], ["7 N 100121"]),
                 (frames[7], ["8 T 1001130000"]), (frames[8], ["9 N 100117"]), (b"".join(frames[9:]), [])]
        self.assertEqual(self.follow(["--no-times"], steps), ["# left out: TCP segments without octets: 4"])

    def test_pcapng_and_times(self):
        frames = [enhanced(one, flags=2 if side == "T" else 1, time=at) for at, (side, one) in enumerate(packets_of())]
        start = ["# from standard input by x25trace, as its frames come; a row has the number of its frame",
                 "X25 3 MOD 8 WIN 2 SIZE 128 PVC 0 IN 0 TWO 4 OUT 4", "#@ 0 1", "1 T 1000FB0700"]
        steps = [(section() + interface(147), []), (frames[0], start), (frames[1], ["#@ 0.000001 2", "2 N 1000FF"]),
                 (frames[2], ["#@ 0.000002 3", "3 T 10010B0000"])]
        self.assertEqual(self.follow(["--as", "147=x25"], steps), [])

    def test_no_packet(self):
        self.assertEqual(self.follow([], [(pcap(1, []), [])], 2), [])

    def test_other_carrier(self):
        """In a capture of XOT, packets of a line are left out and counted."""
        from forms import cooked_1
        frames = [cooked_1(one, 4) for one in conversation()] + [cooked_1(one, 4, 0x0805) for _, one in packets_of()]
        lines = self.follow([], [(pcap(113, frames), [])], 1)
        self.assertEqual(sum(line[0].isdigit() for line in lines), 6)
        self.assertIn("# left out: packets of another carrier than the first one, which --only may name: 8", lines)

    def test_join(self):
        """On a line the first packet shows whether the recording began in the middle, with XOT a gap row; options decide it too."""
        talk = Talk()
        line = dump([(octets, "O" if side == "T" else "I") for side, octets in packets_of()[2:4]])
        lines = self.follow(["--as", "x25"], [(line, [])])
        self.assertEqual(lines[1], "X25 3 MOD 8 WIN 2 SIZE 128 PVC 0 IN 0 TWO 4 OUT 4 JOIN")
        file = pcap(1, [ethernet(one) for one in [*talk.open(), talk.a(CALL)]])
        header = "X25 3 MOD 8 WIN 2 SIZE 128 PVC 0 IN 0 TWO 4 OUT 4"
        self.assertEqual(self.follow(["--no-join"], [(file, [])])[1], header)
        self.assertEqual(self.follow(["--join"], [(file, [])])[1], f"{header} JOIN")
        middle = pcap(1, [ethernet(Talk().a(DATA))])
        rows = [CHANNEL, "1 ? 1", f"2 T {DATA}"]
        counts = ["# only the DTE was recorded on connection 1", "# in the trace: gap rows, where packets may be missing: 1"]
        self.assertEqual(self.follow(["--no-times"], [(middle, [])], 1)[1:], [header, *rows, *counts])
        self.assertEqual(self.follow(["--no-times", "--no-join"], [(middle, [])], 1)[1:-1], [header, CHANNEL, f"1 T {DATA}"])

    def test_numbers_that_are_missing(self):
        """Without all numbers the rows wait, and the options that are missing are named."""
        capture = pcap(1, [ethernet(one) for one in conversation()])
        done = subprocess.run([PROGRAM, "--win", "2", "--size", "128", "-"], input=capture, capture_output=True,
                              timeout=SECONDS)
        self.assertIn(b"with --mod, --pvc, --svc too they are written as frames come", done.stderr)
        self.assertTrue(done.stdout.splitlines()[1].startswith(b"# estimated "))


class Cases(unittest.TestCase):
    """Each capture gives the rows and messages that it gives at its end."""

    def written(self, case, kind):
        """The lines of a trace without its head and without the comments on channels; its numbers are the expected ones."""
        given = [word for pair in zip(OPTIONS, NUMBERS.search(case.rows).groups()) if pair[1] for word in pair]
        words = [word for word in case.words.split() if word not in ("--join", "--no-join")]
        for option in OPTIONS:
            if option in words:
                del words[words.index(option):words.index(option) + 2]
        choices, wishes = chosen(parsed([*words, *given, "x"]))
        ledger, out = Ledger(), io.StringIO()
        reading = Reading(ledger, choices)
        names = [str(HERE / "files" / f"{case.name}.{case.ending}")]
        frames = Captures(names, choices.kinds, ledger, Waiting()).frames()
        trace = kind(ledger, reading, wishes, True)
        if kind is Trace:
            trace.gather(frames)
            trace.write("x", out)
        else:
            trace.write(frames, "x", out)
        # A live trace names a circuit before its first row, and not after the header.
        lines = sorted(out.getvalue().splitlines(), key=lambda line: line.startswith("#@ circuit "))
        return [line for line in lines if not HEAD.match(line)]

    def test_same_rows(self):
        for case in cases.all_cases():
            with self.subTest(case.name):
                self.assertEqual(self.written(case, Live), self.written(case, Trace))


def followed_frames():
    """A call whose third packet has P(S) 2, which is out of order."""
    talk = Talk()
    return [*talk.open(), talk.a(CALL), talk.b(ACCEPTED), talk.a(DATA[:4] + "04AA")]


def follow_complaints(program):
    """What is wrong with the findings of x25scan --follow on a capture as it is written."""
    with subprocess.Popen([PROGRAM, *GIVEN, "-"], stdin=subprocess.PIPE, stdout=subprocess.PIPE,
                          stderr=subprocess.DEVNULL) as writer:
        with subprocess.Popen([*program, "--follow"], stdin=writer.stdout, stdout=subprocess.PIPE) as reader:
            writer.stdin.write(pcap(1, [ethernet(one) for one in followed_frames()]))
            writer.stdin.flush()
            first = said_by(reader.stdout, 1)
            writer.stdin.close()
            rest = reader.stdout.read().decode().splitlines()
    return [] if (first, rest) == FOLLOWED else [f"got {first} and then {rest}"]


def interrupted_complaints(program):
    """What is wrong with x25trace --follow on a capture that is interrupted while it is written."""
    words = [PROGRAM, "--follow", "--scanner", program, *GIVEN, "-"]
    with subprocess.Popen(words, **STREAMS) as running:
        running.stdin.write(pcap(1, [ethernet(one) for one in followed_frames()]))
        running.stdin.flush()
        first = said_by(running.stdout, 1)
        running.send_signal(signal.SIGINT)
        rest = running.stdout.read().decode().splitlines()
        errors = running.stderr.read().decode().splitlines()
    said = ["x25trace: interrupted: the trace is of what was read before, 6 frames",
            "x25trace: left out: TCP segments without octets: 3"]
    got, wanted = (first, rest, errors, running.returncode), (*FOLLOWED, said, 1)
    return [] if got == wanted else [f"got {got}, expected {wanted}"]

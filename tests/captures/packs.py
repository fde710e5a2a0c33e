"""Tests of gzip files: captures and traces are read as what the files hold, however they come and however they end."""
import contextlib
import gzip
import io
import os
import pathlib
import random
import subprocess
import tempfile
import unittest
import zlib

import calls
import cases
from calls import run
from forms import ethernet, pcap, record
from link_cases import conversation
from lives import GIVEN, PROGRAM, STREAMS, said_by
from x25tools_lib.packed import Packed, beginning
from x25trace_lib import command

FILES = pathlib.Path(__file__).resolve().parent / "files"
TRACE = FILES.parent.parent.parent / "examples" / "seven-calls.trace"
SECONDS = 60
# Half of it can be packed, and half of it can't.
OCTETS = random.Random(53).randbytes(100_000) + b"0000 10 01 0B\n" * 10_000


def unpacked(octets, step):
    """What comes of octets that come in steps, and what is said of them."""
    stream, said = io.BytesIO(octets), []
    start = beginning(lambda: stream.read(step))
    packed = Packed(start, lambda: stream.read(step), said.append)
    return b"".join(iter(packed.octets, b"")), said


class Members(unittest.TestCase):
    """A file as gzip writes it, joins it and damages it, in steps of some sizes."""

    packed = gzip.compress(OCTETS)

    def same(self, octets, wanted, *said):
        for step in (1, 1000, 1 << 18):
            with self.subTest(step):
                found, words = unpacked(octets, step)
                self.assertEqual(words, list(said))
                self.assertTrue(found == wanted, f"{len(found)} octets, expected {len(wanted)}")

    def test_whole(self):
        self.same(self.packed, OCTETS)
        self.same(gzip.compress(b""), b"")

    def test_members(self):
        """Files that cat joined, and zeros to the end of a block."""
        self.same(self.packed + gzip.compress(b"more"), OCTETS + b"more")
        self.same(self.packed + bytes(511), OCTETS)
        self.same(self.packed + bytes(511) + gzip.compress(b"more") + bytes(3), OCTETS + b"more")

    def test_name_of_the_file(self):
        """A header with the name of the file, as gzip FILE writes it."""
        held = io.BytesIO()
        with gzip.GzipFile("day.pcap", "wb", fileobj=held, mtime=1) as file:
            file.write(OCTETS)
        self.assertIn(b"day.pcap\0", held.getvalue())
        self.same(held.getvalue(), OCTETS)

    def test_cut_off(self):
        """All that an unpacker can know of the octets that are there comes."""
        for length in (2, 9, 50_000, len(self.packed) - 8, len(self.packed) - 1):
            wanted = zlib.decompressobj(31).decompress(self.packed[:length])
            self.same(self.packed[:length], wanted, "its gzip data is cut off")

    def test_damaged(self):
        wrong_sum = self.packed[:-8] + bytes(4) + self.packed[-4:]
        self.same(wrong_sum, OCTETS, "its gzip data is damaged (incorrect data check): the rest is left out")
        self.same(self.packed + b"more", OCTETS, "its gzip data is followed by something else: the rest is left out")
        words = "its gzip data is damaged (unknown compression method): the rest is left out"
        self.same(b"\x1f\x8b" + bytes(30), b"", words)

    def test_octet_that_differs(self):
        """What comes before the damage is what was packed."""
        chance = random.Random(1)
        for _ in range(100):
            octets = bytearray(self.packed)
            octets[chance.randrange(2, len(octets))] ^= 1 << chance.randrange(8)
            found, said = unpacked(bytes(octets), 1 << 18)
            self.assertLess(len(said), 2)
            # A bit of the header may change nothing, and one of a literal changes it until the sum is seen.
            self.assertTrue(said or found == OCTETS)


class Captures(unittest.TestCase):
    """Captures in gzip files, under the names of those that they hold."""

    def setUp(self):
        held = tempfile.TemporaryDirectory()
        self.addCleanup(held.cleanup)
        self.folder = pathlib.Path(held.name)

    def test_every_capture(self):
        """Each capture gives its trace, octet by octet, and its status."""
        self.addCleanup(os.chdir, os.getcwd())
        os.chdir(self.folder)
        for case in cases.all_cases():
            name = f"{case.name}.{case.ending}"
            pathlib.Path(name).write_bytes(gzip.compress((FILES / name).read_bytes(), 1))
            with self.subTest(case.name), contextlib.redirect_stderr(io.StringIO()):
                with contextlib.redirect_stdout(io.StringIO()) as out:
                    status = command.main(["--scanner", str(calls.SCANNER), *case.words.split(), name])
                self.assertEqual((status, out.getvalue()), (case.status, (FILES / f"{case.name}.trace").read_text()))

    def rows(self, done):
        self.assertIn(done.returncode, (0, 1), done.stderr)
        return [line for line in done.stdout.splitlines() if not line.startswith(b"#")]

    def test_pipes(self):
        """Standard input and a pipe with a name, of which the first octet comes alone."""
        packed, wanted = gzip.compress((FILES / "ethernet.pcap").read_bytes()), (FILES / "ethernet.trace").read_bytes()
        wanted = [line for line in wanted.splitlines() if not line.startswith(b"#")]
        self.assertEqual(self.rows(run("-", input=packed)), wanted)
        (self.folder / "packed").write_bytes(packed)
        for command_line in ('(head -c 1; sleep 0.1; cat) < "$1" | "$0" -', '"$0" <(head -c 1 "$1"; tail -c +2 "$1")'):
            words = ["bash", "-c", command_line, PROGRAM, self.folder / "packed"]
            self.assertEqual(self.rows(subprocess.run(words, capture_output=True, timeout=SECONDS)), wanted)

    def test_damages(self):
        """What is there is read, with status 1; nothing of a file that holds nothing."""
        octets = gzip.compress((FILES / "ethernet.pcap").read_bytes())
        (self.folder / "day.pcap.gz").write_bytes(octets[:-8])
        done = run("day.pcap.gz", cwd=self.folder)
        self.assertEqual(done.returncode, 1)
        self.assertIn(b"x25trace: day.pcap.gz: its gzip data is cut off\n", done.stderr)
        self.assertIn(b"x25trace: left out: damages of the file: 1\n", done.stderr)
        self.assertEqual(len(self.rows(done)), 7)
        done = run("-", input=octets[:5])
        self.assertEqual((done.returncode, done.stdout), (2, b""))
        self.assertIn(b"x25trace: Compressed: standard input: its gzip data is cut off\n", done.stderr)
        done = run("-", input=gzip.compress(b""))
        self.assertIn(b"x25trace: Empty: standard input has no octet: ", done.stderr)
        done = run("-", input=gzip.compress(octets))
        self.assertIn(b"x25trace: Compressed: standard input is compressed; unpack it first with gzip -d\n", done.stderr)

    def test_rotated(self):
        """Packed files and others, in their order."""
        frames = [ethernet(one) for one in conversation()]
        (self.folder / "a.gz").write_bytes(gzip.compress(pcap(1, frames[:6])))
        (self.folder / "b").write_bytes(pcap(1, frames[6:], begin=6))
        done, whole = run("a.gz", "b", cwd=self.folder), run("ethernet.pcap", cwd=FILES)
        self.assertEqual(self.rows(done), self.rows(whole))
        (self.folder / "b").write_bytes(gzip.compress(b"\x7fELF"))
        done = run("a.gz", "b", cwd=self.folder)
        self.assertEqual((done.returncode, done.stdout), (2, b""))
        self.assertIn(b"x25trace: UnknownFormat: b is no pcap, ", done.stderr)

    def test_live(self):
        """Rows are written as packed frames come."""
        packer, frames = zlib.compressobj(wbits=31), [record(ethernet(one), at) for at, one in enumerate(conversation())]

        def write(octets):
            running.stdin.write(packer.compress(octets) + packer.flush(zlib.Z_SYNC_FLUSH))
            running.stdin.flush()

        with subprocess.Popen([PROGRAM, *GIVEN, "-"], **STREAMS) as running:
            write(pcap(1, []) + b"".join(frames[:4]))
            circuit = "#@ circuit 1 1 192.0.2.1 1025 192.0.2.2 1998"
            self.assertEqual(said_by(running.stdout, 6)[3:], [circuit, "#@ 1700000003.000003 4 1", "4 T 10010B0000"])
            write(frames[4])
            self.assertEqual(said_by(running.stdout, 2), ["#@ 1700000004.000004 5 1", "5 N 10010F"])
            running.communicate(packer.flush(), timeout=SECONDS)
        self.assertEqual(running.returncode, 0)


class Traces(unittest.TestCase):
    """A trace is passed on unchanged, packed or not."""

    def test_as_it_is(self):
        trace = TRACE.read_bytes()
        for octets in (trace, gzip.compress(trace), trace[:-1]):
            done = run("-", input=octets)
            wanted = gzip.decompress(octets) if octets.startswith(b"\x1f\x8b") else octets
            self.assertEqual((done.returncode, done.stdout, done.stderr), (0, wanted, b""))

    def test_long_beginning(self):
        """Comments may come before the header, and a comment may be of the form of a frame."""
        trace = b"# 0000 10 01 0B\n" * 1000 + TRACE.read_bytes()
        self.assertEqual(run("-", input=trace).stdout, trace)
        done = run("-", input=b"# 0000 10 01 0B\n0000 10 01 0B\n")
        self.assertIn(b"x25trace: KindMissing: ", done.stderr)
        self.assertIn(b"--as KIND does: ethernet, sll, sll2, ip, lapb, lapb-dir, hdlc, x25 or x25-dir\n", done.stderr)

    def test_cut_off(self):
        """A line that was begun is left out."""
        packed = gzip.compress(TRACE.read_bytes())
        done = run("-", input=packed[:len(packed) * 3 // 4])
        self.assertEqual(done.returncode, 1)
        self.assertTrue(done.stdout.endswith(b"\n") and TRACE.read_bytes().startswith(done.stdout))
        self.assertGreater(done.stdout.count(b"\n"), 10)
        self.assertIn(b"x25trace: standard input: its gzip data is cut off\n", done.stderr)

    def test_refused(self):
        lines = (
            (64, b"x25trace: --win is of captures, and ", ["--win", "2", TRACE]),
            (64, b"x25trace: --no-times is of captures, and ", ["--no-times", TRACE]),
            (2, b"x25trace: UnknownFormat: ", [FILES / "ethernet.pcap", TRACE]),
            (2, b"is a trace, which is read alone; docs/GUIDE.md says how several become one", [TRACE, TRACE]),
        )
        for status, words, line in lines:
            done = run(*line)
            self.assertEqual((done.returncode, done.stdout), (status, b""), done.stderr)
            self.assertIn(words, done.stderr)

"""Captures whose rest is zeros, as after a power cut: they are read in constant memory, and what comes after is found."""
import os
import pathlib
import pty
import resource
import subprocess
import tempfile
import unittest

from forms import *
from link_cases import ACCEPTED, CALL
from x25tools_lib.progress import EVERY, MEBIBYTE, Progress

PROGRAM = pathlib.Path(__file__).resolve().parent.parent.parent / "bin" / "x25trace"
TIMEOUT = 120
# The octets of a file, and the most data that the program may have.
SIZE, MOST = 1 << 27, 1 << 26
GIVEN = ["--win", "2", "--size", "128"]


def limited():
    resource.setrlimit(resource.RLIMIT_DATA, (MOST, MOST))


def frames():
    talk = Talk()
    return [ethernet(one) for one in [*talk.open(), talk.a(CALL), talk.b(ACCEPTED), talk.a("100100AA"), talk.b("100121")]]


class Zeros(unittest.TestCase):
    """A sparse file of 128 MiB, read with at most 64 MiB of data."""

    def read(self, before, after=b""):
        """The status, the trace and the messages of a file with zeros between or after octets."""
        with tempfile.TemporaryDirectory() as folder:
            path = pathlib.Path(folder, "zeros")
            with open(path, "wb") as file:
                file.write(before)
                file.seek(SIZE + 1)
                file.write(after)
                file.truncate(SIZE + 1 + len(after))
            done = subprocess.run([PROGRAM, *GIVEN, path], capture_output=True, text=True, timeout=TIMEOUT, check=False,
                                  preexec_fn=limited)
        return done.returncode, [line for line in done.stdout.splitlines() if line[0].isdigit()], done.stderr

    def test_after_frames(self):
        status, rows, errors = self.read(pcap(1, frames()))
        self.assertEqual((status, rows), (1, ["4 T 10010B0000", "5 N 10010F", "6 T 100100AA", "7 N 100121"]))
        self.assertIn("a record of 0 octets cannot be: ", errors)
        blocks = section() + interface(1) + b"".join(map(enhanced, frames()))
        status, rows, errors = self.read(blocks)
        self.assertEqual((status, len(rows)), (1, 4))
        self.assertIn("a block of type 0 and 0 octets cannot be: ", errors)

    def test_between_frames(self):
        """A record's header may have been written in part."""
        for part in (b"", record(frames()[0])[:6]):
            more = b"".join(record(one, at) for at, one in enumerate(frames()) if at > 4)
            status, rows, _ = self.read(pcap(1, frames()[:5]) + part, more)
            self.assertEqual((status, rows), (1, ["4 T 10010B0000", "5 N 10010F", "6 T 100100AA", "7 N 100121"]))

    def test_nothing_else(self):
        status, rows, errors = self.read(pcap(1, []))
        self.assertEqual((status, rows), (2, []))
        self.assertIn("NoPacket: the capture has no frame", errors)
        status, rows, errors = self.read(b"")
        self.assertEqual((status, rows), (2, []))
        self.assertIn("UnknownFormat: ", errors)


class Progressing(unittest.TestCase):
    """How much was read is said on a terminal, after some seconds."""

    def test_lines(self):
        said, now = [], [0.0]
        progress = Progress(said.append, lambda: now[0])
        for seconds in (1, EVERY - 2, 1, 1, EVERY):
            now[0] += seconds
            progress.add(600 * MEBIBYTE)
        self.assertEqual(said, ["1,800 MiB were read", "3,000 MiB were read"])

    def test_terminal(self):
        """Nothing is said in less than that, and nothing at all with --quiet."""
        with tempfile.TemporaryDirectory() as folder:
            path = pathlib.Path(folder, "frames.pcap")
            path.write_bytes(pcap(1, frames()))
            for quiet in ([], ["--quiet"]):
                main, terminal = pty.openpty()
                done = subprocess.run([PROGRAM, *GIVEN, *quiet, path], stdout=subprocess.PIPE, stderr=terminal, check=False)
                os.close(terminal)
                said = os.read(main, 4096) if not quiet else b""
                os.close(main)
                self.assertEqual(done.returncode, 0)
                self.assertNotIn(b"MiB", said)
                self.assertIn(b"without octets" if not quiet else b"", said)

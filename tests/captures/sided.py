"""Captures whose DTE is a guess: the reactions of the DCE decide for the other end, and options overrule that."""
import pathlib
import tempfile
import unittest

import forked
from forms import *
from link_cases import ACCEPTED, CALL, line
from x25trace_lib.command import program

ROOT = pathlib.Path(__file__).resolve().parent.parent.parent
GIVEN = ["--win", "2", "--size", "128"]


def faults():
    """A call that the DCE brings, in which the DTE sends a wrong P(S), and the DCE resets with code 1."""
    talk = Talk()
    frames = talk.open() + [talk.a(CALL), talk.b(ACCEPTED)]
    for _ in range(3):
        frames += [talk.b("100104AA"), talk.a("10011B0501"), talk.b("10011F")]
    return frames + [talk.a("100100AA"), talk.b("100121")]


HERE, THERE = bytes.fromhex("020000000001"), bytes.fromhex("020000000002")
SABM, UA = b"\1\x3f", b"\3\x73"
RESTART, CALLED, READY = bytes.fromhex("1000FB0000"), bytes.fromhex("10010B0000"), bytes.fromhex("100121")


def linked(*frames):
    """LAPB in frames of Ethernet: a source each, and the octets."""
    return pcap(1, [(THERE if source is HERE else HERE) + source + b"\x60\0" + len(octets).to_bytes(2, "little") + octets
                    for source, octets in frames])


def sent(number, receive, packet):
    """An I frame; both ends have the address 01."""
    return bytes((1, receive << 5 | number << 1)) + packet


class Reader(unittest.TestCase):
    """What x25trace says of a capture."""

    def setUp(self):
        folder = tempfile.TemporaryDirectory()
        self.addCleanup(folder.cleanup)
        self.path = pathlib.Path(folder.name, "day.pcap")

    def run_tool(self, *words, octets=b""):
        return forked.run(program, ["--scanner", SCANNER, *GIVEN, *words], octets=octets)

    def comment(self, *words):
        """The comment on the ends of the capture."""
        trace = self.run_tool("--quiet", *words, self.path).stdout.decode()
        return next((line for line in trace.split("X25 ")[0].splitlines() if " taken for the DTE and " in line), None)

    def read(self, *words, octets=b""):
        done = self.run_tool(*words, octets=octets)
        return [line for line in done.stdout.decode().splitlines() if line[0].isdigit()], done.stderr.decode()



class Sides(Reader):
    def setUp(self):
        super().setUp()
        self.path.write_bytes(pcap(1, [ethernet(one) for one in faults()]))

    def test_comments(self):
        """The comment before the header says on what the sides rest."""
        for words, dte, dce, basis in (
            ((), DCE, DTE, "the DCE answers 3 of 3 errors of the DTE, and 0 of 0 the other way"),
            (("--dte", DTE), DTE, DCE, "--dte names it"), (("--dte", DTE, "--swap"), DCE, DTE, "--swap exchanges the ends"),
            (("--swap",), DCE, DTE, "--swap exchanges the ends, and the DCE opened the connection"),
        ):
            self.assertEqual(self.comment(*words), f"# {dte} is taken for the DTE and {dce} for the DCE: {basis}")

    def test_reactions(self):
        rows, errors = self.read(self.path)
        self.assertEqual(rows[:3], ["4 N 10010B0000", "5 T 10010F", "6 T 100104AA"])
        self.assertEqual(errors.count("the DCE answers 3 of 3 errors of the DTE with the sides exchanged, and "), 1)
        self.assertIn("so the sides are exchanged; --dte or --sender say otherwise", errors)

    def test_options(self):
        """Options say which end is the DTE: nothing is tried."""
        for words, first in ((("--dte", DTE), "4 T 10010B0000"), (("--dte", DCE), "4 N 10010B0000"), (("--swap",), "4 N 10010B0000")):
            rows, errors = self.read(*words, self.path)
            self.assertEqual(rows[0], first)
            self.assertNotIn("exchanged", errors)

    def test_pipe(self):
        """A pipe can't be read again: a message names the option."""
        rows, errors = self.read("-", octets=self.path.read_bytes())
        self.assertEqual(rows[0], "4 T 10010B0000")
        self.assertIn("with the sides exchanged, and 0 of ", errors)
        self.assertIn(": --swap exchanges them\n", errors)


class Addresses(Reader):
    def test_reactions(self):
        """Where the address octets say which end is the DTE, the reactions of the DCE give a message and a comment alone."""
        faults = [("N", "100104AA"), ("T", "10011B0501"), ("N", "10011F")] * 3
        packets = [("T", RESTART.hex()), ("N", "1000FF"), ("T", CALL), ("N", ACCEPTED), *faults]
        self.path.write_bytes(pcap(147, [frame for _, frame in line(packets)]))
        rows, errors = self.read("--as", "147=lapb", self.path)
        self.assertEqual(rows[0], "1 T 1000FB0000")
        words = "the DCE answers 3 of 3 errors of the DTE with the sides exchanged, and 0 of 0 as they are: --swap exchanges them\n"
        self.assertIn(words, errors)
        self.assertNotIn(words, self.read("--as", "147=lapb", "--swap", self.path)[1])


class Openers(Reader):
    """Of a link whose ends have one address, the DTE is the end that opened it."""

    def opened(self, dte, basis, *frames, words=()):
        self.path.write_bytes(linked(*frames))
        dce = HERE if dte is THERE else THERE
        self.assertEqual(self.comment(*words), f"# {dte.hex(':')} is taken for the DTE and {dce.hex(':')} for the DCE: {basis}")

    def test_link(self):
        """The first SABM is later than the first frame."""
        frames = (HERE, sent(0, 0, READY)), (THERE, SABM), (HERE, UA), (HERE, SABM), (THERE, UA), (HERE, sent(0, 0, RESTART))
        self.opened(THERE, "the DTE opened the link", *frames)
        self.opened(HERE, "--swap exchanges the ends, and the DCE opened the link", *frames, words=("--swap",))
        self.opened(HERE, "an option names it", *frames, words=("--dte", HERE.hex(":")))
        self.opened(THERE, "the DTE opened the link", *frames, words=("--side", "link-address"))

    def test_packets(self):
        """Without a SABM, the first restart shows it, and without that the first call."""
        frames = (HERE, sent(0, 0, READY)), (THERE, sent(0, 1, CALLED)), (HERE, sent(1, 1, CALLED))
        self.opened(THERE, "the DTE made the first call", *frames)
        self.opened(HERE, "the DTE sent the first restart", *frames, (HERE, sent(2, 1, RESTART)))
        self.opened(HERE, "it sent the first frame", (HERE, sent(0, 0, READY)), (THERE, sent(0, 0, READY)))

    def test_addresses(self):
        """Where the ends have two addresses, these decide, whoever opened the link."""
        frames = (THERE, b"\3\x3f"), (HERE, b"\3\x73"), (HERE, sent(0, 0, RESTART))
        self.opened(HERE, "its commands have the address 01", *frames)

    def test_pipe(self):
        self.path.write_bytes(linked((HERE, sent(0, 0, READY)), (THERE, SABM), (HERE, SABM), (HERE, sent(0, 0, RESTART))))
        _, errors = self.read("-", octets=self.path.read_bytes())
        self.assertIn("02:00:00:00:00:02 opened the link, and is taken for the DCE: --swap exchanges them\n", errors)

    def test_recording_host(self):
        """Of packets without a link header, the recording host is the DTE."""
        hosts = ["the recording host", "the other host"]
        self.path.write_text("O\n0000 10 00 FB 00 00\nI\n0000 10 00 FF\n")
        for words, (dte, dce), basis in (((), hosts, "it recorded the packets"), (("--swap",), hosts[::-1], "--swap exchanges the ends")):
            self.assertEqual(self.comment("--as", "x25", *words), f"# {dte} is taken for the DTE and {dce} for the DCE: {basis}")


SCANNER = ROOT / "crates" / "x25scan" / "out" / "x25scan"

"""Tests of the hosts in a page: in the verdict, the findings, the summary and the facts of the page."""
import json
import os
import pathlib
import sys
import tempfile
import unittest
from dataclasses import replace

from missing import FINDING, Said
from pages import ROOT, Page, run

sys.path[:0] = [str(ROOT / "tools"), str(ROOT / "tests" / "captures")]

from forms import ethernet, pcap  # noqa: E402
from sided import faults  # noqa: E402
from x25page_lib.calls import MEMBERS  # noqa: E402
from x25page_lib.ends import UNKNOWN, AllEnds, ends_of  # noqa: E402
from x25page_lib.facts import Facts  # noqa: E402
from x25page_lib.gathering import sides_of  # noqa: E402
from x25page_lib.peaks import Peak  # noqa: E402
from x25page_lib.verdicts import Blame  # noqa: E402
from x25tools_lib.notes import MOST_CIRCUITS, Circuit, Head  # noqa: E402

CAPTURE = ROOT / "tests" / "captures" / "files" / "xot-circuits-of-one-pair.pcap"
CUT = ROOT / "tests" / "captures" / "files" / "tcp-end-without-a-clear.pcap"
GAP = ROOT / "tests" / "captures" / "files" / "gaps-that-share-a-row.pcap"
# The program that the tests ask, as the suite names it.
SCANNER = pathlib.Path()


def circuit(row, channel, number, dte="192.0.2.1", dce="192.0.2.9"):
    words = f"connection {number} is channel {channel}: {dte} port 4000 (T) and {dce} port 1998 (N), logical channel 1 in the capture"
    return Circuit(row, channel, words)


def facts_of(said, *circuits, comments=()):
    """The facts of what was said, with these circuits and comments before the header."""
    facts = Facts(Head(circuits=list(circuits), comments=list(comments)))
    sums = {"packets": said.packet, "findings": said.findings, "calls": said.calls, "octets": 0, "segments": 0}
    facts.take([*said.objects, {"line": "peak", "count": 1, "packet": 1}, {"line": "sums", **sums}])
    return facts


class Named(unittest.TestCase):
    def test_comments(self):
        """What a comment on a connection says of its ends; other words name none."""
        both = ends_of("connection 7 is channel 3, which another one had before: 10.0.0.2 port 1998 (N) and 2001:db8::1 port 40000 (T)")
        self.assertEqual((both.hosts, both.connection), (("2001:db8::1", "10.0.0.2"), 7))
        for words in ("", "connection 1 is channel 1", "connection 1 is channel 1: <b>", "connection x is channel 1: a port 1 (T) and b port 2 (N)",
                      f"connection 1 is channel 1: {'a' * 65} port 1 (T) and b port 2 (N)", "connection 1 is channel 1: a port 1 (X) and b port 2 (N)"):
            self.assertIs(ends_of(words), UNKNOWN)

    def test_of_packets(self):
        """A channel that several circuits have in turn has the hosts of each from its first row on."""
        ends = AllEnds(Head(circuits=[circuit(10, 1, 1), circuit(20, 2, 2, "192.0.2.2"), circuit(30, 1, 3, "192.0.2.3")]))
        hosts = [ends.of(*it).hosts[0] for it in ((1, 10), (1, 29), (2, 20), (1, 30), (1, 9), (3, 40), (None, 40))]
        self.assertEqual(hosts, ["192.0.2.1", "192.0.2.1", "192.0.2.2", "192.0.2.3", None, None, None])
        self.assertEqual(ends.hosts(), [{"192.0.2.1": 1, "192.0.2.2": 1, "192.0.2.3": 1}, {"192.0.2.9": 3}])

    def test_of_circuits_that_are_not_kept(self):
        """Where there are more circuits than are kept, nothing after the last one is said to be of a host."""
        ends = AllEnds(Head(circuits=[circuit(at, 1, at) for at in range(1, MOST_CIRCUITS + 1)]))
        self.assertEqual(ends.of(1, MOST_CIRCUITS).connection, MOST_CIRCUITS)
        self.assertIs(ends.of(1, MOST_CIRCUITS + 1), UNKNOWN)

    def test_of_a_line(self):
        """A comment names the ends of a whole line, and on what that rests."""
        ends = AllEnds(Head(comments=["02:00:00:00:00:01 is taken for the DTE and 02:00:00:00:00:02 for the DCE: the reactions of the DCE"]))
        self.assertEqual(ends.of(3, 9).hosts, ("02:00:00:00:00:01", "02:00:00:00:00:02"))
        self.assertEqual(ends.basis, "the reactions of the DCE")
        for words, hosts in (
            ("the recording host is taken for the DTE and the other host for the DCE: it recorded the packets", ("the recording host", "the other host")),
            ("2 hosts are taken for the DTE and 192.0.2.9 for the DCE: --dte names it", (None, "192.0.2.9")),
        ):
            ends = AllEnds(Head(comments=[words]))
            self.assertEqual((ends.line.hosts, ends.said, sides_of(ends)), (hosts, words, f"{words}."))
        for words in ("the third host is taken for the DTE and b for the DCE: c", "a is taken for the DTE", f"{'a' * 65} is taken for the DTE and b for the DCE"):
            self.assertEqual(AllEnds(Head(comments=[words])).line, UNKNOWN)


class CutOff(unittest.TestCase):
    """Calls whose connections ended without a clear."""

    def test_peak(self):
        peak = Peak()
        for call in ((2, None, 10), (4, 20, None), (12, None, None), (14, 16, None), (None, None, 30), (18, None, 25)):
            peak.add(*call)
        # Without the first call, which was cut off, 4, 12 and 14 were up at once.
        self.assertEqual(peak.lines([4, 14]), [3, 14, 3, 10])
        self.assertEqual(peak.lines([2, 4]), [2, 4, 3, 10])
        whole = Peak()
        whole.add(2, None, None)
        self.assertEqual(whole.lines([5, 9]), [5, 9])

    def test_calls(self):
        said = Said()
        for channel in (1, 2, 3):
            said.opened(channel)
        for number in (1, 2, 3):
            said.objects.append(dict.fromkeys(MEMBERS, 0) | {"line": "call", "call": number, "channel": number, "opened": 2 * number - 1,
                                                             "up": 2 * number, "ended": None, "how": "open"})
        circuits = [circuit(1, 1, 1), circuit(3, 2, 2), circuit(5, 3, 3)]
        ended = replace(circuits[0], words=f"{circuits[0].words}; it ends in frame 3 without a clear")
        facts = facts_of(said, ended, *circuits[1:])
        self.assertEqual((facts.cut_off, facts.peak), ([[1, 3]], [1, 1, 1, 3]))
        self.assertEqual([facts_of(said, *circuits).peak, facts_of(said, *circuits).cut_off], [[1, 1], []])
        self.assertEqual(ends_of(ended.words).cut_off, 3)


class Blamed(unittest.TestCase):
    def test_sentences(self):
        none = ({}, {})
        said = (
            (Blame((0, 2), (0, 0), ({}, {"a": 2})), "the DCE (a) broke the protocol twice"),
            (Blame((5, 0), (0, 0), ({"a": 3, "b": 2}, {})), "the DTE broke the protocol 5 times (a 3 times, b twice)"),
            (Blame((6, 1), (0, 0), ({"a": 1, "b": 4, "c": 1}, {"d": 1})),
             "the DTE broke the protocol 6 times (3 hosts, most often b), the DCE (d) once"),
            (Blame((0, 2), (1, 0), none), "the DCE broke the protocol twice; one finding of the DTE may follow from that"),
            (Blame((1, 1), (1, 3), none),
             "the DTE broke the protocol once, the DCE once; one finding of the DTE and 3 of the DCE may follow from that"),
            (Blame((0, 1), (0, 1200), none), "the DCE broke the protocol once; 1,200 findings of the DCE may follow from that"),
        )
        for blame, sentence in said:
            self.assertEqual(blame.sentence() + blame.rest(), sentence)
        self.assertIsNone(Blame().sentence())

    def test_findings_by_host(self):
        said, calls = Said(), []
        for channel in (1, 2, 3):
            calls.append(said.opened(channel))
        for channel in (1, 2, 2, 3):
            said.row(channel, calls[channel - 1], ("T", "data", "d1 d3"), finding=FINDING, counted=None)
        facts = facts_of(said, circuit(1, 1, 1), circuit(3, 2, 2, "192.0.2.2"), circuit(5, 3, 3))
        self.assertEqual(facts.verdict().sentence, "The DTE broke the protocol 4 times (192.0.2.1 twice, 192.0.2.2 twice).")
        self.assertEqual(facts.found.host_lines(), [[["192.0.2.1", 2, 0, 2, 7, "call-1"], ["192.0.2.2", 2, 0, 1, 8, "call-2"]], []])

    def test_host_that_is_not_known(self):
        """Where one finding of a side is of an unknown host, the verdict names none of it."""
        said = Said()
        for channel in (1, 2):
            said.row(channel, said.opened(channel), ("T", "data", "d1 d3"), finding=FINDING, counted=None)
        self.assertEqual(facts_of(said, circuit(1, 1, 1)).verdict().sentence, "The DTE broke the protocol twice.")


class Written(unittest.TestCase):
    """Each test runs in a folder of its own."""

    def setUp(self):
        held = tempfile.TemporaryDirectory()
        self.addCleanup(held.cleanup)
        self.folder = pathlib.Path(held.name)

    def facts(self, *words):
        done = run("--scanner", SCANNER, "--force", "-o", "a.html", *words, cwd=self.folder)
        self.assertIn(done.returncode, (0, 1), done.stderr)
        return Page(self.folder / "a.html").facts

    def test_page(self):
        facts = self.facts("--win", "2", "--size", "128", CAPTURE)
        hosts = facts["hosts"]
        for row, channel, words, number, dte, dce in facts["circuits"]:
            self.assertEqual((words.startswith(f"connection {number} is channel {channel}: "), row > 0), (True, True))
            self.assertIn(f"{hosts[dte]} port ", words)
            self.assertIn(f"{hosts[dce]} port ", words)
        self.assertEqual([[len(names), many] for many, names in facts["side_hosts"]], [[2, 2], [2, 2]])
        self.assertTrue(facts["sides"].startswith("2 hosts are taken for the DTE and 2 hosts for the DCE: "), facts["sides"])
        self.assertTrue(facts["sides"].endswith(": the DTE opened the connection."))
        self.assertEqual(facts["swapped"], f"x25page --swap --win 2 --size 128 {CAPTURE.name}")

    def test_the_other_way(self):
        """The command exchanges the sides, and names the first way again; --dte says on what the sides rest."""
        facts = self.facts("--swap", CAPTURE)
        self.assertEqual(facts["swapped"], f"x25page {CAPTURE.name}")
        self.assertIn(": --swap exchanges the ends, and the DCE opened the connection.", facts["sides"])
        dte = facts["side_hosts"][0][1][0][0]
        self.assertTrue(self.facts("--dte", dte, CAPTURE)["sides"].endswith(": --dte names it."))
        self.assertEqual(self.facts(ROOT / "examples" / "seven-calls.trace")["sides"], "")

    def test_sides_that_the_reading_exchanges(self):
        """The reactions of the DCE decide: an option has the other host as the DTE."""
        path = self.folder / "faults.pcap"
        path.write_bytes(pcap(1, [ethernet(one) for one in faults()]))
        facts = self.facts("--win", "2", "--size", "128", path)
        dce = facts["side_hosts"][1][1][0][0]
        self.assertEqual(facts["swapped"], f"x25page --dte {dce} --win 2 --size 128 faults.pcap")
        self.assertTrue(facts["sides"].endswith(": the DCE answers 3 of 3 errors of the DTE, and 0 of 0 the other way."), facts["sides"])
        self.assertEqual(self.facts("--dte", dce, path)["side_hosts"][0][1][0][0], dce)

    def test_summary(self):
        done = run("--scanner", SCANNER, "--summary", "--win", "7", GAP, cwd=self.folder)
        self.assertIn(b": The DTE (192.0.2.1) broke the protocol once, in what was recorded: 1 gap.\n", done.stdout)
        self.assertIn(b"\nfindings by host\n  DTE 192.0.2.1: 1 on 1 connection, first at frame ", done.stdout)
        self.assertIn(b"\n  192.0.2.1 is taken for the DTE and ", done.stdout)

    def test_connection_that_ended_without_a_clear(self):
        """The page names the frame at its call, and from where on the number of calls at once is not known."""
        facts = self.facts("--win", "2", "--size", "128", CUT)
        self.assertEqual((facts["cut_off"], facts["peak"]), ([[1, 8]], [1, 5, 1, 8]))
        text = run("--scanner", SCANNER, "--summary", CUT, cwd=self.folder).stdout.decode()
        self.assertIn("\n  not known from frame 8 on: the connections of 1 call ended without a clear\n", text)
        self.assertIn(": their connections ended without a clear; first call 1\n", text)

    def test_not_proved(self):
        """What a program says of itself that is not the proved one is on the page and in the text, and nothing else is."""
        real = os.path.realpath(SCANNER)
        for proof in ("", "NOT PROVED: <b>tried</b> out"):
            scanner = self.folder / "scanner"
            scanner.write_text(f"#!/bin/sh\n[ \"$1\" = --version ] && {{ echo x25scan 1; echo '{proof}'; exit; }}\nexec {real} \"$@\"\n")
            scanner.chmod(0o755)
            words = ("--scanner", scanner, ROOT / "examples" / "seven-calls.trace")
            run("--force", "-o", "a.html", *words, cwd=self.folder)
            self.assertEqual(json.loads(Page(self.folder / "a.html").json)["program"], proof)
            text = run("--summary", *words, cwd=self.folder).stdout.decode()
            self.assertEqual(text.splitlines()[1] == f"  {proof}", bool(proof))


if __name__ == "__main__":
    unittest.main()

"""Tests of the headers that x25scan tries on a capture: how they are read, and what is said of what they decide."""
import pathlib
import tempfile
import unittest

import forked
from x25tools_lib.header import Header
from x25tools_lib.sides import Side
from x25trace_lib.command import program
from x25trace_lib.evidence import NONE_TRIED, Basis, Evidence, largest, ranked_first
from x25trace_lib.estimate import Estimator
from x25trace_lib.packets import Missing, Packet
from x25trace_lib.ranking import FOLLOWED, NO_SCANNER, Tried, ranking_of
from x25trace_lib.spool import Spool

FILES = pathlib.Path(__file__).resolve().parent / "files"
HEADING = "# answered unanswered unexplained   findings  uncounted     octets  header\n"
GIVE = "give --win and --size where you know them"


def tried(window, size, *counts):
    return Tried({"MOD": 8, "WIN": window, "SIZE": size}, (*counts, *[0] * (6 - len(counts))))


def header(window=3, size=256):
    return Header(8, window, size, 0, 0, 1, 1, False, 1)


def line(window, size, *counts):
    columns = "".join(f"{count:>12}" for count in (*counts, *[0] * (6 - len(counts))))
    return f"{columns}  X25 2 MOD 8 WIN {window} SIZE {size} PVC 0 IN 0 TWO 1 OUT 1 JOIN\n"


class Tables(unittest.TestCase):
    """What x25scan prints, as values."""

    def test_lines(self):
        self.assertEqual(ranking_of(HEADING + line(2, 128, 3, 1, 2, 4) + line(7, 16)),
                         [tried(2, 128, 3, 1, 2, 4), tried(7, 16)])

    def test_other_tables(self):
        older = "# findings  uncounted     octets  header\n         0          0          0  X25 1 MOD 8 WIN 2 SIZE 16 PVC 1 SVC 1\n"
        for text in ("", older, HEADING + "x\n", HEADING + line(2, 128).replace("WIN 2 ", ""), line(2, 128)):
            self.assertEqual(ranking_of(text), [], text)


class Decided(unittest.TestCase):
    """What the headers that are tried decide, and how it is said."""

    def judged(self, ranking, seen, sentences, is_whole=True):
        evidence = ranked_first(ranking, header(), seen, is_whole)
        self.assertEqual(list(evidence.sentences()), sentences)
        return evidence

    def test_both(self):
        ranking = [tried(2, 128, 6), tried(3, 128, 3, 0, 3), tried(2, 256, 3, 0, 3), tried(3, 256, 0, 0, 6)]
        evidence = self.judged(ranking, {"WIN": 3, "SIZE": 256}, ["WIN 2 and SIZE 128: with them the DCE answers 6 of 6 findings"])
        self.assertEqual(evidence.values, {"WIN": 2, "SIZE": 128})
        self.assertEqual(evidence.source("SIZE"), "with it the DCE answers 6 of 6 findings")

    def test_one_finding(self):
        ranking = [tried(2, 128, 1), tried(3, 128, 0, 0, 1)]
        self.judged(ranking, {"WIN": 3, "SIZE": 128}, ["WIN 2 and SIZE 128: with them the DCE answers the one finding"])

    def test_finding_without_an_answer(self):
        ranking = [tried(2, 256, 1, 1), tried(3, 256, 0, 1, 1)]
        self.judged(ranking, {"WIN": 3}, ["WIN 2: with it the DCE answers 1 of 2 findings"])

    def test_window_alone(self):
        """No greater window gives the same reactions, and a greater size does."""
        ranking = [tried(2, 128, 3), tried(2, 256, 3), tried(3, 128, 0, 0, 3)]
        evidence = self.judged(ranking, {"WIN": 3, "SIZE": 256}, [
            "WIN 2: with it the DCE answers 3 of 3 findings",
            "SIZE 128 is a guess, the smallest that fits: give --size where you know it"])
        self.assertEqual(evidence.source("SIZE"), "a guess: the smallest that fits")

    def test_nothing(self):
        """The first header, or that of what was seen if its counts are the same."""
        ranking = [tried(1, 16), tried(1, 32), tried(2, 16), tried(2, 32), tried(3, 256, 0, 0, 0, 1)]
        self.judged(ranking, {"WIN": 3, "SIZE": 256}, [f"WIN 1 and SIZE 16 are a guess, the smallest that fit: {GIVE}"])
        ranking = [tried(1, 16, 0, 0, 0, 1), tried(3, 256, 0, 0, 0, 1)]
        self.judged(ranking, {"WIN": 3, "SIZE": 256}, [f"WIN 3 and SIZE 256 are a guess, the smallest that fit: {GIVE}"])
        ranking = [tried(1, 16, 1), tried(3, 256, 1)]
        evidence = ranked_first(ranking, header(), {"WIN": 3, "SIZE": 256}, True)
        self.assertEqual(evidence.values, {"WIN": 1, "SIZE": 16}, "the DCE answers one")

    def test_beginning(self):
        """The first rows decide the window; the size is the largest that was seen in all of them."""
        ranking = [tried(2, 16, 3), tried(2, 32, 3), tried(3, 16, 0, 0, 3)]
        evidence = self.judged(ranking, {"WIN": 3, "SIZE": 256}, [
            "WIN 2: with it the DCE answers 3 of 3 findings",
            "SIZE 256 is the largest seen, as the first 100,000 packets decide nothing: data that broke a smaller value is "
            "not found, so give --size where you know it"], is_whole=False)
        self.assertEqual((evidence.values, evidence.source("SIZE")), ({"WIN": 2, "SIZE": 256}, "the largest user data"))

    def test_given_numbers(self):
        """Only headers with the numbers that are not estimated count."""
        ranking = [tried(1, 16, 5), tried(3, 64, 2), tried(3, 128)]
        evidence = ranked_first(ranking, header(window=3), {"SIZE": 256}, True)
        self.assertEqual((evidence.values, evidence.bases), ({"SIZE": 64}, {"SIZE": Basis.ANSWERS}))
        evidence = ranked_first(ranking, header(window=6), {"SIZE": 256}, True)
        self.assertEqual((evidence.values, evidence.why), ({"SIZE": 256}, NONE_TRIED))

    def test_sizes(self):
        """Only headers with one of some sizes count, if there are any."""
        ranking = [tried(1, 256, 1), tried(1, 128, 1), tried(2, 128, 1)]
        evidence = ranked_first(ranking, header(), {"WIN": 3, "SIZE": 256}, True, range(128, 200))
        self.assertEqual((evidence.values, evidence.bases["SIZE"]), ({"WIN": 1, "SIZE": 128}, Basis.ANSWERS))
        evidence = ranked_first(ranking, header(), {"WIN": 3, "SIZE": 256}, True, range(64, 100))
        self.assertEqual(evidence.values["SIZE"], 256)

    def test_largest(self):
        for why in (NO_SCANNER, FOLLOWED):
            found = largest({"WIN": 3, "SIZE": 256}, why)
            self.assertEqual(list(found.sentences()), [
                f"WIN 3 and SIZE 256 are the largest seen, as {why}: data that broke a smaller value is not found, so {GIVE}"])
        self.assertEqual(found.source("WIN"), "the most data not acknowledged")

    def test_no_data(self):
        self.assertEqual((list(Evidence().sentences()), Evidence().source("WIN")), ([], "the default: no data was seen"))


class Lengths(unittest.TestCase):
    """Data that the DCE calls too long shows the packet size."""

    RESET, CLEAR = "10011B0527", "1001131327"

    def estimator(self, *rows):
        """What was seen of rows on channel 1: a side and its user data, or its octets."""
        estimator = Estimator()
        for side, what in (("T", "10010B0000"), ("N", "10010F"), *rows):
            octets = bytes.fromhex("100100") + bytes(what) if isinstance(what, int) else bytes.fromhex(what)
            estimator.see(1, True, Side(side), octets, True)
        return estimator

    def test_reset_and_clear(self):
        for answer in (self.RESET, self.CLEAR):
            estimator = self.estimator(("T", 100), ("N", 120), ("T", 200), ("T", 20), ("N", answer))
            self.assertEqual((estimator.sizes, estimator.size, estimator.largest), (range(128, 200), 128, 200))

    def test_other_answers(self):
        """Of another cause, of another diagnostic, of the other side, and after a reset."""
        for rows in (("N", "10011B0027"),), (("N", "10011B0501"),), (("T", self.RESET),), (("N", "10011B0500"), ("N", self.RESET)):
            estimator = self.estimator(("T", 100), ("T", 200), *rows)
            self.assertEqual((len(estimator.sizes), estimator.size), (0, 256), rows)

    def test_data_that_others_keep(self):
        """The same length is accepted elsewhere, or other data has no smaller size."""
        for length in (200, 150):
            estimator = self.estimator(("T", 200), ("N", self.RESET), ("T", "10011F"), ("T", length))
            self.assertEqual((len(estimator.sizes), estimator.size), (0, 256))

    def test_gap(self):
        """What was sent before a gap may not be what was too long."""
        estimator = self.estimator(("T", 200))
        estimator.miss(Missing(9, None))
        estimator.see(1, True, Side.N, bytes.fromhex(self.RESET), True)
        self.assertEqual((len(estimator.sizes), estimator.size), (0, 256))

    def test_agreed_size(self):
        estimator = self.estimator(("T", "1001130000"), ("N", "100117"), ("T", "10010B0003420808"), ("N", "10010F"),
                                   ("T", 200), ("N", self.RESET))
        self.assertEqual((estimator.largest, len(estimator.sizes)), (0, 0))


class Asked(unittest.TestCase):
    """x25trace and the x25scan that it asks."""

    def traced(self, script, *words, capture="ethernet.pcap"):
        """The header and the messages of a trace, with a script as x25scan."""
        with tempfile.TemporaryDirectory() as folder:
            scanner = pathlib.Path(folder, "x25scan")
            scanner.write_text(f"#!/bin/sh\n{script}\n")
            scanner.chmod(0o755)
            done = forked.run(program, ["--scanner", scanner, *words, FILES / capture])
        self.assertEqual(done.returncode, 0, done.stderr)
        return next(it for it in done.stdout.decode().splitlines() if it.startswith("X25 ")), done.stderr.decode()

    def test_best(self):
        """The first line with the numbers of the options is used."""
        script = f"cat > /dev/null; printf '{HEADING + line(4, 64, 2) + line(3, 32, 1)}'".replace("\n", "\\n")
        self.assertIn(" WIN 4 SIZE 64 ", self.traced(script)[0])
        self.assertIn(" WIN 3 SIZE 32 ", self.traced(script, "--win", "3")[0])
        self.assertIn(" WIN 5 SIZE 16 ", self.traced(script, "--win", "5")[0])

    def test_not_asked(self):
        """Where both are given, or no data was seen, nothing is asked."""
        for words, capture in ((["--win", "2", "--size", "128"], "ethernet.pcap"), (["--as", "147=x25"], "header-without-data.pcapng")):
            header, errors = self.traced("echo asked >&2", *words, capture=capture)
            self.assertIn(" WIN 2 SIZE 128 ", header)
            self.assertNotIn("asked", errors)

    def test_failures(self):
        """Without a table the largest values are used, and a message says so."""
        for script in ("exit 3", "cat > /dev/null", "kill -9 $$"):
            header, errors = self.traced(script)
            self.assertIn(" WIN 1 SIZE 16 ", header)
            self.assertIn(f"WIN 1 and SIZE 16 are the largest seen, as {NO_SCANNER}: ", errors)


    def test_followed(self):
        """With --follow the rows go to x25scan, and no headers are tried."""
        with tempfile.TemporaryDirectory() as folder:
            scanner = pathlib.Path(folder, "x25scan")
            scanner.write_text("#!/bin/sh\necho \"$@\" >&2\ncat > /dev/null\n")
            scanner.chmod(0o755)
            errors = forked.run(program, ["--follow", "--scanner", scanner, FILES / "ethernet.pcap"]).stderr.decode()
        self.assertIn(f"WIN 1 and SIZE 16 are the largest seen, as {FOLLOWED}: ", errors)
        self.assertNotIn("--try-headers", errors)


class First(unittest.TestCase):
    """The rows that are tried come in the trace, after which its other rows come."""

    def test_parts(self):
        for first in (1, 999, 1001, 2500):
            spool = Spool(True)
            for frame in range(1, 3000):
                spool.add(Packet(frame, Side.T, b"\x10\1\0"), 0)
            spool.note("a comment")
            text, ends = "", []
            for part in spool.replay([], first):
                text += part
                ends.append((spool.replayed, text.count("\n")))
            self.assertIn((first, 2 * first), ends)
            self.assertEqual(ends[-1], (2999, 2 * 2999 + 1))
            spool.close()

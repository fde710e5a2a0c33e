"""Tests of frames: what a page and its summary call the packets of a trace that says their frames."""
import pathlib
import random
import sys
import tempfile
import unittest

sys.path.insert(0, str(pathlib.Path(__file__).resolve().parents[2] / "tools"))

import lines  # noqa: E402
from pages import Page, run  # noqa: E402
from x25tools_lib.frames import Frames  # noqa: E402

SCANNER = None


def framed():
    """A call whose packets are 4 to 11. Frame 6 has data and data with a finding, and later packets are of later frames."""
    line = lines.Line()
    line.call(1)
    line.data(1, "T", (0, 0))
    line.data(1, "T", (2, 0))
    line.on(1, "N", "1B0501")
    line.on(1, "T", "1F")
    line.clear(1)
    line.first, line.frames = 4, (4, 5, 6, 6, 9, 10, 11, 12)
    return line


class Named(unittest.TestCase):
    """The frames of packets."""

    def test_frames(self):
        """Whatever packets have frames, each has its own, and a packet without one has none."""
        chosen = random.Random(9)
        for _ in range(200):
            frames, wanted, number, frame = Frames(), {}, 0, 0
            for _ in range(chosen.randint(0, 40)):
                number += chosen.choice((1, 1, 1, 5))
                frame += chosen.choice((0, 1, 1, 3))
                wanted[number] = chosen.choice((None, frame, frame, frame))
                frames.add(number, wanted[number])
            self.assertEqual({it: frames.of(it) for it in wanted}, wanted)
            self.assertEqual(frames.begun, next((it for it in wanted if wanted[it] is not None), None))
            self.assertIsNone(frames.of(0))

    def test_names(self):
        frames = Frames()
        for packet, frame in ((1, None), (1500, 1500), (1501, 1500)):
            frames.add(packet, frame)
        self.assertEqual([frames.name(it) for it in (1, 1500, 1501)],
                         ["packet 1", "frame 1,500", "frame 1,500 (packet 1,501)"])
        self.assertEqual(frames.name(1501, ""), "frame 1500 (packet 1501)")


class Called(unittest.TestCase):
    """The page and the summary of a trace with frames."""

    def setUp(self):
        held = tempfile.TemporaryDirectory()
        self.addCleanup(held.cleanup)
        self.folder = pathlib.Path(held.name)
        trace = self.folder / "line.trace"
        trace.write_text(framed().text())
        page = trace.with_suffix(".html")
        done = run("--scanner", SCANNER, "--summary", "-o", page, trace)
        self.summary, self.page = done.stdout.decode(), Page(page)

    def test_facts(self):
        facts = self.page.facts
        self.assertEqual((facts["framed"], facts["frames"]), (4, {"7": 6, "8": 9, "10": 11, "11": 12}))
        others = {row[0]: row[8].get("frame") for row in facts["ladders"]["call-1"] if row[8]}
        self.assertEqual(others, {4: None, 5: None, 6: None, 7: 6, 8: 9, 9: 10, 10: 11, 11: 12})

    def test_summary(self):
        for words in ("DTE, code 1 (Invalid P(S)): 1, first at frame 6 (packet 7), call 1",
                      "1 call at once at most, first at frame 5\n"):
            self.assertIn(words, self.summary)

    def test_no_frames(self):
        trace = self.folder / "no.trace"
        trace.write_text(lines.several().text())
        done = run("--scanner", SCANNER, "--summary", "-o", trace.with_suffix(".html"), trace)
        facts = Page(trace.with_suffix(".html")).facts
        self.assertEqual((facts["framed"], facts["frames"]), (None, {}))
        self.assertIn(b"first at packet 23", done.stdout)
        self.assertNotIn(b"frame", done.stdout)

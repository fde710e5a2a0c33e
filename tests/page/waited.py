"""Tests of waits and use: requests and their time-outs, closed windows, acknowledgements, segments, and calls by cause."""
import pathlib
import random
import sys
import tempfile
import unittest

from lines import MICROS, Line
from pages import ROOT, Page, run

sys.path.insert(0, str(ROOT / "tools"))

from x25page_lib.use import MOST_PARTS, Parts  # noqa: E402
from x25page_lib.windows import MOST_TIMES, Spread  # noqa: E402

# The program that the tests ask, as the suite names it.
SCANNER = pathlib.Path()
MINUTE = 60


def requests():
    """Requests that are answered, late, given up, sent again, and open at the end."""
    line = Line()
    line.put("T", "1000FB0000")
    line.put("T", "1000FB0000", after=181)
    line.put("N", "1000FF", after=2)
    line.call(1)
    line.on(2, "T", "0B0000")
    # The DTE gives up a call request after 250 seconds.
    line.on(2, "T", "130000", after=250)
    line.on(2, "N", "17", after=1)
    line.on(1, "N", "1B0000")
    line.on(1, "T", "1F", after=70)
    line.on(3, "N", "0B0000")
    line.on(3, "T", "130000", after=5)
    line.on(3, "N", "17")
    line.on(1, "N", "130000")
    line.on(1, "N", "130000", after=61)
    line.on(4, "T", "0B0000", after=1)
    line.ready(5, "T", 0, after=20)
    return line


def closed():
    """Windows of two that close for 3.5 and 10 seconds, and one of three that does not close; then a restart."""
    line = Line()
    line.call(1)
    line.data(1, "T", (0, 0))
    line.data(1, "T", (1, 0), after=0.5)
    line.ready(1, "N", 1, after=3.5)
    line.ready(1, "N", 2, after=1)
    # The DTE is not ready for ten seconds.
    line.on(1, "T", "05")
    line.data(1, "N", (0, 2), after=4)
    line.ready(1, "T", 1, after=6)
    line.on(2, "T", "0B0003430303")
    line.on(2, "N", "0F")
    for at in range(2):
        line.data(2, "T", (at, 0), after=1)
    line.ready(2, "N", 2, after=1)
    line.data(2, "T", (2, 0), after=1)
    for at in range(3, 5):
        line.data(2, "T", (at, 0), after=1)
    line.put("N", "1000FB0000", after=7)
    line.put("T", "1000FF")
    return line


def acknowledged():
    """Twenty packets of the DTE that are acknowledged after 0.1, 0.2 and so on to 2.0 seconds, and one after 30."""
    line = Line()
    line.call(1)
    for at in range(21):
        line.data(1, "T", (at % 8, 0), after=1)
        line.ready(1, "N", (at + 1) % 8, after=30 if at == 20 else (at + 1) / 10)
    return line


def used():
    """Data of 5, 64, 70 and 100 octets in three minutes, one of which has nothing."""
    line = Line()
    line.call(1, calling="11111")
    for at, octets in enumerate((5, 5, 64, 70, 100, 0)):
        line.data(1, "T", (at, 0), "AA" * octets, after=0.5)
        line.ready(1, "N", at + 1, after=0.5)
    line.clear(1, "N", "0100")
    line.wait(2 * MINUTE)
    for channel in (2, 3):
        line.call(channel, calling="22222")
        line.data(channel, "N", (0, 0), "BB" * 40)
        line.clear(channel, "T", "0003")
    line.call(4)
    return line


class Flow:
    """A call whose sides send data and acknowledge at random, and what that has of times: counted without a modulus."""

    def __init__(self, seed, steps=400):
        self.random, self.line = random.Random(seed), Line()
        self.line.call(1)
        # Of each side the times of its data, how many of them are acknowledged, and the times that this took.
        self.sent, self.done, self.took = ([], []), [0, 0], ([], [])
        self.closed, self.longest = [None, None], [0, 0]
        for _ in range(steps):
            self.step(self.random.randrange(2))

    def step(self, side):
        """A side sends data where its window of two is open, else an RR; each acknowledges some of what is open."""
        other, after = 1 - side, self.random.randrange(1, 3000) / 1000
        done = self.random.randint(self.done[other], len(self.sent[other]))
        is_data = len(self.sent[side]) - self.done[side] < 2 and self.random.random() < 0.6
        if is_data:
            self.line.data(1, "TN"[side], (len(self.sent[side]) % 8, done % 8), after=after)
        else:
            self.line.ready(1, "TN"[side], done % 8, after=after)
        now = self.line.time
        self.took[other].extend(now - self.sent[other][at] for at in range(self.done[other], done))
        self.done[other] = done
        if is_data:
            self.sent[side].append(now)
        for it in (side, other):
            self.look(it, now)

    def look(self, side, now):
        """The window of a side is closed or open after a packet."""
        is_closed = len(self.sent[side]) - self.done[side] == 2
        if is_closed and self.closed[side] is None:
            self.closed[side] = now
        elif not is_closed and self.closed[side] is not None:
            self.end(side, now)

    def end(self, side, now):
        if self.closed[side] is not None:
            self.longest[side] = max(self.longest[side], now - self.closed[side])
            self.closed[side] = None

    def wanted(self):
        """How many packets were acknowledged, the median, the 95th percentile and the longest time; closed windows."""
        for side in range(2):
            self.end(side, self.line.time)
        times = []
        for took in map(sorted, self.took):
            half, most = (took[(len(took) * part + 99) // 100 - 1] for part in (50, 95))
            times.append([len(took), half / MICROS, most / MICROS, took[-1] / MICROS])
        return times, [it / MICROS for it in self.longest]


class Waited(unittest.TestCase):
    def use(self, line, **how):
        """What the page of a line has of it, and what the summary says."""
        with tempfile.TemporaryDirectory() as folder:
            trace, page = pathlib.Path(folder, "line.trace"), pathlib.Path(folder, "line.html")
            trace.write_text(line.text(**how))
            done = run("--scanner", SCANNER, "-o", page, trace)
            self.assertEqual(done.returncode, 0, done.stderr)
            summary = run("--scanner", SCANNER, "--summary", trace)
            self.assertEqual(summary.returncode, 0, summary.stderr)
            self.assertFalse(pathlib.Path("line.html").exists())
            return Page(page).facts["use"], summary.stdout.decode()

    def test_requests(self):
        use, summary = self.use(requests())
        waits = [[name, packet, key, sent, seconds, how] for name, packet, key, _, sent, seconds, how in use["waits"]]
        self.assertEqual(waits, [
            ["T21", 6, "call-2", 1, 250.0, "given up"],
            ["T20", 1, "interface", 2, 183.0, "answered"],
            ["T13", 14, "call-1", 2, 82.0, "open"],
            ["T12", 9, "call-1", 1, 70.0, "answered"],
            ["T21", 16, "call-4", 1, 20.0, "open"],
        ])
        kinds = {it[0]: [it[4], it[5]["answered"], it[6], it[7], it[8]] for it in use["waited"]}
        self.assertEqual(kinds, {
            "T11": [1, 1, 0, 5.0, 11], "T12": [1, 1, 1, 70.0, 9], "T13": [1, 0, 1, 82.0, 14], "T20": [1, 1, 1, 183.0, 1],
            "T21": [3, 1, 1, 250.0, 6], "T23": [2, 2, 0, 1.0, 7],
        })
        for words in (
            "call request of the DTE (T21, 200 s): 3, 2 without an answer, 1 longer than T21; the longest wait 4 min 10 s, packet 6",
            "packet 14, call 1, channel 1, sent twice, 82 s (T13): no answer to the end of the trace",
            "packet 6, call 2, channel 2, 4 min 10 s (T21): no answer: the sender ended it",
        ):
            self.assertIn(words, summary)

    def test_no_times(self):
        """Without times a request without an answer is listed, and has no length."""
        use, summary = self.use(requests(), has_times=False)
        self.assertEqual([it[5:] for it in use["waits"]], [[None, "given up"], [None, "open"], [None, "open"]])
        self.assertEqual((use["parts"], use["acknowledged"], use["closed"]), (None, [None, None], []))
        self.assertIn("packet 6, call 2, channel 2 (T21): no answer: the sender ended it", summary)

    def test_closed_windows(self):
        use, summary = self.use(closed())
        self.assertEqual(use["closed"], [
            ["call-1", 1, 1, 10.0, 7, 9], ["call-2", 2, 0, 7.0, 17, None], ["call-1", 1, 0, 3.5, 4, 5],
        ])
        self.assertIn("call 1, channel 1, DCE: 10 s, from packet 7 to packet 9", summary)
        self.assertIn("call 2, channel 2, DTE: 7 s, from packet 17 on", summary)

    def test_acknowledgements(self):
        use, summary = self.use(acknowledged())
        self.assertEqual(use["acknowledged"], [[21, 1.1, 2.0, 30.0, 43, "call-1"], None])
        self.assertIn("data of the DTE: 21 packets, median 1.1 s, 95th percentile 2 s, longest 30 s (packet 43, call 1)", summary)

    def test_random_flow(self):
        """The times are those of another count, which has no modulus and no residues."""
        for seed in range(4):
            flow = Flow(seed)
            use, _ = self.use(flow.line)
            times, longest = flow.wanted()
            self.assertEqual([it[:4] for it in use["acknowledged"]], times, seed)
            self.assertEqual([seconds for _, _, _, seconds, *_ in sorted(use["closed"], key=lambda it: it[2])], longest, seed)

    def test_segments(self):
        use, summary = self.use(used())
        self.assertEqual(use["segments"], [[244, 7, 3], [80, 2, 0]])
        self.assertIn("data of the DTE: 34.9 octets a segment; 3 of 7 segments hold fewer than 32 octets", summary)
        self.assertIn("data of the DCE: 40.0 octets a segment; 0 of 2 segments hold fewer than 32 octets", summary)

    def test_minutes(self):
        """The parts of the chart have all packets, and the octets of the data that was accepted."""
        line = used()
        use, summary = self.use(line)
        parts = use["parts"]
        self.assertEqual((parts["seconds"], parts["begin"]), (1, 1_700_038_800))
        self.assertEqual(sum(it[1] for it in parts["parts"]), len(line.packets))
        self.assertEqual(sum(it[2] for it in parts["parts"]), 324)
        for words in ("2023-11-15 09:00:00 UTC: 16 packets, 244 octets", "2023-11-15 09:02:00 UTC: 12 packets, 80 octets"):
            self.assertIn(words, summary)

    def test_causes(self):
        use, summary = self.use(used())
        lines = [[how, cause and cause[0], diagnostic and diagnostic[0], *rest] for how, cause, diagnostic, *rest in use["causes"]]
        self.assertEqual(lines, [["T", 0, 3, 2, 2, 2], ["N", 1, 0, 1, 7, 1], ["open", None, None, 1, 0, 4]])
        self.assertIn("1 call, 7 segments: cleared by the DCE, cause 1 (number busy), diagnostic 0", summary)

    def test_one_side(self):
        """Of what was recorded of one side alone no answer is missed, and the recorded clear requests end the calls."""
        with tempfile.TemporaryDirectory() as folder:
            page = pathlib.Path(folder, "half.html")
            done = run("--scanner", SCANNER, "-o", page, ROOT / "tests/captures/files/half-dte-on-all-connections.trace")
            self.assertEqual(done.returncode, 1, done.stderr)
            use = Page(page).facts["use"]
        self.assertEqual((use["waited"], use["waits"], use["closed"], use["acknowledged"]), ([], [], [], [None, None]))
        self.assertEqual([it[:4] for it in use["causes"]], [["T", [0, "DTE originated"], [0, "no additional information"], 3]])

    def test_parts_of_any_length(self):
        """The chart of a month has as few parts as that of an hour, with all of its packets."""
        for seconds in (1, 7, 600, 86_400):
            parts = Parts()
            for at in range(2000):
                parts.add(1_700_000_000 + at * seconds, 3)
            parts.finish()
            self.assertLessEqual(parts.span(), MOST_PARTS)
            facts = parts.facts()
            self.assertEqual([sum(it[at] for it in facts["parts"]) for at in (1, 2)], [2000, 6000])

    def test_many_times(self):
        """Of many times some are kept, and the ranks stay those of all."""
        spread = Spread()
        for at in range(3 * MOST_TIMES):
            spread.add(at, at, "call-1")
        seen, median, most, longest, packet, _ = spread.facts()
        self.assertEqual((seen, packet), (3 * MOST_TIMES, 3 * MOST_TIMES - 1))
        self.assertLess(len(spread.kept), MOST_TIMES + 1)
        for got, wanted in ((median, 0.5), (most, 0.95), (longest, 1)):
            self.assertAlmostEqual(got * 1_000_000 / (3 * MOST_TIMES), wanted, places=3)

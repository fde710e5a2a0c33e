"""Tests of what a page keeps of a long trace: its rows and sums are those of the trace, whatever its budget is."""
import json
import pathlib
import random
import sys
import unittest

sys.path.insert(0, str(pathlib.Path(__file__).resolve().parents[2] / "tools"))

from x25page_lib.calls import COLUMNS, MEMBERS, Calls  # noqa: E402
from x25page_lib.facts import Thinned, Times  # noqa: E402
from x25page_lib.ladders import LEVELS, Ladders, Run  # noqa: E402
from x25page_lib.reactions import Reactions  # noqa: E402
from x25page_lib.rows import Kept as KeptRow, Row, RowForms, microseconds  # noqa: E402
from x25page_lib.suspicions import warnings  # noqa: E402
from x25tools_lib.frames import Frames  # noqa: E402

FINDING = {"code": "1", "name": "Invalid P(S)", "wrong": "<b>", "then": "", "clause": "X.25"}
CALLS, LONGEST = 40, 60


def row_of(packet, kind="data", finding=None, octets=100, forms=None, **more):
    """A row, as x25scan says it: data without a finding is quiet."""
    base = {"line": "row", "packet": packet, "side": "TN"[packet % 2], "channel": 1, "before": "d1", "after": "d1",
            "counted": None, "finding": finding, "epoch": 1, "owed": False, "call": 1, "begins": False, "up": False,
            "ends": [], "not_counted": None, "time": None, "type": kind, "hex": "00" * octets}
    rest = {}
    if kind == "data":
        rest = {"send": 3, "receive": 5, "more": packet % 7 == 0, "qualified": False, "delivery": False, "octets": octets}
        base["counted"] = None if finding else {"octets": octets, "segments": -(-octets // 64)}
    return Row(base | more | rest, forms or RowForms())


FAULTY = row_of(2, side="T", finding=FINDING, owed=True)


def items_of(ladder):
    """What a ladder keeps; of a quiet row it keeps the text alone."""
    return [KeptRow(item) if isinstance(item, str) else item for item in ladder.items]


class Kept(unittest.TestCase):
    def ladders(self, budget, faulty):
        """Ladders of calls of random lengths, and what each call had: rows, octets and findings."""
        random.seed(budget)
        ladders, forms, wanted, packet = Ladders(budget), RowForms(), {}, 0
        for call in range(1, CALLS + 1):
            sums = wanted[f"call-{call}"] = [0, 0, 0]
            for at in range(random.randint(4, LONGEST)):
                packet += 1
                finding = FINDING if call in faulty and at and random.random() < 0.2 else None
                kind = "data" if at else "call_request"
                ladders.add(f"call-{call}", row_of(packet, kind, finding, forms=forms))
                sums[0] += 1
                sums[1] += 100 if kind == "data" else 0
                sums[2] += finding is not None
            ladders.finish(f"call-{call}")
        return ladders, wanted

    @staticmethod
    def sums_of(ladder):
        """The rows, octets of data and findings of a ladder: of rows that are kept, and of sums."""
        sums = [0, 0, 0]
        for item in items_of(ladder):
            is_row = not isinstance(item, Run)
            sums[0] += 1 if is_row else item.packets
            sums[1] += item.octets * item.is_data if is_row else sum(item.octets)
            sums[2] += bool(item.code) if is_row else sum(item.findings.values())
        return sums

    def test_sums(self):
        """What is kept and what is left out of a ladder are together what it had, in the order of the packets."""
        for budget in (1_000_000, 60_000, 20_000, 6000, 1500):
            ladders, wanted = self.ladders(budget, {3, 7, 30})
            texts = dict(ladders.texts())
            self.assertLessEqual(sum(map(len, texts.values())), budget * 1.2)
            for key, ladder in ladders.ladders.items():
                self.assertEqual(self.sums_of(ladder), wanted[key], (budget, key))
                places = [item.packet if not isinstance(item, Run) else item.first for item in items_of(ladder)]
                self.assertEqual(places, sorted(places))
            self.assertEqual(len(texts) + ladders.left_out, CALLS)

    def test_marked_rows(self):
        """Of ladders whose rows all have a finding, what is kept and what is left out are together what they had."""
        for budget, level in ((800_000, 0), (400_000, 6), (150_000, 8)):
            ladders, forms = Ladders(budget), RowForms()
            for packet in range(1, 1001):
                ladders.add(f"call-{packet % 4}", row_of(packet, finding=FINDING, octets=300, forms=forms))
            sizes = [len(text) for _, text in ladders.texts()]
            self.assertLessEqual(sum(sizes), budget)
            self.assertEqual(ladders.level, level)
            for ladder in ladders.ladders.values():
                self.assertEqual(self.sums_of(ladder), [250, 75_000, 250])

    def test_findings_first(self):
        """Ladders without a finding are left out first."""
        ladders, _ = self.ladders(20_000, {3, 7, 30})
        texts = dict(ladders.texts())
        self.assertLess(len(texts), CALLS)
        self.assertLessEqual({"call-3", "call-7", "call-30"}, set(texts))

    def test_octets_first(self):
        """Of a trace that is a little too long all rows are kept, with the first of their octets."""
        ladders, wanted = self.ladders(250_000, {3})
        kept = [item for ladder in ladders.ladders.values() for item in items_of(ladder)]
        self.assertEqual((len(kept), ladders.level), (sum(it[0] for it in wanted.values()), 1))
        self.assertEqual({len(row.text.split('"')[1]) for row in kept if not row.code}, {64})

    def test_late_finding(self):
        """A call after many others is whole where it has a finding, and left out where it has none."""
        ladders, forms, packet = Ladders(20_000), RowForms(), 0
        for call in range(1, 301):
            for at in range(8):
                packet += 1
                finding = FINDING if call == 300 and at == 7 else None
                ladders.add(f"call-{call}", row_of(packet, "data" if at else "call_request", finding, 10, forms))
            if call < 299:
                ladders.finish(f"call-{call}")
        self.assertTrue(ladders.is_full)
        texts = dict(ladders.texts())
        self.assertIn("call-1", texts)
        self.assertNotIn("call-250", texts)
        self.assertEqual(len(json.loads(texts["call-300"])), 8)
        self.assertEqual(len(texts) + ladders.left_out, 300)

    def test_whole(self):
        """Nothing is left out of a short trace."""
        ladders, wanted = self.ladders(1_000_000, {3})
        kept = sum(not isinstance(item, Run) for ladder in ladders.ladders.values() for item in ladder.items)
        self.assertEqual((kept, ladders.left_out, ladders.level), (sum(it[0] for it in wanted.values()), 0, 0))

    def test_quiet_rows(self):
        """A quiet row has the same array by both ways to write it, and its text has what sums need."""
        for more in ({"time": 1_700_000_000.25}, {"frame": 152}, {"frame": 7}, {"octets": 0}, {"octets": 300}, {"kind": "rr", "receive": 7}):
            forms, kind = RowForms(), more.pop("kind", "data")
            forms.begin(1_700_000_000_000_000)
            row = row_of(7, kind, forms=forms, **more)
            self.assertTrue(row.is_quiet)
            self.assertEqual(json.loads(forms.quiet(row, 64)), json.loads(forms.text(row, 64)), more)
            kept, same = KeptRow(forms.quiet(row, 64)), KeptRow(forms.text(row, 64), row)
            for name in ("packet", "side", "octets", "code", "is_data", "is_marked", "frame"):
                self.assertEqual(getattr(kept, name), getattr(same, name), (name, more))
        self.assertFalse(FAULTY.is_quiet or row_of(3, "call_request").is_quiet or row_of(3, "rr", before="d3", after="d3").is_quiet)

    def test_frames_of_sums(self):
        """Rows that are left out name the frames of the first and the last of them, where these are other numbers."""
        forms = RowForms()
        for frames, wanted in ((lambda it: it, None), (lambda it: it - 1, [9, 19]), (lambda it: None, None)):
            run = Run()
            for packet in range(10, 21):
                run.add(row_of(packet, forms=forms, frame=frames(packet)))
            whole = Run()
            for _ in range(2):
                whole.join(run)
            self.assertEqual(json.loads(whole.kept(LEVELS[0]).text).get("frames"), wanted)
            forms = RowForms()

    def test_no_markup(self):
        ladders = Ladders(10_000)
        ladders.add("interface", row_of(1, finding=FINDING))
        (_, text), = ladders.texts()
        self.assertNotIn("<", text)
        self.assertIn("\\u003cb\\u003e", text)

    def test_calls(self):
        """Calls with findings are kept first, then those with most segments."""
        calls = Calls(1300)
        for number in (4, 4, 9):
            calls.count(number)
        for number in range(1, 30):
            calls.add(dict.fromkeys(MEMBERS, 0) | {"call": number, "segments": number})
        for number in range(1, 30):
            calls.facts(dict.fromkeys(COLUMNS[len(MEMBERS):]) | {"call": number, "findings": []})
        text = calls.text()
        self.assertLessEqual(len(text), 1302)
        self.assertEqual(sorted(calls.kept)[:2], [4, 9])
        self.assertEqual(text.count("[") - 1 + calls.left_out, 29)

    def test_times(self):
        times, forms = Times(), RowForms()
        forms.begin(500_000)
        for packet in range(1, 10_001):
            times.add(packet, packet * 500_000)
        found = times.all(forms)
        self.assertLess(len(found), 1100)
        self.assertEqual((found[0], found[-1]), ((1, 0.0), (10_000, 4999.5)))

    def test_thinned(self):
        """What does not fit is left out evenly."""
        thinned = Thinned(1000)
        for at in range(10_000):
            if thinned.takes_next():
                thinned.add(at)
        kept = json.loads(thinned.text)
        self.assertLessEqual(len(thinned.text), 1001)
        self.assertEqual((kept, thinned.left_out), (list(range(0, 10_000, kept[1])), 10_000 - len(kept)))

    def test_microseconds(self):
        """Times of this and the next decades have whole microseconds; what no clock shows is none."""
        pairs = (
            (None, None), (5, 5_000_000), (1700000003.000003, 1_700_000_003_000_003), (0.1234567, 123_457),
            (4_000_000_000.999999, 4_000_000_000_999_999), (10**400, None), (float("inf"), None),
        )
        for seconds, wanted in pairs:
            self.assertEqual(microseconds(seconds), wanted)


class Doubts(unittest.TestCase):
    HEADER = {"MOD": "8", "WIN": "1", "SIZE": "128", "SVC": "4"}

    def seen(self, rows):
        reactions = Reactions(Frames())
        for row in rows:
            reactions.see(row, "call-1")
        reactions.finish()
        return reactions

    def test_the_dce_went_on(self):
        rows = [FAULTY, row_of(3, "rr", side="N", owed=True), row_of(4, "rr", side="N", owed=True)]
        (sentence, name, values), = warnings(self.HEADER, [], self.seen(rows))
        self.assertIn("After 1 finding of the DTE (the first is packet 2)", sentence)
        self.assertEqual((name, values), ("WIN", [2, 3]))

    def test_it_follows_from_another(self):
        """What may follow from an earlier finding is no sign of a wrong header."""
        finding = {**FINDING, "follows": 1}
        rows = [row_of(2, owed=True, finding=finding), *(row_of(at, "rr", side="N", owed=True) for at in (3, 4, 5))]
        self.assertEqual(warnings(self.HEADER, [], self.seen(rows)), [])

    def test_the_dce_reset(self):
        rows = [FAULTY, row_of(3, "rr", side="N", owed=True), row_of(4, "reset_indication", side="N")]
        self.assertEqual(warnings(self.HEADER, [], self.seen(rows)), [])

    def test_the_dce_alone_shows_it(self):
        """A reset for an error that no finding is of: the header may have too great a number."""
        end = {"side": "N", "after": "d3", "cause": {"value": 5, "name": ""}, "diagnostic": {"value": 1, "name": ""}}
        header = self.HEADER | {"WIN": "7"}
        (sentence, name, values), = warnings(header, [], self.seen([row_of(3, "reset_indication", **end)]))
        self.assertIn("By diagnostic code 1 the DCE says 1 time (the first is packet 3) that the DTE broke", sentence)
        self.assertEqual((name, values), ("WIN", [2, 6]))
        for rows in (
            [row_of(3, "reset_indication", **end | {"before": "d3"})],
            [row_of(3, "reset_indication", **end | {"cause": {"value": 7, "name": ""}})],
            [row_of(3, "reset_indication", **end | {"diagnostic": {"value": 20, "name": ""}})],
            [row_of(1, side="T", finding=FINDING), row_of(3, "reset_indication", **end)],
        ):
            self.assertEqual(warnings(header, [], self.seen(rows)), [])

    def test_sides_that_agree_better(self):
        """A doubt about the header names --swap where the reactions of the DCE agree better with the sides exchanged."""
        codes = [["1", "Invalid P(S)", "X.25", [3, 2], [(1, "call-1")] * 2, [0, 0]]]
        comments = ["from day.pcap by x25trace", "the DCE answers 3 of 3 errors so, and 0 as they are: --swap exchanges them"]
        *others, (sentence, name, values) = warnings(self.HEADER, codes, Reactions(Frames()), comments)
        self.assertEqual((sentence, name, values), (
            "The ends may be taken the wrong way round: the DCE answers 3 of 3 errors so, and 0 as they are. --swap exchanges them.", "", []))
        self.assertEqual(others, warnings(self.HEADER, codes, Reactions(Frames())))
        self.assertEqual(warnings(self.HEADER, [], Reactions(Frames()), comments), [])

    def test_both_sides(self):
        codes = [["39", "Packet too long", "", [5, 9], None], ["20", "", "", [5, 9], None], ["1", "", "", [9, 0], None]]
        (sentence, name, values), = warnings(self.HEADER, codes, Reactions(Frames()))
        self.assertIn("SIZE 128", sentence)
        self.assertEqual((name, values), ("SIZE", [256, 512]))

"""Tests of the fast path: a page has the same facts of data and RR with it as without it."""
import copy
import pathlib
import random
import sys
import unittest
from unittest import mock

sys.path.insert(0, str(pathlib.Path(__file__).resolve().parents[2] / "tools"))

from x25page_lib.facts import WORDS, Facts  # noqa: E402
from x25tools_lib.notes import Head  # noqa: E402

FINDING = {"code": "1", "name": "Invalid P(S)", "wrong": "wrong", "then": "", "clause": "X.25"}
BEGUN, CHANNELS = 1_700_000_000, 4
END = ({"line": "peak", "count": 1, "packet": 1}, {"line": "sums", "packets": 1, "findings": 0, "calls": 0, "octets": 0, "segments": 0})


class Talk:
    """The rows of an interface whose calls begin, send data, are reset and end, as x25scan prints them."""

    def __init__(self, seed, has_times):
        self.random, self.has_times = random.Random(seed), has_times
        self.packet = self.calls = 0
        self.now, self.ahead = BEGUN, 0
        self.rows = []

    def put(self, channel, call, kind, states=("d1", "d1"), **more):
        """Adds a row; `more` replaces its other members."""
        self.packet += 1
        self.now += self.random.choice((0, 0.000007, 0.25, 90))
        self.ahead += self.random.random() < 0.02
        octets = self.random.choice((0, 3, 60, 128))
        row = {"line": "row", "packet": self.packet, "side": self.random.choice("TN"), "channel": channel, "before": states[0],
               "after": states[1], "counted": None, "finding": None, "epoch": 1, "owed": False, "call": call, "begins": False,
               "up": False, "ends": [], "not_counted": None, "time": self.now if self.has_times else None, "type": kind}
        if self.has_times:
            row["frame"] = self.packet + self.ahead
        if kind == "data":
            row |= {"send": self.random.randrange(8), "counted": {"octets": octets, "segments": -(-octets // 64)}}
        if kind in ("data", "rr", "rnr"):
            row["receive"] = self.random.randrange(8)
        if kind == "data":
            row |= {it: self.random.random() < 0.1 for it in ("more", "qualified", "delivery")} | {"octets": octets}
        self.rows.append(row | {"hex": "A5" * (octets + 3)} | more)

    def flow(self, channel, call):
        """A row of a call that is up."""
        kind = self.random.choices(("data", "rr", "rnr", "interrupt", "broken"), (60, 30, 2, 2, 3))[0]
        if kind != "broken":
            self.put(channel, call, kind)
            return
        self.put(channel, call, "data", ("d1", "d3"), finding=FINDING, owed=True, counted=None)
        self.put(channel, call, "reset_indication", ("d3", "d3"), cause=None, diagnostic=None)
        self.put(channel, call, "reset_confirmation", ("d3", "d1"))

    def whole(self, many):
        """The objects of a trace."""
        calls = dict.fromkeys(range(1, CHANNELS + 1))
        while len(self.rows) < many:
            channel = self.random.randint(1, CHANNELS)
            if self.random.random() < 0.01:
                self.packet += 1
                self.rows.append({"line": "gap", "packet": self.packet, "channel": self.random.choice((channel, None))})
            if calls[channel] is None and channel > 1:
                self.calls += 1
                calls[channel] = self.calls
                self.put(channel, self.calls, "call_request", ("p1", "p2"), begins=True)
                self.put(channel, self.calls, "call_connected", ("p2", "d1"), up=True)
            elif channel > 1 and self.random.random() < 0.01:
                self.put(channel, calls[channel], "clear_request", ("d1", "p6"), ends=[{"call": calls[channel], "how": "T"}])
                self.put(channel, None, "clear_confirmation", ("p6", "p1"))
                calls[channel] = None
            else:
                # Channel 1 is permanent.
                self.flow(channel, calls[channel])
        return [*self.rows, *END]


class Flowing(unittest.TestCase):
    @staticmethod
    def facts_of(objects, budget, has_fast_path):
        """The facts of a page with this budget of octets, and how many rows did not use the fast path."""
        with mock.patch("x25page_lib.facts.PAGE", WORDS + budget):
            facts = Facts(Head())
            facts.ladders.budget = budget
            facts.use.begin(2, 8)
            if not has_fast_path:
                facts.fast_path.take = lambda rest: next(rest, None)
            with mock.patch.object(facts, "row", wraps=facts.row) as rows:
                facts.take(copy.deepcopy(objects))
            found = [dict(facts.ladders.texts()), facts.ladders.level, facts.use.facts(), facts.times.all(facts.forms), facts.rows_of]
            return [*found, facts.first, facts.last, facts.marks.text, facts.frame_text, facts.forms.types.values()], rows.call_count

    def test_fast_path(self):
        """Most rows of data and RR use the fast path, and the page is the same."""
        for seed, (has_times, budget) in enumerate((times, budget) for times in (True, False) for budget in (2_000_000, 300_000, 90_000)):
            objects = Talk(seed, has_times).whole(3000)
            found, slow = self.facts_of(objects, budget, True)
            wanted, every = self.facts_of(objects, budget, False)
            self.assertEqual(found, wanted, (has_times, budget))
            self.assertEqual(every, sum(it["line"] == "row" for it in objects))
            self.assertGreater(every - slow, 1500)


if __name__ == "__main__":
    unittest.main()

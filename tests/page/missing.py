"""Tests of gaps of a recording in a page: by objects as x25scan says them, written by hand."""
import json
import pathlib
import sys
import unittest

sys.path.insert(0, str(pathlib.Path(__file__).resolve().parents[2] / "tools"))

from x25page_lib.facts import Facts  # noqa: E402
from x25page_lib.gathering import Messages, Read  # noqa: E402
from x25page_lib.ladders import LEVELS  # noqa: E402
from x25page_lib.summary import Summary  # noqa: E402
from x25page_lib.verdicts import Blame, verdict_of  # noqa: E402
from x25tools_lib.notes import Head  # noqa: E402

HEADER = "X25 3 MOD 8 WIN 2 SIZE 128 PVC 0 IN 0 TWO 2 OUT 2"
FINDING = {"code": "1", "name": "Invalid P(S)", "wrong": "wrong", "then": "", "clause": "X.25", "state": "d1"}
# The side, the kind and the states of the packets that open a call.
CALL, ACCEPTED = ("T", "call_request", "p1 p2"), ("N", "call_connected", "p2 d1")


class Said:
    """What x25scan says of a trace, an object a line."""

    def __init__(self):
        self.objects, self.packet, self.calls, self.findings, self.time = [], 0, 0, 0, 100.0

    def gap(self, channel=None):
        """A gap row, of all channels where none is named."""
        self.packet += 1
        self.objects.append({"line": "gap", "packet": self.packet, "channel": channel})
        return self.packet

    def row(self, channel, call, packet, **more):
        """A row; more replaces what it says without."""
        side, kind, states = packet
        before, after = states.split(" ")
        self.packet, self.time = self.packet + 1, self.time + 1
        row = {"line": "row", "packet": self.packet, "side": side, "channel": channel, "before": before, "after": after,
               "counted": None, "finding": None, "epoch": 1, "owed": False, "call": call, "begins": False, "up": False,
               "ends": [], "not_counted": None, "time": self.time, "type": kind, "hex": "1001AA"}
        if kind == "data":
            row |= {"send": 0, "more": False, "qualified": False, "delivery": False, "octets": 1,
                    "counted": {"octets": 1, "segments": 1}}
        if kind in ("data", "rr"):
            row["receive"] = 0
        self.findings += "finding" in more
        self.objects.append(row | more)
        return self.packet

    def opened(self, channel):
        """A call that is opened and comes up."""
        self.calls += 1
        self.row(channel, self.calls, CALL, begins=True)
        self.row(channel, self.calls, ACCEPTED, up=True)
        return self.calls

    def facts(self):
        """The facts of all that was said."""
        facts = Facts(Head())
        sums = {"packets": self.packet, "findings": self.findings, "calls": self.calls, "octets": 0, "segments": 0}
        facts.take([*self.objects, {"line": "peak", "count": 1, "packet": 1}, {"line": "sums", **sums}])
        return facts


def ladders(facts):
    """The items of each ladder: the number of a packet, or the gap with its channel."""
    texts = {key: json.loads(text) for key, text in facts.ladders.texts()}
    return {key: [(it["missing"], it["channel"]) if isinstance(it, dict) else it[0] for it in items]
            for key, items in texts.items()}


class Ladders(unittest.TestCase):
    """Where a gap is."""

    def test_of_a_call(self):
        said = Said()
        call = said.opened(1)
        gap = said.gap(1)
        data = said.row(1, call, ("T", "data", "adrift adrift"))
        facts = said.facts()
        self.assertEqual(ladders(facts), {"call-1": [1, 2, (gap, 1), data]})
        self.assertEqual(facts.gaps.text, f"[[{gap},1]]")
        self.assertIn("adrift", facts.forms.states.values())

    def test_before_the_first_row_of_a_channel(self):
        said = Said()
        gap = said.gap(2)
        said.row(1, None, ("T", "rr", "adrift adrift"))
        row = said.row(2, None, ("T", "rr", "adrift adrift"))
        self.assertEqual(ladders(said.facts()), {"channel-1": [2], "channel-2": [(gap, 2), row]})

    def test_of_all_channels(self):
        """Each ladder has the gap before its next row; one that begins later has none."""
        said = Said()
        one, two = said.opened(1), said.opened(2)
        gap = said.gap()
        first = said.row(1, one, ("N", "rr", "adrift adrift"))
        second = said.row(1, one, ("T", "data", "adrift adrift"))
        third = said.opened(3)
        last = said.row(2, two, ("T", "data", "adrift adrift"))
        self.assertEqual(ladders(said.facts()), {
            "call-1": [1, 2, (gap, None), first, second], "call-2": [3, 4, (gap, None), last], f"call-{third}": [8, 9],
        })

    def test_what_is_left_out(self):
        """Sums of rows that are left out have the gaps among them, which are no packets."""
        said = Said()
        call = said.opened(1)
        for _ in range(10):
            said.gap(1)
            said.row(1, call, ("T", "data", "adrift adrift"))
        ladder = said.facts().ladders.ladders["call-1"]
        ladder.close()
        self.assertEqual((ladder.run.packets, ladder.run.gaps), (12, 10))
        text = json.loads(ladder.run.kept(LEVELS[-1]).text)
        self.assertEqual((text["packets"], text["gaps"], text["data"]), (12, 10, [10, 0]))


class Headline(unittest.TestCase):
    """What is said first, and on what it rests."""

    def test_sentences(self):
        said = {
            (5, (1, 0), 0, 2): "The DTE broke the protocol once, in what was recorded: 2 gaps.",
            (5, (1, 2), 0, 1): "The DTE broke the protocol once, the DCE twice, in what was recorded: 1 gap.",
            (5, (0, 0), 0, 1200): "No packet breaks the protocol, in what was recorded: 1,200 gaps.",
            (5, (0, 0), 1, 1): "No packet breaks the protocol, but 1 request stayed open longer than its timer, in what was "
                               "recorded: 1 gap.",
            (5, (1, 0), 0, 0): "The DTE broke the protocol once.",
            (0, (0, 0), 0, 1): "The trace has no packets.",
        }
        for (packets, counts, *rest), sentence in said.items():
            self.assertEqual(verdict_of(packets, Blame(counts), *rest).sentence, sentence)

    def test_of_a_trace(self):
        said = Said()
        call = said.opened(1)
        said.gap(1)
        said.row(1, call, ("T", "data", "d1 d3"), finding=FINDING, counted=None)
        facts = said.facts()
        self.assertEqual(facts.verdict().sentence, "The DTE broke the protocol once, in what was recorded: 1 gap.")
        self.assertIn("1 gap.\n", Summary(Read("x", Head(HEADER), facts, Messages(None), {}, "x", "", "", "")).text())


class Waiting(unittest.TestCase):
    """A gap may hide an answer: a request before it does not count as one without an answer."""

    def waits(self, gap):
        """The lines on waits and closed windows of a trace where a request and a full window come before a gap."""
        said = Said()
        call = said.opened(1)
        for _ in range(2):
            said.row(1, call, ("T", "data", "d1 d1"))
        said.row(2, None, ("T", "reset_request", "d1 d2"))
        gap(said)
        said.row(1, call, ("N", "rr", "adrift adrift"))
        use = said.facts().use
        return [line[1] for line in use.waits.lines()], [line[4] for line in use.windows.lines()]

    def test_without_a_gap(self):
        self.assertEqual(self.waits(lambda said: None), ([5], [4]))

    def test_with_gaps(self):
        self.assertEqual(self.waits(lambda said: said.gap()), ([], []))
        self.assertEqual(self.waits(lambda said: (said.gap(1), said.gap(2))), ([], []))
        self.assertEqual(self.waits(lambda said: said.gap(1)), ([5], []))

    def test_acknowledgements_after_it(self):
        """The first P(R) of a channel that is settled says how far the numbers are, and no time."""
        said = Said()
        call = said.opened(1)
        said.gap(1)
        said.row(1, call, ("T", "data", "adrift adrift"))
        said.row(1, call, ("N", "rr", "adrift d1"), receive=4)
        said.row(1, call, ("T", "data", "d1 d1"), send=4)
        said.row(1, call, ("N", "rr", "d1 d1"), receive=5)
        said.row(1, call, ("T", "data", "d1 d1"), send=5)
        said.row(1, call, ("N", "rr", "d1 d1"), receive=6)
        dte, dce = (spread.facts() for spread in said.facts().use.windows.spreads)
        self.assertEqual((dte[0], dce), (1, None))

    def test_debts(self):
        """An indication that the DCE owed may have been in a gap."""
        for gap, unpaid in ((None, {"1": 1}), (1, {}), ("all", {})):
            said = Said()
            call = said.opened(1)
            said.row(1, call, ("T", "data", "d1 d3"), finding=FINDING, owed=True, counted=None)
            said.row(1, call, ("N", "rr", "d3 d3"), owed=True)
            if gap:
                said.gap(None if gap == "all" else gap)
            ignored = said.facts().reactions.ignored
            self.assertEqual({code: it.many for code, it in ignored.items()}, unpaid)


if __name__ == "__main__":
    unittest.main()

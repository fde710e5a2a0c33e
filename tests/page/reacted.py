"""Tests of what the DCE did about errors of the DTE, and of the calls that were not judged, by objects written by hand."""
import json
import sys
import unittest

from missing import FINDING, Said
from pages import ROOT

sys.path.insert(0, str(ROOT / "tools"))

OWED = {"owed": True}
UNCOUNTED = OWED | {"counted": None, "not_counted": "indication_owed"}
CONFIRMED = ("T", "clear_confirmation", "p1 p7")
IN_P1 = FINDING | {"code": "20", "name": "Packet type invalid for state p1"}


def named(value, name=""):
    return {"value": value, "name": name}


def end(said, kind, cause, diagnostic, states="d1 p7", **more):
    """An indication of the DCE with its cause and its diagnostic code."""
    return said.row(1, more.pop("call", None), ("N", kind, states), cause=named(cause), diagnostic=named(diagnostic, "why"), **more)


def doubts(said):
    """The sentences on the DCE, each with its packet and where it leads."""
    return said.facts().doubts()


class Ignored(unittest.TestCase):
    def test_data_after_it(self):
        """Data after an error that the DCE did not react to is not judged, and the first screen says how much."""
        said = Said()
        call = said.opened(1)
        error = said.row(1, call, ("T", "data", "d1 d3"), finding=FINDING, **UNCOUNTED)
        for side in "NTNNT":
            said.row(1, call, (side, "data", "d3 d3"), **UNCOUNTED)
        self.assertEqual(doubts(said), [
            (f"The DCE did not react to packet {error}, an error of the DTE: 5 data packets after it are not judged.", error, "call-1"),
        ])

    def test_the_dce_reacts(self):
        """Up to three packets may be on their way before the indication."""
        for many, said_so in ((2, 0), (3, 1)):
            said = Said()
            call = said.opened(1)
            said.row(1, call, ("T", "data", "d1 d3"), finding=FINDING, **UNCOUNTED)
            for _ in range(many):
                said.row(1, call, ("N", "data", "d3 d3"), **UNCOUNTED)
            end(said, "reset_indication", 5, 1, "d3 d3", call=call)
            self.assertEqual(len(doubts(said)), said_so)

    def test_several(self):
        said = Said()
        for channel in (1, 2):
            said.row(channel, None, CONFIRMED, finding=IN_P1, **OWED)
            for _ in range(3):
                said.row(channel, None, ("N", "rr", "p7 p7"), **OWED)
        (sentence, packet, key), = doubts(said)
        self.assertEqual(sentence, "The DCE did not react to 2 errors of the DTE, the first in packet 1.")
        self.assertEqual((packet, key), (1, "channel-1"))


class Unexplained(unittest.TestCase):
    def test_clears(self):
        said = Said()
        first = None
        for _ in range(16):
            call = said.opened(1)
            first = first or said.packet + 1
            end(said, "clear_indication", 19, 23, call=call)
        (sentence, packet, key), = doubts(said)
        self.assertEqual(sentence, "The DCE cleared 16 calls for diagnostic 23 (why), and no such packet was recorded: packet 3.")
        self.assertEqual((packet, key), (first, "call-1"))

    def test_what_explains_one(self):
        """A finding of the DTE with the code in the call; the cause of another DTE; a repeated one; a time-out in its state."""
        for cause, code, states, finding in ((19, 23, "d1 p7", "23"), (0, 23, "d1 p7", None), (9, 5, "d1 p7", None),
                                             (19, 23, "p7 p7", None), (19, 49, "p3 p7", None), (19, 0, "d1 p7", None)):
            said = Said()
            call = said.opened(1)
            if finding:
                said.row(1, call, ("T", "rr", "d1 d1"), finding=FINDING | {"code": finding})
            end(said, "clear_indication", cause, code, states, call=call)
            self.assertEqual(doubts(said), [], (cause, code, states))

    def test_what_does_not(self):
        """A finding of the DCE, of another code, or of another call."""
        for side, code, call in (("N", "23", 1), ("T", "24", 1), ("T", "23", 7)):
            said = Said()
            said.opened(1)
            said.row(1, call, (side, "rr", "d1 d1"), finding=FINDING | {"code": code})
            end(said, "reset_indication", 5, 23, "d1 d3", call=1)
            self.assertEqual(doubts(said)[0][0], "The DCE reset a channel once for diagnostic 23 (why), and no such packet was "
                             "recorded: packet 4.")


class Unjudged(unittest.TestCase):
    def waiting(self):
        """A channel that waits for the DCE to clear it, since packet 1."""
        said = Said()
        said.row(1, None, CONFIRMED, finding=IN_P1, **OWED)
        return said

    def request(self, said, states="p7 p7", **more):
        return said.row(1, None, ("T", "call_request", states), called="2001", calling="1001", **more)

    def test_on_a_channel_that_waits(self):
        said = self.waiting()
        request = self.request(said, **OWED)
        said.row(1, None, ("N", "call_connected", "p7 p7"), **OWED)
        said.row(1, None, ("T", "data", "p7 p7"), **UNCOUNTED, octets=11)
        said.row(1, None, ("N", "data", "p7 p7"), **UNCOUNTED, octets=128)
        cleared = said.row(1, None, ("T", "clear_request", "p7 p1"))
        facts = said.facts()
        self.assertEqual(facts.unjudged.lines(), [[1, 0, "1001", "2001", request, cleared, "T", 1, 1, 11, 128, None, "p7", 1, "channel-1"]])
        self.assertEqual(facts.doubts()[-1], (
            "One call was not judged: 1 begun on a channel that waits for an indication; its 2 data packets with 139 octets "
            "are in no sum.", None, "unjudged"))

    def test_request_with_a_finding(self):
        said = Said()
        said.row(1, None, ("T", "call_request", "p1 p7"), called=None, calling=None, finding=FINDING | {"code": "39"}, **OWED)
        said.row(1, None, ("N", "call_connected", "p7 p7"), **OWED)
        facts = said.facts()
        self.assertEqual([line[6:13] for line in facts.unjudged.lines()], [["open", 0, 0, 0, 0, "39", "p1"]])
        self.assertEqual(facts.doubts()[-1][0], "One call was not judged: 1 accepted though the request broke the protocol.")

    def test_calls_that_are_none(self):
        """One that is not accepted, one that is listed, and one whose acceptance a gap may hide."""
        said = self.waiting()
        self.request(said, **OWED)
        end(said, "clear_indication", 0, 0, "p7 p7", **OWED)
        self.request(said, **OWED)
        said.gap(1)
        said.row(1, None, ("N", "call_connected", "p7 p7"), **OWED)
        said.opened(2)
        self.assertEqual(said.facts().unjudged.many, 0)

    def test_the_next_one(self):
        """A restart and another request end it."""
        said = self.waiting()
        for _ in range(2):
            self.request(said, **OWED)
            said.row(1, None, ("N", "call_connected", "p7 p7"), **OWED)
        said.row(None, None, ("N", "restart_indication", "r1 r3"))
        said.row(1, None, ("T", "data", "p1 p1"), counted=None)
        self.assertEqual([(line[6], line[7]) for line in said.facts().unjudged.lines()], [("open", 0), ("restart", 0)])


class Following(unittest.TestCase):
    """A finding that may follow from another: the object of its row names the first one."""

    def said(self):
        said = Said()
        call = said.opened(1)
        first = said.row(1, call, ("N", "data", "d1 d1"), finding=FINDING | {"code": "39"}, counted=None)
        for _ in range(2):
            said.row(1, call, ("T", "rr", "d1 d1"), finding=FINDING | {"code": "2", "follows": first})
        return said, first

    def test_headline(self):
        said, _ = self.said()
        self.assertEqual(said.facts().verdict().sentence,
                         "The DCE broke the protocol once; 2 findings of the DTE may follow from that.")

    def test_counts(self):
        said, first = self.said()
        facts = said.facts()
        self.assertEqual((facts.found.begun, facts.found.following), ([0, 1], [2, 0]))
        self.assertEqual({line[0]: line[5] for line in facts.found.codes()}, {"2": [2, 0], "39": [0, 0]})
        self.assertEqual([json.loads(mark)[7] for mark in facts.marks.texts], [None, first, first])

    def test_with_gaps(self):
        said, _ = self.said()
        said.gap(1)
        self.assertEqual(said.facts().verdict().sentence, "The DCE broke the protocol once, in what was recorded: 1 gap; "
                         "2 findings of the DTE may follow from that.")


if __name__ == "__main__":
    unittest.main()

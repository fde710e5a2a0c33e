"""Tests of what x25trace hands to x25page as values: it is what the comments of the written trace say."""
import io
import json
import pathlib
import sys
import types
import unittest
from unittest import mock

from x25page_lib import inputs
from x25tools_lib import json_text, notes
from x25tools_lib.ledger import Ledger
from x25tools_lib.notes import Estimate
from x25tools_lib.refusals import Refusal
from x25tools_lib.streams import Waiting
from x25trace_lib.making import file_of, gathered
from x25trace_lib.words import parsed

FILES = pathlib.Path(__file__).resolve().parents[1] / "captures" / "files"


def heads(*words):
    """What the trace of a capture says besides its rows: as values, and as its text has it."""
    line = parsed(words)
    with file_of(gathered(line, Ledger(), Waiting(), True), line.captures) as (file, head):
        return head, inputs.head_of(io.BytesIO(file.read().encode()))


class Heads(unittest.TestCase):
    def test_captures(self):
        """Of each capture that has a trace, the header, the estimates, the comments and the circuits are the same."""
        compared = 0
        for path in sorted([*FILES.glob("*.pcap"), *FILES.glob("*.pcapng")]):
            try:
                given, read = heads(str(path))
            except Refusal:
                continue
            compared += 1
            self.assertEqual(given.header, read.header, path.name)
            self.assertEqual(given.estimates, read.estimates, path.name)
            self.assertEqual([it[:inputs.LONGEST_COMMENT] for it in given.comments], read.comments, path.name)
            self.assertEqual(given.circuits, read.circuits, path.name)
        self.assertGreater(compared, 100)

    def test_given_numbers(self):
        """What options give is no estimate."""
        given, _ = heads("--win", "2", "--size", "128", str(FILES / "ethernet.pcap"))
        self.assertEqual([it.name for it in given.estimates], ["MOD", "PVC", "SVC"])
        self.assertEqual(given.numbers["WIN"], "2")


class Notes(unittest.TestCase):
    """Other comments than those with a form say nothing."""

    def test_estimates(self):
        found = [Estimate("WIN", 2, "the most data not acknowledged"), Estimate("SVC", 4095, "the channels used")]
        self.assertEqual(notes.estimates_of(notes.estimates_text(found)), found)
        for words in ("", "from day.pcap by x25trace", notes.ESTIMATED, notes.ESTIMATED + "WIN two (x)"):
            self.assertEqual(notes.estimates_of(words), [], words)

    def test_circuits(self):
        for rest in (": 192.0.2.1 port 1 (T) and 192.0.2.2 port 1998 (N)", ", which another one had before: 2001:db8::1"):
            self.assertEqual(notes.channel_of_circuit(notes.circuit_text(12, 7, rest)), 7)
        for words in ("connection 1: it ends without a clear", "connection x is channel 1", "connection 1 is channel x", ""):
            self.assertIsNone(notes.channel_of_circuit(words), words)

    def test_frames(self):
        for time in (None, 0, 1_700_000_003_000_003_000, -17_250_000_000):
            for connection in ("", "12"):
                self.assertEqual(notes.frame_of(notes.recorded_line(notes.time_text(time), 8, connection)), 8)
        circuit = notes.circuit_line(3, None, [("192.0.2.1", 1025), ("2001:db8::2", 1998)])
        self.assertEqual(circuit, "#@ circuit 3 - 192.0.2.1 1025 2001:db8::2 1998\n")
        for line in (circuit, "#@ circuit 8 9\n", "#@ 17.5\n", "#@ 17.5 x\n", "#@ 17.5 8 x\n", "#@ 17.5 8 9 1\n", "# 17.5 8\n", "#@\n", "\n"):
            self.assertIsNone(notes.frame_of(line), line)


class Json(unittest.TestCase):
    """Lines of JSON, however the stream is cut."""

    def read(self, octets, chunk=8):
        with mock.patch.object(json_text, "CHUNK", chunk):
            return list(json_text.objects(io.BytesIO(octets)))

    def test_lines(self):
        lines = [{"packet": at, "text": "a,]\n\u00e9" * at} for at in range(9)]
        octets = "".join(json.dumps(it) + "\n" for it in lines).encode()
        for chunk in (1, 7, 64, 1 << 16):
            self.assertEqual(self.read(octets, chunk), lines)
        self.assertEqual(self.read(octets[:-1]), lines)
        self.assertEqual(self.read(b""), [])

    def test_no_lines(self):
        for octets in (b"x\n", b"1,2\n", b"{}\n\n{}\n", b'{"a":1\n', b"\xff\n", b"1 2\n"):
            with self.assertRaises(ValueError, msg=octets):
                self.read(octets)

    def test_both_parsers(self):
        """Whichever parser is there, it reads the numbers and texts of a row as Python's own does."""
        for text in ('{"time":1700000003.000003,"packet":999999999}', '{"time":0.1234567,"wrong":"P(S) 2 \\u003c \\"3\\""}',
                     '[null,true,false,"",[],{}]'):
            self.assertEqual(json_text.read(text.encode()), json.loads(text))

    def test_orjson(self):
        """Where orjson is installed, it reads."""
        other = types.ModuleType("orjson")
        other.loads = lambda text: ["orjson", text]
        with mock.patch.dict(sys.modules, {"orjson": other}):
            fresh = types.ModuleType("fresh")
            exec(compile(pathlib.Path(json_text.__file__).read_text(), "json_text", "exec"), fresh.__dict__)
        self.assertEqual(fresh.read("1"), ["orjson", "1"])

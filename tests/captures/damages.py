"""Tests that whatever is done to a capture gives a trace by the rules of docs/TRACE.md, or a named refusal."""
import contextlib
import io
import re
import tempfile
import unittest

from cases import all_cases
from random_sources import each_source
from x25tools_lib.refusals import Why
from x25trace_lib import command

LARGEST = 6000
ROUNDS, EXAMPLES = 600, 100
HEADER = re.compile(
    r"X25 (?:1 MOD (8|128) WIN (\d+) SIZE (\d+) PVC (\d+) SVC (\d+)"
    r"|[23] MOD (8|128) WIN (\d+) SIZE (\d+) PVC (\d+) IN (\d+) TWO (\d+) OUT (\d+)(?: JOIN)?)"
)
ROW = re.compile(r"([1-9]\d{0,8}) (?:[TN] (?:-|(?:[0-9A-F]{2}){1,4200})|\? (\*|[1-9]\d{0,3}))")


def header_fault(line):
    match = HEADER.fullmatch(line)
    if not match:
        return f"no header: {line}"
    modulus, window, size, *channels = (int(word) for word in match.groups() if word is not None)
    good = 1 <= window < modulus and size in (16, 32, 64, 128, 256, 512, 1024, 2048, 4096)
    good = good and channels == sorted(channels) and 1 <= channels[-1] <= 4095
    return None if good else f"a number of the header: {line}"


def trace_fault(trace):
    """What x25scan would refuse of a trace, or None."""
    lines = [line for line in trace.split("\n")[:-1] if not line.startswith("#")]
    if not trace.endswith("\n") or not lines or any(len(line) > 8500 for line in trace.split("\n")):
        return "no line, a line too long, or one without its end"
    if fault := header_fault(lines[0]):
        return fault
    last, has_gaps, channels = 0, lines[0].startswith("X25 3 "), int(lines[0].removesuffix(" JOIN").split(" ")[-1])
    for line in lines[1:]:
        match = ROW.fullmatch(line)
        if not match or int(match[1]) <= last:
            return f"a row: {line[:100]}"
        if match[2] and (not has_gaps or match[2] != "*" and int(match[2]) > channels):
            return f"a gap row: {line}"
        last = int(match[1])
    return None


def damaged(octets, source):
    """The octets of a file with a few of them changed, removed, added or doubled."""
    octets = bytearray(octets)
    for _ in range(source.choice((1, 1, 2, 5))):
        at, many = source.randrange(len(octets)), source.choice((1, 2, 4, 30))
        way = source.randrange(5)
        if way == 0:
            octets[at] = source.choice((0, 1, 0x7F, 0xFF, source.randrange(256)))
        elif way == 1:
            del octets[at:at + many]
        elif way == 2:
            octets[at:at] = source.randbytes(many)
        elif way == 3:
            octets[at:at] = octets[at:at + 100]
        else:
            del octets[at:]
        if not octets:
            return b"\0"
    return bytes(octets)


class Damages(unittest.TestCase):
    CASES = [case for case in all_cases() if len(case.octets) < LARGEST]
    REFUSALS = tuple(f"x25trace: {why.value}: " for why in Why)

    @each_source(ROUNDS, EXAMPLES)
    def test_random_damages(self, source, _number):
        case = source.choice(self.CASES)
        with tempfile.NamedTemporaryFile() as file:
            file.write(damaged(case.octets, source))
            file.flush()
            status, out, errors = self.run_on([*case.words.split(), file.name])
        if status == 2:
            self.assertEqual(out, "")
            self.assertTrue(any(line.startswith(self.REFUSALS) for line in errors.splitlines()), errors)
        else:
            self.assertIn(status, (0, 1), errors)
            self.assertIsNone(trace_fault(out), case.name)

    @staticmethod
    def run_on(words):
        out, errors = io.StringIO(), io.StringIO()
        with contextlib.redirect_stdout(out), contextlib.redirect_stderr(errors):
            status = command.main(words)
        return status, out.getvalue(), errors.getvalue()

    def test_rules(self):
        """The judge of traces itself, on traces that break one rule each."""
        good = "# words\nX25 1 MOD 8 WIN 2 SIZE 128 PVC 0 SVC 4\n1 T 10010F\n2 N -\n"
        self.assertIsNone(trace_fault(good))
        bad = (("WIN 2", "WIN 8"), ("SIZE 128", "SIZE 100"), ("SVC 4", "SVC 0"), ("2 N", "1 N"), ("N -", "X -"),
               ("10010F", "10010"), ("-\n", "-"), ("1 T", "01 T"), ("X25 1", "X25 3"), ("words", "w" * 8500))
        for old, new in bad:
            self.assertIsNotNone(trace_fault(good.replace(old, new)), new)
        gap = "X25 3 MOD 8 WIN 2 SIZE 128 PVC 0 IN 0 TWO 4 OUT 4 JOIN\n1 ? 4\n2 ? *\n"
        self.assertIsNone(trace_fault(gap))
        for old, new in (("X25 3", "X25 2"), ("? 4", "? 5"), ("? 4", "? 0"), ("? 4", "? 04"), ("? *", "? -")):
            self.assertIsNotNone(trace_fault(gap.replace(old, new)), new)

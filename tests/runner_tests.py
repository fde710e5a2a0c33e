#!/usr/bin/env python3
"""runner_tests.py: tests the runner of the suites. The last line is 'N passed, M failed'."""
import contextlib
import io
import re
import sys
import unittest

sys.dont_write_bytecode = True
import runner
from runner import Case, Outcome, RunCase

SHELL = ("bash", "-c")


def printed(cases, only=""):
    """The status of a run of cases, and the lines that it prints."""
    with contextlib.redirect_stdout(io.StringIO()) as out:
        status = runner.run_cases(cases, only)
    return status, out.getvalue().splitlines()


def fail():
    raise ValueError("no")


class Cases(unittest.TestCase):
    def test_passed(self):
        self.assertEqual(printed([Case("a", list), Case("b", list)]), (0, ["2 passed, 0 failed"]))

    def test_failed(self):
        status, lines = printed([Case("a", list, ["x", "y"]), Case("b", list)])
        self.assertEqual((status, lines), (1, ["a: x", "a: y", "1 passed, 1 failed"]))

    def test_many_problems(self):
        lines = printed([Case("a", range, 7)])[1]
        self.assertEqual(lines, [f"a: {number}" for number in range(5)] + ["a: 2 more", "0 passed, 1 failed"])

    def test_exception(self):
        status, lines = printed([Case("a", fail), Case("b", list)])
        self.assertEqual((status, lines[-1]), (1, "1 passed, 1 failed"))
        self.assertIn("ValueError: no", "\n".join(lines))

    def test_time_limit(self):
        case = RunCase("a", ("sleep 5",), seconds=0.1).of(*SHELL)
        self.assertEqual(printed([case]), (1, ["a: no end within 0.1 seconds", "0 passed, 1 failed"]))

    def test_only(self):
        self.assertEqual(printed([Case("a", fail), Case("ab", list)], "b"), (0, ["1 passed, 0 failed"]))

    def test_side_by_side(self):
        cases = [Case(str(number), list, [number] * (number % 2)) for number in range(4)]
        status, lines = printed(runner.side_by_side(cases, 2))
        self.assertEqual((status, lines), (1, ["1: 1", "3: 3", "2 passed, 2 failed"]))

    def test_judged(self):
        self.assertEqual(printed(runner.judged([("a", []), ("b", ["x"])])), (1, ["b: x", "1 passed, 1 failed"]))


class Differences(unittest.TestCase):
    def test_same(self):
        self.assertEqual(runner.differences(Outcome(1, b"a\n", b"b"), (1, b"a\n", re.compile(b"."))), [])
        self.assertEqual(runner.differences(Outcome(1, b"a\n", b"b"), (1, None, None)), [])

    def test_each_part(self):
        found = runner.differences(Outcome(0, b"a\n", b"bb"), (1, b"b\n", re.compile(b"b")))
        self.assertEqual([it.split(" ")[0] for it in found], ["status", "standard", "standard"])

    def test_first_line(self):
        for got, expected, line in ((b"a\nb\n", b"a\nc\n", 2), (b"a\n", b"a\nb\n", 2), (b"a\n", b"a", 1), (b"a\r\n", b"a\n", 1)):
            found = runner.first_difference("it", got, expected)
            self.assertEqual([it.partition(":")[0] for it in found], [f"it, line {line}"])
        self.assertEqual(runner.first_difference("it", "a\n", "a\n"), [])


class Runs(unittest.TestCase):
    def passes(self, script, *more, **how):
        self.assertEqual(RunCase("a", (script,), *more, **how).of(*SHELL).problems(), [])

    def test_streams(self):
        self.passes("cat; echo b >&2; exit 3", b"a\n", 3, b"a\n", b"b\n")

    def test_files(self):
        self.passes("cat a; test -d b", output=b"x", files={"a": b"x", "b": None})

    def test_device(self):
        self.passes("echo a", status=1, errors=None, device="/dev/full")

    def test_environment(self):
        self.passes("echo $A", output=b"x\n", environment={"A": "x"})

    def test_another_outcome(self):
        self.assertEqual(len(RunCase("a", ("echo a",)).of(*SHELL).problems()), 1)


def main():
    suite = unittest.defaultTestLoader.loadTestsFromModule(sys.modules[__name__])
    result = suite.run(unittest.TestResult())
    failed = result.failures + result.errors
    for test, trouble in failed:
        print(f"{test.id()}: {trouble}")
    print(f"{result.testsRun - len(failed)} passed, {len(failed)} failed")
    return 1 if failed else 0


if __name__ == "__main__":
    sys.exit(main())

"""What the suites of tests/ share: cases, runs of a program, comparisons, and the closing line.

A suite is a table of cases: a function that yields `Case`s. A `Case` has a name and a check, which returns what is wrong,
a line each, and nothing where the case passes. A `RunCase` is the common kind: one run with its expected outcome. The
script of a suite has the table and ends with

    sys.exit(runner.main(__doc__, table))

which reads the command line `compare [--only WORD] PROGRAM`, runs the cases in order, prints what is wrong with each,
and last prints `N passed, M failed`, which ./check reads.
"""
import argparse
import concurrent.futures
import itertools
import os
import pathlib
import re
import shutil
import subprocess
import tempfile
import traceback
import unittest
from dataclasses import dataclass, field
from typing import NamedTuple, Optional

ROOT = pathlib.Path(__file__).resolve().parent.parent
# The time limit of a run.
SECONDS = 60
# The most problems that are printed of a case.
SHOWN = 5


class Case:
    """A name and a check: `check(*arguments)` returns what is wrong, a line each."""

    def __init__(self, name, check, *arguments):
        self.name, self.check, self.arguments = name, check, arguments

    def problems(self):
        """What the check returns, or the exception that it raises."""
        try:
            return list(self.check(*self.arguments))
        except subprocess.TimeoutExpired as late:
            return [f"no end within {late.timeout:g} seconds"]
        except Exception:
            return [traceback.format_exc().strip()]


class Outcome(NamedTuple):
    """What a run gave."""

    status: int
    output: bytes
    errors: bytes


@dataclass
class RunCase:
    """One run of a program in a folder of its own, and its expected outcome.

    Output that is expected as bytes has to be the same; a pattern has to match the whole of it; None is not compared.
    """

    name: str
    words: tuple = ()
    # Standard input.
    text: bytes = b""
    status: int = 0
    output: object = b""
    errors: object = b""
    # Files of the folder by name; None is a folder.
    files: dict = field(default_factory=dict)
    # Their modes. The user nobody runs the program then, since modes don't hold for root.
    modes: dict = field(default_factory=dict)
    # The file that is standard output.
    device: Optional[str] = None
    environment: dict = field(default_factory=dict)
    seconds: float = SECONDS

    def of(self, *command):
        """The case of a program, with words that come first."""
        return Case(self.name, self.check, command)

    def check(self, command):
        """How the outcome differs from the expected one."""
        with tempfile.TemporaryDirectory() as name:
            folder = pathlib.Path(name)
            self.write_files(folder)
            outcome = self.outcome(command, folder)
        return differences(outcome, (self.status, self.output, self.errors))

    def write_files(self, folder):
        """Writes the files."""
        for name, text in self.files.items():
            if text is None:
                (folder / name).mkdir()
            else:
                (folder / name).write_bytes(text)
                (folder / name).chmod(self.modes.get(name, 0o644))

    def outcome(self, command, folder):
        """Runs the program in the folder."""
        program, *first = command
        how = {"cwd": folder, "env": {**os.environ, **self.environment}}
        if self.modes and os.geteuid() == 0:
            # The user nobody may not read the folder where the program was built.
            folder.chmod(0o755)
            program = shutil.copy(program, folder / pathlib.Path(program).name)
            how["user"] = "nobody"
        words = [program, *first, *self.words]
        if self.device is None:
            return run(words, self.text, self.seconds, **how)
        with open(self.device, "wb") as device:
            return run(words, self.text, self.seconds, stdout=device, **how)


def run(words, text=b"", seconds=SECONDS, **how):
    """Runs a program on a standard input; `how` goes to `subprocess`, and a stream that is named there has no bytes here."""
    streams = {"stdout": subprocess.PIPE, "stderr": subprocess.PIPE, **how}
    if "stdin" not in how:
        streams["input"] = text
    done = subprocess.run(words, timeout=seconds, check=False, **streams)
    return Outcome(done.returncode, done.stdout or b"", done.stderr or b"")


def differences(outcome, expected):
    """How an outcome differs from an expected one, at most a line for each of its parts."""
    problems = [] if outcome[0] == expected[0] else [f"status {outcome[0]}, expected {expected[0]}"]
    for what, got, part in zip(("standard output", "standard error"), outcome[1:], expected[1:]):
        if isinstance(part, re.Pattern):
            problems += [] if part.fullmatch(got) else [f"{what} is {got!r}, expected a match of {part.pattern!r}"]
        elif part is not None:
            problems += first_difference(what, got, part)
    return problems


def first_difference(what, got, expected):
    """The first line in which two texts differ, as a list of at most one problem."""
    lines = itertools.zip_longest(got.splitlines(keepends=True), expected.splitlines(keepends=True))
    for number, (ours, theirs) in enumerate(lines, 1):
        if ours != theirs:
            return [f"{what}, line {number}: got {shown(ours)}, expected {shown(theirs)}"]
    return []


def shown(line):
    """A line, as a problem shows it."""
    return "no line" if line is None else repr(line)


def traces():
    """The traces of tests/traces, tests/gaps/traces and examples."""
    folders = [ROOT / "tests" / "traces", ROOT / "tests" / "gaps" / "traces", ROOT / "examples"]
    return [trace for folder in folders for trace in sorted(folder.rglob("*.trace"))]


def trace_name(path):
    """The name of a trace's case, such as traces/worked/clear."""
    return str(path.relative_to(ROOT).with_suffix("")).removeprefix("tests/")


def unit_cases(*modules):
    """The cases of the unit tests of modules."""
    for module in modules:
        for group in unittest.defaultTestLoader.loadTestsFromModule(module):
            for test in group:
                yield Case(test.id(), unit_problems, test)


def unit_problems(test):
    """What is wrong with a unit test, with its tracebacks."""
    result = unittest.TestResult()
    test.run(result)
    return [trouble for _, trouble in result.errors + result.failures]


def judged(outcomes):
    """Cases that ran already, of their names and what is wrong with each."""
    for name, problems in outcomes:
        yield Case(name, list, problems)


def side_by_side(cases, threads, only=""):
    """The cases whose names have `only` in them, with their checks run in threads before they are asked for."""
    with concurrent.futures.ThreadPoolExecutor(threads) as pool:
        for case, running in [(case, pool.submit(case.problems)) for case in cases if only in case.name]:
            yield Case(case.name, running.result)


def run_cases(cases, only=""):
    """Runs the cases whose names have `only` in them, and prints the closing line. Returns the exit status."""
    passed = failed = 0
    for case in cases:
        if only not in case.name:
            continue
        problems = case.problems()
        passed, failed = passed + (not problems), failed + bool(problems)
        for problem in problems[:SHOWN]:
            print(f"{case.name}: {problem}")
        if len(problems) > SHOWN:
            print(f"{case.name}: {len(problems) - SHOWN} more")
    print(f"{passed} passed, {failed} failed")
    return 1 if failed else 0


def program_of(word):
    """The path of a program that is named by its path or as a shell finds it, for any folder that it is run in."""
    path = shutil.which(word)
    if path is None:
        raise argparse.ArgumentTypeError(f"there is no program {word}")
    return str(pathlib.Path(path).resolve())


def main(description, table, has_program=True, has_words=False, options=None):
    """Runs the suite of a table, which yields its cases; `options` has the suite's own options, with what argparse reads of each.

    The table gets the program, with its words in a list where it has words; or all that was asked, where the suite has
    options of its own or no program.
    """
    parser = argparse.ArgumentParser(description=description, formatter_class=argparse.RawDescriptionHelpFormatter)
    parser.add_argument("--only", metavar="WORD", default="", help="run only the cases whose names have WORD in them")
    if has_program:
        parser.add_argument("program", metavar="PROGRAM", type=program_of, help="the program that is tested")
    if has_words:
        parser.add_argument("words", metavar="ARGS", nargs=argparse.REMAINDER, help="words with which it is run")
    for name, how in (options or {}).items():
        parser.add_argument(name, **how)
    asked = parser.parse_args()
    if options or not has_program:
        return run_cases(table(asked), asked.only)
    return run_cases(table([asked.program, *asked.words] if has_words else asked.program), asked.only)

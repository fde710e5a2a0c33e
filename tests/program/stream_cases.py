"""Cases whose streams are no files: a folder, a closed pipe, a terminal, a full device; and traces that are joined."""
import contextlib
import os
import pathlib
import select
import signal
import subprocess
import tempfile
import time

from cases import FOUND, FOUND_REPORT, GUESSED, GUESSED_REPORT, HEADER, NOTE

import runner
from runner import Case, Outcome

RATE = b" lines a second"
WAITS = b"x25scan: reads the trace from the terminal, until Ctrl-D at the beginning of a line (--help says more)\n"


def joined_traces(program):
    """Two parts of a recording are read by the command that the program prints."""
    with tempfile.TemporaryDirectory() as folder:
        for name, text in (("a", FOUND), ("b", HEADER + b"2 T -\n")):
            pathlib.Path(folder, name).write_bytes(text)
        printed = runner.run([program, "a", "b"], cwd=folder).errors.decode()
        command = printed.splitlines()[-1].partition(": ")[2].replace("FILE..", "a b").replace("x25scan", program)
        outcome = runner.run(["bash", "-c", command], cwd=folder)
    return runner.differences(outcome, (1, b"F 1 T - 38\nF 2 T - 38\nP 0 -\nZ 2 2 0 0 0\n", b""))


def folder_as_input(program):
    """A folder is standard input."""
    folder = os.open("/", os.O_RDONLY)
    outcome = runner.run([program], stdin=folder)
    os.close(folder)
    return runner.differences(outcome, (3, b"", b"x25scan: read failed\n  Is a directory (os error 21)\n"))


def into_closed_pipe(program, words, handler):
    """The outcome of a run whose output goes into a pipe that has no reader."""
    reader, writer = os.pipe()
    os.close(reader)
    outcome = runner.run([program, *words], FOUND, stdout=writer, preexec_fn=lambda: signal.signal(signal.SIGPIPE, handler))
    os.close(writer)
    return outcome


def closed_pipe(program):
    """Nothing is printed after the reader of standard output went away, whether or not its signal is ignored."""
    for words in ((), ("--alone",), ("--follow",), ("--json",), ("--annotate",), ("--explain", "22"), ("--help",), ("--version",)):
        status = 0 if words in (("--help",), ("--version",)) else 3
        for handler in (signal.SIG_IGN, signal.SIG_DFL):
            for problem in runner.differences(into_closed_pipe(program, words, handler), (status, b"", b"")):
                yield f"{words}: {problem}"


def read_some(terminal):
    """What a terminal shows next; nothing where it shows nothing within the time limit."""
    return os.read(terminal, 4096) if select.select([terminal], [], [], runner.SECONDS)[0] else b""


def read_all(terminal):
    """What a terminal shows until its other side is closed, with plain line ends."""
    octets = b""
    with contextlib.suppress(OSError):
        while more := read_some(terminal):
            octets += more
    return octets.replace(b"\r\n", b"\n")


def on_terminal(program, words, pause):
    """The outcome of a run whose standard input and errors are a terminal; it pauses after the header."""
    master, slave = os.openpty()
    running = subprocess.Popen([program, *words], stdin=slave, stdout=subprocess.PIPE, stderr=slave)
    os.close(slave)
    errors = read_some(master)
    os.write(master, HEADER)
    time.sleep(pause)
    os.write(master, b"1 T -\n\x04")
    report = running.communicate(timeout=runner.SECONDS)[0]
    while pause and RATE not in errors and (more := read_some(master)):
        errors += more
    os.close(master)
    return Outcome(running.returncode, report, errors.replace(b"\r\n", b"\n"))


def terminal(program):
    """The trace is written on a terminal."""
    outcome = on_terminal(program, (), 0)
    return [] if outcome[:2] == (1, FOUND_REPORT) and outcome.errors.startswith(WAITS) else [f"got {outcome}"]


def slow_terminal(program):
    """It is written for more than a second."""
    outcome = on_terminal(program, ("--alone",), 1.2)
    return [] if outcome[:2] == (1, FOUND_REPORT) and RATE in outcome.errors else [f"got {outcome}"]


def with_errors_shown(program, words):
    """The outcome of a run whose errors a terminal shows."""
    master, slave = os.openpty()
    running = subprocess.Popen([program, *words], stdin=subprocess.PIPE, stdout=subprocess.PIPE, stderr=slave)
    os.close(slave)
    report = running.communicate(input=GUESSED, timeout=runner.SECONDS)[0]
    errors = read_all(master)
    os.close(master)
    return Outcome(running.returncode, report, errors)


def noting_terminal(program):
    """A terminal has a note automatically, where one thread may scan."""
    for words, note in (((), NOTE), (("--alone",), NOTE), (("--follow",), NOTE), (("--workers", "2"), b""), (("--workers", "2", "--alone"), NOTE)):
        for problem in runner.differences(with_errors_shown(program, words), (1, GUESSED_REPORT, note)):
            yield f"{words}: {problem}"


def full_errors(program):
    """A note that standard error does not accept changes nothing."""
    with open("/dev/full", "wb") as full:
        outcome = runner.run([program, "--notes"], GUESSED, stderr=full)
    return runner.differences(outcome, (1, GUESSED_REPORT, None))


CASES = (
    ("two files by the command that joins them", joined_traces),
    ("a folder is standard input", folder_as_input),
    ("the report goes into a closed pipe", closed_pipe),
    ("a terminal is read to its end", terminal),
    ("progress is shown automatically on a terminal", slow_terminal),
    ("a note is printed automatically on a terminal", noting_terminal),
    ("a note on a full device", full_errors),
)


def stream_cases(program):
    """All cases of a program."""
    for name, check in CASES:
        yield Case(name, check, program)

"""Cases of x25trace --follow, which runs the program that is tested: the report follows after a signal."""
from __future__ import annotations

import contextlib
import os
import pathlib
import pty
import re
import select
import signal
import subprocess
import tempfile
import time
from collections.abc import Callable, Iterator, Sequence

import runner

Words = Sequence[str | pathlib.Path]

TRACER = runner.ROOT / "bin" / "x25trace"
EXAMPLE = runner.ROOT / "examples" / "join-in-the-middle.trace"
CAPTURE = runner.ROOT / "tests" / "captures" / "files" / "dump-of-packets.txt"
SECONDS = 60
PIPES = dict.fromkeys(("stdin", "stdout", "stderr"), subprocess.PIPE)
INTERRUPTED = "x25trace: interrupted: the trace is of what was read before\n"
# Scripts in place of x25scan: one that reads to its end, and one that reads a line and does not end.
READER, SLEEPER = "cat > /dev/null; echo reported; exit {}", "read line; echo $$; exec sleep 1000"
CTRL_C = b"\x03"
LATER = 0.5
# What no program writes.
NEVER = b"\0"


def script(folder: str, text: str) -> pathlib.Path:
    """A program in place of x25scan."""
    path = pathlib.Path(folder, "scanner")
    path.write_text(f"#!/bin/sh\n{text}\n")
    path.chmod(0o755)
    return path


@contextlib.contextmanager
def watching(scanner: str | pathlib.Path, *words: str) -> Iterator[subprocess.Popen[bytes]]:
    """x25trace --follow in a process group of its own, with an input that stays open; it is killed at the end."""
    command = [TRACER, "--follow", "--scanner", scanner, *words, "-"]
    with subprocess.Popen(command, start_new_session=True, bufsize=0, **PIPES) as running:
        try:
            yield running
        finally:
            running.kill()


def read_until(stream: int, text: bytes) -> bytes:
    """Reads a stream until it has these bytes, until it ends, or until time is up."""
    found, end = b"", time.monotonic() + SECONDS
    while text not in found and select.select([stream], [], [], max(0, end - time.monotonic()))[0]:
        try:
            more = os.read(stream, 1 << 16)
        except OSError:
            break
        if not more:
            break
        found += more
    return found


def ended(running: subprocess.Popen[bytes], before: bytes, rest: bytes = b"") -> runner.Outcome:
    """The outcome once it has ended, with its input still open; before and rest were read of its output and its errors."""
    assert running.stdout and running.stderr
    out = before + read_until(running.stdout.fileno(), NEVER)
    errors = rest + read_until(running.stderr.fileno(), NEVER)
    return runner.Outcome(running.wait(SECONDS), out, errors)


def first_finding(running: subprocess.Popen[bytes], trace: bytes, report: bytes) -> bytes:
    """Writes a trace, and reads the first finding of it."""
    assert running.stdin and running.stdout
    running.stdin.write(trace)
    return read_until(running.stdout.fileno(), report.partition(b"\n")[0] + b"\n")


def signal_problems(scanner: str, number: signal.Signals, send: Callable[[int, signal.Signals], None]) -> list[str]:
    """After a signal the whole report of the lines that were read follows, with its status; a part of a line is none."""
    report = EXAMPLE.with_suffix(".report").read_bytes()
    with watching(scanner) as running:
        before = first_finding(running, EXAMPLE.read_bytes() + b"99 T 100", report)
        send(running.pid, number)
        outcome = ended(running, before)
    return runner.differences(outcome, (1, report, INTERRUPTED.encode()))


def second_problems(number: signal.Signals) -> list[str]:
    """A second signal ends both programs at once, though x25scan would go on."""
    with tempfile.TemporaryDirectory() as folder, watching(script(folder, SLEEPER)) as running:
        assert running.stdin and running.stdout and running.stderr
        running.stdin.write(EXAMPLE.read_bytes())
        other = int(read_until(running.stdout.fileno(), b"\n"))
        running.send_signal(number)
        errors = read_until(running.stderr.fileno(), b"\n")
        # Signals that come sooner after each other are one.
        time.sleep(LATER)
        found = [] if running.poll() is None else ["it did not wait for x25scan"]
        running.send_signal(number)
        outcome = ended(running, b"", errors)
    found += runner.differences(outcome, (130, b"", INTERRUPTED.encode()))
    return found + ([f"{other} runs"] if os.path.exists(f"/proc/{other}") else [])


def status_problems(text: str, status: int, output: bytes, errors: bytes, trace: bytes = b"") -> list[str]:
    """The status of x25scan is handed on; where it ends first, x25trace ends too, with its input still open."""
    with tempfile.TemporaryDirectory() as folder, watching(script(folder, text)) as running:
        assert running.stdin
        with contextlib.suppress(BrokenPipeError):
            running.stdin.write(trace)
        if trace:
            running.stdin.close()
        outcome = ended(running, b"")
        scanner = str(pathlib.Path(folder, "scanner")).encode()
    return runner.differences(outcome, (status, output, errors.replace(b"SCANNER", scanner)))


def shielded_problems(scanner: str) -> list[str]:
    """x25scan ignores SIGINT and SIGTERM, and is in a session of its own."""
    report = EXAMPLE.with_suffix(".report").read_bytes()
    with watching(scanner) as running:
        first_finding(running, EXAMPLE.read_bytes(), report)
        children = pathlib.Path(f"/proc/{running.pid}/task/{running.pid}/children").read_text().split()
        status = pathlib.Path(f"/proc/{children[0]}/status").read_text()
        ignored = int(re.search(r"^SigIgn:\s*(\w+)$", status, re.MULTILINE)[1], 16)  # type: ignore[index]
        session = os.getsid(int(children[0]))
    wrong = [it.name for it in (signal.SIGINT, signal.SIGTERM) if not ignored >> it - 1 & 1]
    return [f"{name} is not ignored" for name in wrong] + (["it has no session of its own"] if session == running.pid else [])


def terminal_problems(scanner: str, source: str) -> list[str]:
    """Ctrl-C at a terminal reaches each program of a pipeline, and the report follows."""
    report = EXAMPLE.with_suffix(".report").read_text().replace("\n", "\r\n").encode()
    words = f"{source} | '{TRACER}' --follow --scanner '{scanner}' -"
    child, terminal = pty.fork()
    if not child:
        # A job in the background of a script has them ignored.
        for number in (signal.SIGINT, signal.SIGHUP):
            signal.signal(number, signal.SIG_DFL)
        os.execvp("bash", ["bash", "-c", words])
    shown = read_until(terminal, report.partition(b"\n")[0])
    os.write(terminal, CTRL_C)
    shown += read_until(terminal, report[-10:])
    os.close(terminal)
    os.waitpid(child, 0)
    lines = [line for line in shown.split(b"\r\n") if line[1:2] == b" "]
    return [] if lines == report.split(b"\r\n")[:-1] else [f"it shows {shown!r}"]


def trace_problems(scanner: str, trace: pathlib.Path) -> list[str]:
    """A trace that is passed on unchanged has its report."""
    status = trace.with_suffix(".status")
    wanted = (int(status.read_text()) if status.exists() else 0, trace.with_suffix(".report").read_bytes(), None)
    return runner.differences(runner.run([TRACER, "--follow", "--scanner", scanner, trace]), wanted)


def capture_problems(scanner: str) -> list[str]:
    """A capture in a file has its report, and so has one whose rows wait for the end of a pipe, where a message says so."""
    words = [TRACER, "--follow", "--scanner", scanner, "--as", "x25"]
    report = CAPTURE.with_suffix(".report").read_bytes()
    status = 1 if report.startswith(b"F ") else 0
    piped = runner.run([*words, "-"], CAPTURE.read_bytes())
    waits = b"x25trace: rows wait for the end of the input; with --mod, --win, --size, --pvc, --svc too"
    found = runner.differences(runner.run([*words, CAPTURE]), (status, report, None))
    found += runner.differences(piped, (status, report, None))
    return found + ([] if waits in piped.errors else [f"it says {piped.errors!r}"])


def form_problems(scanner: str, form: str) -> list[str]:
    """With --json or --rows the objects are those that x25scan prints of the same trace, after a signal too."""
    trace = EXAMPLE.read_bytes()
    whole = runner.run([scanner, form], trace)
    found = runner.differences(runner.run([TRACER, "--follow", form, "--scanner", scanner, EXAMPLE]), (1, whole.output, None))
    with watching(scanner, form) as running:
        before = first_finding(running, trace, whole.output)
        running.send_signal(signal.SIGINT)
        outcome = ended(running, before)
    return found + runner.differences(outcome, (1, whole.output, INTERRUPTED.encode()))


def refused_problems(words: Words, status: int, said: bytes) -> list[str]:
    """Where there is no trace, x25scan reports nothing, and the status is that of x25trace."""
    with tempfile.TemporaryDirectory() as folder:
        command = [TRACER, "--follow", "--scanner", script(folder, READER.format(1)), *words]
        outcome = runner.run(command, b"")
    return runner.differences(outcome, (status, b"", re.compile(b"(?s).*x25trace: " + re.escape(said) + b".*")))


def alone_problems(form: str) -> list[str]:
    """A form of the report without the report is refused."""
    said = re.compile(f"(?s)x25trace: {form} is a form of the report, which --follow prints\nusage: .*".encode())
    return runner.differences(runner.run([TRACER, form, CAPTURE]), (64, b"", said))


def signals(scanner: str) -> Iterator[runner.Case]:
    """The cases of signals."""
    for number in (signal.SIGINT, signal.SIGTERM):
        yield runner.Case(f"{number.name} to x25trace", signal_problems, scanner, number, os.kill)
        yield runner.Case(f"{number.name} to its process group", signal_problems, scanner, number, os.killpg)
        yield runner.Case(f"{number.name} again", second_problems, number)
    yield runner.Case("what x25scan ignores", shielded_problems, scanner)
    yield runner.Case("Ctrl-C at a pipeline", terminal_problems, scanner, f"(cat '{EXAMPLE}'; exec sleep 1000)")
    yield runner.Case("Ctrl-C at tail", terminal_problems, scanner, f"tail -n +1 -F '{EXAMPLE}'")


def cases(scanner: str) -> Iterator[runner.Case]:
    """All cases."""
    yield from signals(scanner)
    trace, killed = EXAMPLE.read_bytes(), b"x25trace: SCANNER was ended by signal 9\n"
    yield runner.Case("a status that is handed on", status_problems, READER.format(7), 7, b"reported\n", b"", trace)
    yield runner.Case("x25scan ends first", status_problems, "echo why; exit 3", 3, b"why\n", b"")
    yield runner.Case("x25scan is killed", status_problems, "kill -9 $$", 137, b"", killed)
    for path in sorted(EXAMPLE.parent.glob("*.trace")):
        if path.with_suffix(".report").exists():
            yield runner.Case(f"x25trace --follow {path.name}", trace_problems, scanner, path)
    yield runner.Case("a capture that is followed", capture_problems, scanner)
    for form in ("--json", "--rows"):
        yield runner.Case(f"x25trace --follow {form}", form_problems, scanner, form)
        yield runner.Case(f"{form} alone", alone_problems, form)
    yield runner.Case("an empty input", refused_problems, ["-"], 2, b"Empty: standard input has no octet")
    yield runner.Case("no such capture", refused_problems, ["/nowhere/day.pcap"], 2, b"Absent: there is no file ")
    yield runner.Case("an option of captures", refused_problems, ["--win", "2", EXAMPLE], 64, b"--win is of captures, and ")
    yield runner.Case("comments too", refused_problems, ["--comments", "out", CAPTURE], 64, b"--follow prints a report, and ")

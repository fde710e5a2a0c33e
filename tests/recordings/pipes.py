"""Cases of captures from a pipe by its name, which are kept or read once, and from standard input."""
from __future__ import annotations

import contextlib
import itertools
import os
import pathlib
import resource
import select
import struct
import subprocess
import tempfile
import threading
from collections.abc import Callable, Iterable, Iterator, Sequence

import forms
import runner
from tracer import written_of

FILES = runner.ROOT / "tests" / "captures" / "files"
WHOLE = ("--mod", "8", "--win", "2", "--size", "128", "--pvc", "0", "--svc", "1")
TALK = FILES / "lapb-with-direction.pcap"
UNFIT = "the options don't fit it\n  "
NO_LINE = "frames of a network: --only xot /dev/stdin reads XOT, --only lapb or x25 a line"
PIPED = "frames of a network have XOT, which --only xot reads once the pipe has ended; --only lapb or --only x25 reads a line in them"
# The options of a part of a header, and the names of those that are missing.
PARTS = (
    ((), "--mod, --win, --size, --pvc, --svc"),
    (("--win", "2"), "--mod, --size, --pvc, --svc"),
    (("--mod", "8", "--win", "2", "--size", "128", "--pvc", "0"), "--svc"),
    (("--mod", "8", "--win", "2", "--size", "128", "--two", "8"), "--pvc, --out"),
    (("--mod", "8", "--size", "128", "--pvc", "0", "--out", "8"), "--win"),
)
UNHEADED = "a pipe without --mod, --win, --size, --pvc, --svc"
NO_PACKET = "the capture has no packet of X.25"
TOO_LARGE = "a pipe is kept up to 1 GiB: save it to a file"
TRACE = "a trace has its own header and sides: leave out the options of captures"
SECONDS = 60
SPACE = 1 << 25
# As many octets as are kept of a pipe, the length of a frame, and how many frames are written together.
MOST, LENGTH, TOGETHER = 1 << 30, 60_000, 20
MAGICS = [bytes.fromhex(it) for it in ("0A0D0D0A", "A1B2C3D4", "D4C3B2A1", "A1B2CD34", "34CDB2A1", "A1B23C4D", "4D3CB2A1")]
# A form of the output, a number of frames, and the line that is printed before the frame after them is written.
SLOW = (("--follow", 3, b"F 3 T d1 1\n"),)
# Frames of packets with their direction: a call on channel 1, its acceptance, data with a P(S) that is not the next, and
# data that is right.
CALL = [bytes.fromhex(it) for it in ("0110010B0000", "0010010F", "01100102AA", "00100100AA")]


def write(path: pathlib.Path, parts: Iterable[bytes]) -> None:
    """Writes octets to a pipe, as far as its reader reads them."""
    with contextlib.suppress(BrokenPipeError), path.open("wb", buffering=0) as pipe:
        for part in parts:
            pipe.write(part)


@contextlib.contextmanager
def pipe_from(parts: Iterable[bytes]) -> Iterator[pathlib.Path]:
    """The path of a pipe of the name `pipe` from which octets are read, once."""
    with tempfile.TemporaryDirectory() as folder:
        pipe = pathlib.Path(folder) / "pipe"
        os.mkfifo(pipe)
        writer = threading.Thread(target=write, args=(pipe, parts))
        writer.start()
        yield pipe
        writer.join()


def pipe_of(octets: bytes) -> contextlib.AbstractContextManager[pathlib.Path]:
    """The same of octets that are there."""
    return pipe_from([octets])


def named(words: Sequence[str | pathlib.Path], octets: bytes, **how: Callable[[], None]) -> runner.Outcome:
    """The outcome of a program that reads octets from the pipe of the name `pipe`."""
    with pipe_of(octets) as pipe:
        return runner.run([*words, pipe.name], cwd=pipe.parent, **how)


def traced(octets: bytes, *words: str) -> str:
    """The trace that x25trace writes of octets that it reads from a pipe."""
    with pipe_of(octets) as pipe:
        return written_of(*words, pipe).trace


def piped(scanner: str, octets: bytes, words: Sequence[str], expected: tuple[int, bytes, object]) -> Iterator[str]:
    """What is wrong with what is printed of a file that comes through a pipe."""
    yield from runner.differences(named([scanner, *words], octets), expected)


def given_of(trace: str) -> list[str]:
    """The options that give the header of a trace."""
    header = next(line for line in trace.splitlines() if line.startswith("X25 ")).split()
    words = dict(zip(header[2::2], header[3::2]))
    join = "--join" if header[-1] == "JOIN" else "--no-join"
    return [join, *(word for name, number in words.items() for word in (f"--{name.lower()}", number) if name != "JOIN")]


def rows_of(trace: str) -> list[str]:
    """The header of a trace and its rows, each with its time and its frame."""
    return [line for line in trace.splitlines() if line.startswith("#@ ") or not line.startswith("#")]


def row_problems(how: str, outcome: runner.Outcome, trace: str) -> Iterator[str]:
    """How the rows that are printed differ from those of a trace."""
    yield from runner.first_difference(f"rows of {how}", "\n".join(rows_of(outcome.output.decode())), "\n".join(rows_of(trace)))


def capture_problems(scanner: str, path: pathlib.Path, *given: str) -> Iterator[str]:
    """How the trace of a line that is read once differs from that of x25trace, which reads it once too."""
    octets = path.read_bytes()
    whole = written_of(*given, path).trace
    words = [*given_of(whole), *given] if whole else []
    read = runner.run([scanner, *words, "--trace"], octets)
    # Frames of a network are those of XOT, unless an option says otherwise.
    if words and (given or NO_LINE.encode() not in read.errors):
        expected = traced(octets, *words)
        for how, outcome in (("the pipe", named([scanner, *words, "--trace"], octets)), ("standard input", read)):
            yield from row_problems(how, outcome, expected)


def refused_problems(scanner: str, octets: bytes, words: Sequence[str], named_words: str, standard_words: str, status: int) -> Iterator[str]:
    """How a capture is refused that is read once."""
    said = f"x25scan: cannot open pipe: {named_words}\n".encode()
    yield from runner.differences(named([scanner, *words], octets), (status, b"", said))
    said = f"x25scan: read failed\n  {standard_words}\n".encode()
    yield from runner.differences(runner.run([scanner, *words], octets), (3, b"", said))


def kept_problems(scanner: str, path: pathlib.Path, words: Sequence[str], why: str) -> Iterator[str]:
    """How what is printed of a capture in a pipe differs from what is printed of the file, where the pipe is kept."""
    file = runner.run([scanner, *words, path])
    said = file.errors.replace(str(path).encode(), b"pipe")
    expected = file._replace(errors=f"x25scan: pipe: {why} is read to its end first\n".encode() + said)
    yield from runner.differences(named([scanner, *words], path.read_bytes()), expected)


def limit_memory() -> None:
    """Leaves this process 32 MiB."""
    resource.setrlimit(resource.RLIMIT_AS, (SPACE, SPACE))


def large_problems(scanner: str, octets: bytes) -> Iterator[str]:
    """A pipe for which there is no memory is refused."""
    outcome = named([scanner], octets + bytes(2 * SPACE), preexec_fn=limit_memory)
    said = f"x25scan: pipe: {UNHEADED} is read to its end first\nx25scan: cannot open pipe: ".encode()
    if outcome.status != 3 or outcome.output or not outcome.errors.startswith(said):
        yield str(outcome)


def too_large_problems(scanner: str) -> Iterator[str]:
    """A pipe that goes on past what is kept is refused."""
    record = struct.pack("<IIII", 1, 0, LENGTH, LENGTH) + bytes(LENGTH)
    part = record * TOGETHER
    with pipe_from(itertools.chain([forms.pcap(207, [])], itertools.repeat(part, MOST // len(part) + 1))) as pipe:
        outcome = runner.run([scanner, pipe.name], cwd=pipe.parent)
    said = f"x25scan: pipe: {UNHEADED} is read to its end first\nx25scan: cannot open pipe: it is too large\n  {TOO_LARGE}\n"
    yield from runner.differences(outcome, (3, b"", said.encode()))


def interface_problems(scanner: str) -> Iterator[str]:
    """How the rows of two interfaces in one pipe differ from those of the first frame's, or of the one that an option names."""
    frames = [forms.enhanced(octets, which) for octets in CALL for which in (1, 0)]
    octets = forms.section() + 2 * forms.interface(147) + b"".join(frames)
    for given, which in (((), "1"), (("--interface", "0"), "0"), (("--interface", "1"), "1")):
        words = (*WHOLE, "--as", "x25-dir", "--no-join")
        expected = traced(octets, *words, "--interface", which)
        for outcome in (named([scanner, *words, *given, "--trace"], octets), runner.run([scanner, *words, *given, "--trace"], octets)):
            yield from row_problems(f"interface {which}", outcome, expected)


class Live:
    """A program that reads what is written to its standard input, bit by bit."""

    def __init__(self, words: Sequence[str]) -> None:
        self.running = subprocess.Popen(words, stdin=subprocess.PIPE, stdout=subprocess.PIPE, stderr=subprocess.PIPE, bufsize=0)

    def write(self, octets: bytes) -> None:
        assert self.running.stdin
        self.running.stdin.write(octets)

    def line(self) -> bytes:
        """The next line that it prints; what there is of it once time is up."""
        assert self.running.stdout
        found = b""
        while not found.endswith(b"\n") and select.select([self.running.stdout], [], [], SECONDS)[0]:
            more = os.read(self.running.stdout.fileno(), 1)
            if not more:
                break
            found += more
        return found

    def end(self) -> runner.Outcome:
        out, errors = self.running.communicate(timeout=SECONDS)
        return runner.Outcome(self.running.returncode, out, errors)


def slow_problems(scanner: str, words: Sequence[str], frames: int, first: bytes) -> Iterator[str]:
    """What a frame shows is printed before the next frame is written; octets are written one by one."""
    words = [*WHOLE, "--as", "x25-dir", "--no-join", *words]
    begun, whole = forms.pcap(147, CALL[:frames]), forms.pcap(147, CALL)
    live = Live([scanner, *words])
    try:
        for octet in begun:
            live.write(bytes([octet]))
        found = live.line()
        if found != first:
            yield f"got {found!r}, expected {first!r}"
        live.write(whole[len(begun) :])
        outcome = live.end()
    finally:
        live.running.kill()
    yield from runner.differences(outcome._replace(output=found + outcome.output), runner.run([scanner, *words], whole))


def cut_problems(scanner: str, octets: bytes) -> Iterator[str]:
    """A pipe that ends inside of a record gives the rows of the file that is cut there, whose status says that packets are missing."""
    with tempfile.TemporaryDirectory() as folder:
        path = pathlib.Path(folder) / "day.pcap"
        path.write_bytes(octets)
        expected = runner.run([scanner, *WHOLE, "--join", "--trace", path])
    if expected.status != 1:
        yield f"status {expected.status} of the file"
    for outcome in (named([scanner, *WHOLE, "--join", "--trace"], octets), runner.run([scanner, *WHOLE, "--join", "--trace"], octets)):
        yield from runner.first_difference("rows", "\n".join(rows_of(outcome.output.decode())[1:]), "\n".join(rows_of(expected.output.decode())[1:]))
        yield from runner.differences(outcome, (0, outcome.output, b""))


def cases(scanner: str) -> Iterator[runner.Case]:
    """All cases."""
    trace = runner.ROOT / "examples" / "window-broken.trace"
    yield runner.Case("trace in a pipe", piped, scanner, trace.read_bytes(), (), runner.run([scanner, trace]))
    for given, missing in PARTS:
        yield runner.Case(f"capture in a pipe without {missing}", kept_problems, scanner, TALK, given, f"a pipe without {missing}")
    talk = FILES / "ethernet.pcap"
    yield runner.Case("XOT in a pipe that is kept", kept_problems, scanner, talk, (*WHOLE, "--only", "xot"), "XOT in a pipe")
    for form in ("--findings", "--json", "--calls", "--trace", "--follow"):
        yield runner.Case(f"{form} of a pipe that is kept", kept_problems, scanner, talk, (form,), UNHEADED)
    yield runner.Case("pipe that is large", large_problems, scanner, TALK.read_bytes())
    yield runner.Case("pipe of more than 1 GiB", too_large_problems, scanner)
    yield runner.Case("two interfaces in a pipe", interface_problems, scanner)
    yield runner.Case("XOT in a pipe", refused_problems, scanner, (FILES / "ethernet.pcap").read_bytes(), WHOLE, PIPED, NO_LINE, 3)
    yield runner.Case("no packet in a pipe", refused_problems, scanner, forms.pcap(207, [b""]), WHOLE, NO_PACKET, NO_PACKET, 3)
    yield runner.Case("trace with a header in a pipe", refused_problems, scanner, trace.read_bytes(), WHOLE, UNFIT + TRACE, TRACE, 64)
    wrong = ("--mod", "8", "--win", "9", "--size", "128", "--pvc", "0", "--svc", "1")
    words = "WIN 9 is not below MOD 8"
    yield runner.Case("no header in a pipe", refused_problems, scanner, TALK.read_bytes(), wrong, UNFIT + words, words, 64)
    for form, frames, first in SLOW:
        yield runner.Case(f"slow pipe and {form}", slow_problems, scanner, (form,), frames, first)
    octets = TALK.read_bytes()
    for size in (len(octets) - 1, len(octets) - 20):
        yield runner.Case(f"pipe that ends after {size} octets", cut_problems, scanner, octets[:size])
    for path in sorted(FILES.iterdir()):
        if path.suffix in (".pcap", ".pcapng") and path.read_bytes()[:4] in MAGICS:
            yield runner.Case(f"{path.name} kept", kept_problems, scanner, path, (), UNHEADED)
            for given in ((), ("--only", "lapb"), ("--only", "x25")):
                yield runner.Case(f"{path.name} {' '.join(given)} once", capture_problems, scanner, path, *given)

"""rt_trial: one run of the unproved program by the kit's `rt try`, where the kit gave no module that could be kept.

`rt try` builds the program anew for each run, gives it less than 64 MiB of input and prints at most 1 MiB of what it
writes, once it has ended.
"""
from __future__ import annotations

import errno
import os
import re
import signal
import subprocess
import sys
import tempfile
from collections.abc import Sequence
from typing import IO, BinaryIO

from build_trial import CRATES, NOT_PROVED, UNABLE, say

NOTE = f"rt try runs the program, which takes two minutes each time; {NOT_PROVED}"
NO_ANSWER, NOT_OPENED = 70, 3
# rt gives a program less than this of standard input.
MOST_BYTES = 64 << 20
CHUNK = 1 << 20
# The options that take a value, and those with which no trace is read.
WITH_VALUE = {"--workers", "--channel", "--call", "--explain"}
WITH_VALUE |= {"--mod", "--win", "--size", "--pvc", "--svc", "--in", "--two", "--out", "--as", "--only", "--interface", "--port", "--lapb-modulo", "--dte"}
WITHOUT_TRACE = re.compile(r"--explain(=.*)?|--help|-h|--version|-V")
# What rt prints after the program's standard error.
ENDED = re.compile(rb"(?:interpreter: .*\n)?checked: .*\n(?:races: .*\n)?run=ended status=(\d+) .*\n\Z")
REASON = re.compile(rb"^checked: (?:fault|no-answer): (.*)$", re.MULTILINE)
VERSION = re.compile(rb"\Ax25scan (\S+)\nproved with [^\n]*\n\Z")
OPEN_FAULTS = {
    errno.ENOENT: "no such file",
    errno.ENOTDIR: "no such file",
    errno.EACCES: "permission denied",
    errno.EISDIR: "it is a directory",
}


class Refusal(Exception):
    """What is said in place of a report, and the exit status."""

    def __init__(self, text: str, status: int) -> None:
        super().__init__(text)
        self.status = status


def trace_places(words: Sequence[str]) -> list[int]:
    """The places of the words that name a trace."""
    places, takes_value, are_options = [], False, True
    for place, word in enumerate(words):
        if are_options and word == "--":
            are_options = False
        elif are_options and len(word) > 1 and word.startswith("-"):
            takes_value = word in WITH_VALUE
            continue
        elif not takes_value:
            places.append(place)
        takes_value = False
    return places


def open_trace(name: str | None) -> BinaryIO:
    """Opens the trace of a name, or standard input where there is none."""
    if name in (None, "-"):
        if sys.stdin is None:
            return open(os.devnull, "rb")
        if sys.stdin.isatty():
            say("reads the trace from the terminal, until Ctrl-D at the beginning of a line")
        return sys.stdin.buffer
    try:
        return open(str(name), "rb")
    except OSError as fault:
        why = OPEN_FAULTS.get(fault.errno or 0, "the system refuses it")
        raise Refusal(f"cannot open {name}: {why}", NOT_OPENED) from fault


def copy_trace(name: str | None, copy: IO[bytes]) -> None:
    """Copies a trace whole, since rt would cut one that is too large or comes slowly."""
    size = 0
    with open_trace(name) as source:
        while chunk := source.read(CHUNK):
            size += len(chunk)
            if size >= MOST_BYTES:
                raise Refusal("the trace has 64 MiB or more, which rt try can't read: bin/x25prove makes a program without that limit", UNABLE)
            copy.write(chunk)
    copy.seek(0)


def with_input(words: Sequence[str], copy: IO[bytes]) -> list[str]:
    """The words without the name of the trace, which becomes standard input."""
    places = trace_places(words)
    if any(WITHOUT_TRACE.fullmatch(it) for it in words) or len(places) > 1:
        return list(words)
    copy_trace(words[places[0]] if places else None, copy)
    return [word for place, word in enumerate(words) if place not in places]


def reason_of(errors: bytes) -> str:
    """Why a run gave no report, in a sentence that names the program that does."""
    reason = REASON.search(errors)
    said = (reason[1] if reason else errors.strip().rpartition(b"\n")[2] or b"rt printed nothing").decode(errors="replace")
    if "more than 1048576 bytes" in said:
        return "the output has more than 1 MiB, which is all that rt try prints: bin/x25prove makes a program without that limit"
    return f"the run gave no report: {said}; bin/x25prove makes the proved program"


def run(words: Sequence[str]) -> int:
    """Runs the program, prints what it printed, and returns its exit status."""
    if "--follow" in words:
        raise Refusal("rt try can't follow a trace, since it prints a report once the program has ended: bin/x25prove makes a program that can", UNABLE)
    with tempfile.TemporaryFile() as copy:
        left = with_input(words, copy)
        say(NOTE)
        done = subprocess.run(["rt", "try", "--", *left], cwd=CRATES / "x25scan", stdin=copy, capture_output=True, check=False)
    ended = ENDED.search(done.stderr)
    if not ended:
        raise Refusal(reason_of(done.stderr), NO_ANSWER)
    sys.stderr.buffer.write(done.stderr[:ended.start()])
    sys.stderr.flush()
    sys.stdout.buffer.write(VERSION.sub(rb"x25scan \1\n" + NOT_PROVED.encode() + rb"\n", done.stdout))
    sys.stdout.flush()
    return int(ended[1])


def main(words: Sequence[str]) -> int:
    """Runs the program by rt try, and returns the exit status."""
    signal.signal(signal.SIGPIPE, signal.SIG_DFL)
    try:
        return run(words)
    except Refusal as refusal:
        say(refusal)
        return refusal.status

"""What x25trace does with its command line: its streams, its signals and its exit status."""
from __future__ import annotations

import argparse
import gc
import os
import signal
import sys
from collections.abc import Sequence
from typing import TextIO

from x25tools_lib.halves import Halves
from x25tools_lib.header import Wishes
from x25tools_lib.ledger import Ledger, ignore
from x25tools_lib.options import Status, chosen
from x25tools_lib.progress import Progress
from x25tools_lib.refusals import Refusal, Why
from x25tools_lib.streams import Interrupted, Waiting, is_open, is_pipe, is_terminal, mute_errors, replaced, title_of

from . import comments, passing
from .captures import Captures
from .following import Follower
from .live import Live
from .making import file_of, gathered
from .reading import Reading
from .source import Source, first_source
from .words import check_trace, forms_of, parsed


def say(words: object) -> None:
    try:
        print(f"x25trace: {words}", file=sys.stderr)
    except BrokenPipeError:
        # With --follow the reader of the report may be there, and no signal ends the program.
        mute_errors()


def say_failure(fault: OSError) -> None:
    """Prints what failed."""
    name = f"{fault.filename}: " if isinstance(fault.filename, str) else ""
    say(f"reading or writing failed: {name}{fault.strerror or fault}")


def is_live(words: argparse.Namespace, wishes: Wishes, waiting: Waiting) -> bool:
    """Whether rows can be written as frames come: from a pipe, with all numbers of the header given."""
    if not any(map(is_pipe, words.captures)):
        return False
    missing = wishes.missing()
    if missing and not waiting.is_over and (words.is_followed or wishes.window and wishes.size):
        if not words.is_quiet:
            say(f"rows wait for the end of the input; with {', '.join(missing)} too they are written as frames come")
    return not missing


def write(words: argparse.Namespace, ledger: Ledger, waiting: Waiting, out: TextIO) -> None:
    """Reads the named files, and writes their trace, or captures with comments."""
    waiting.before = out.flush
    if len(words.captures) > 1:
        write_captures(words, ledger, waiting, None, out)
        return
    with first_source(words.captures, waiting) as source:
        if not passing.is_next(source):
            write_captures(words, ledger, waiting, source, out)
            return
        check_trace(words)
        for lines in passing.lines_of(source, ledger):
            out.buffer.write(lines)


def write_captures(
    words: argparse.Namespace, ledger: Ledger, waiting: Waiting, first: Source | None, out: TextIO,
) -> None:
    """Writes the trace of captures, or the captures with comments; the first one may be open, and looked at."""
    choices, wishes = chosen(words)
    if words.comments is not None:
        write_comments(words, ledger, waiting)
    elif is_live(words, wishes, waiting):
        captures = Captures(words.captures, choices.kinds, ledger, waiting, first)
        live = Live(ledger, Reading(ledger, choices), wishes, words.has_comments)
        live.write(captures.frames(), title_of(words.captures), out)
    else:
        gathered(words, ledger, waiting, words.has_comments, first).write(title_of(words.captures), out)


def write_comments(words: argparse.Namespace, ledger: Ledger, waiting: Waiting) -> None:
    """Has x25scan read the trace, and writes the captures again with its findings as comments."""
    if not words.is_forced and not comments.may_replace(words.comments):
        raise Refusal(Why.OUTPUT, f"{words.comments} is there, and --comments did not write it: --force writes over it")
    trace = gathered(words, ledger, waiting, True)
    # The first reading reported the damage.
    again = [Captures(words.captures, dict(words.kinds), Ledger(), Waiting()) for _ in range(2)]
    comments.check(again[0])
    with file_of(trace, words.captures) as (file, head):
        texts = comments.found(file, words.scanner, Halves(head))
    with replaced(words.comments) as out:
        comments.write(again[1], texts, out)
    ledger.say(f"{sum(map(len, texts.values()))} comments, in {len(texts)} frames of {words.comments}")


def run(words: argparse.Namespace, waiting: Waiting, out: TextIO) -> Status:
    """Reads and writes; returns the status."""
    several = f"{title_of(words.captures)}: " if len(words.captures) > 1 else ""
    ledger = Ledger(ignore if words.is_quiet else say)
    if not words.is_quiet and is_terminal(2):
        waiting.progress = Progress(say)
    try:
        write(words, ledger, waiting, out)
        out.flush()
    except Refusal as refusal:
        status = Status.REFUSED
        say(refusal)
    else:
        status = Status.WHOLE if ledger.whole else Status.DAMAGED
    for line in ledger.lines():
        ledger.say(several + line)
    return status


def follow(words: argparse.Namespace, waiting: Waiting) -> int:
    """Has x25scan follow the trace; returns its status, or that of the failure where no trace could be made."""
    follower = Follower(words.scanner, forms_of(words), waiting)
    try:
        if run(words, waiting, follower.out) is Status.REFUSED:
            return Status.INTERRUPTED if waiting.interrupted else Status.REFUSED
        status = follower.end()
    except (BrokenPipeError, Interrupted):
        # x25scan has ended, and printed why.
        status = follower.end()
    except OSError as fault:
        say_failure(fault)
        follower.end()
        return Status.FAILED
    finally:
        follower.kill()
    if status < 0:
        say(f"{follower.name} was ended by signal {-status}")
    return status if status >= 0 else 128 - status


def main(arguments: Sequence[str], waiting: Waiting | None = None) -> int:
    """Runs without changing the streams and signals of the process."""
    words = parsed(arguments)
    waiting = waiting or Waiting()
    try:
        if words.is_followed:
            return follow(words, waiting)
        status = run(words, waiting, sys.stdout)
        return Status.INTERRUPTED if waiting.interrupted else status
    except OSError as fault:
        # The rest cannot be written: Python must not try again at the end.
        os.dup2(os.open(os.devnull, os.O_WRONLY), sys.stdout.fileno())
        say_failure(fault)
        return Status.FAILED
    except KeyboardInterrupt:
        return Status.INTERRUPTED


def program(arguments: Sequence[str]) -> int:
    """Runs as a program: a closed pipe ends it as it ends other filters, and SIGINT ends the reading."""
    if not is_open(2):
        mute_errors()
    if not is_open(1):
        say("reading or writing failed: standard output is closed")
        return Status.FAILED
    waiting = Waiting()
    # No object that is made for a frame is in a cycle, so the collector would find nothing.
    gc.disable()
    signal.signal(signal.SIGPIPE, signal.SIG_DFL)
    waiting.handle(signal.SIGINT)
    return main(arguments, waiting)

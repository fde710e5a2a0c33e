"""What is read of one input: a capture or a trace, with the facts of it."""
from __future__ import annotations

import argparse
import contextlib
import os
import shlex
import signal
import sys
from collections.abc import Callable, Iterator, Sequence
from dataclasses import dataclass
from typing import BinaryIO

from x25tools_lib.ledger import Ledger
from x25tools_lib.notes import Head, ends_text
from x25tools_lib.streams import Waiting, title_of
from x25trace_lib.captures import is_trace
from x25trace_lib.passing import HEADER
from x25trace_lib.source import first_source

from . import inputs
from .ends import OTHER, RECORDER, AllEnds
from .facts import Facts
from .scanner import Explained, Scanner, Watch
from .suspicions import Again
from .words import line_with, of_captures, parser

# The options of the numbers for which a page may suggest other values.
OPTIONS = {"WIN": "--win", "SIZE": "--size"}
# The options that have a host as the DTE.
BY_DIRECTION = {RECORDER: "--side direction ", OTHER: "--side direction --swap "}


def say(words: object) -> None:
    print(f"x25page: {words}", file=sys.stderr)


class Messages(Ledger):
    """The messages about an input: in the page and, unless --quiet is given, on standard error."""

    def __init__(self, say_it: Callable[[object], None] | None = say) -> None:
        super().__init__(self.add)
        self.say_it = say_it
        self.all: list[str] = []
        self.is_capture = self.is_packed = False

    def add(self, words: str) -> None:
        """Keeps a message, and prints it."""
        self.all.append(words)
        self.show(words)

    def show(self, words: str) -> None:
        """Prints a line that is no message of the page."""
        if self.say_it:
            self.say_it(words)


@dataclass
class Job:
    """What is to be read: the command line, parsed and as written, and the scanner."""

    words: argparse.Namespace
    arguments: Sequence[str]
    scanner: Scanner
    waiting: Waiting

    def say(self, words: object) -> None:
        """Prints a line on standard error, unless --quiet is given."""
        if not self.words.is_quiet:
            say(words)


@dataclass
class Read:
    """What was read of an input: its name, what it has besides rows, its facts, and the messages about it.

    `sides` says which ends are taken for the DTE and the DCE, and on what that rests; `swapped` is the command for the other
    way, and `program` why the program is not the proved one. Each may be empty.
    """

    name: str
    head: Head
    facts: Facts
    messages: Messages
    explanations: dict[str, Explained]
    again: Again
    sides: str
    swapped: str
    program: str


@contextlib.contextmanager
def opened_trace(words: argparse.Namespace, messages: Messages, waiting: Waiting) -> Iterator[tuple[BinaryIO, Head]]:
    """The named trace, or the trace of the named captures, and what it has besides rows."""
    inputs.take_pipe(words)
    name = words.captures[0]
    with first_source(words.captures, waiting) as source:
        if not is_trace(inputs.start_of(source)):
            messages.is_capture = True
            with inputs.trace_of(words, messages, waiting, source) as made:
                yield made
            return
        if len(words.captures) > 1:
            parser().error("a trace is read alone; docs/GUIDE.md says how several become one")
        if not words.has_several and (option := of_captures(words)):
            parser().error(f"{option} is of captures, and {name} is a trace, which has its header and its sides")
        messages.is_packed = source.is_packed
        with inputs.named_trace(name, source, messages) as named:
            yield named


def show_header(head: Head, messages: Messages) -> None:
    """Prints which header was used, which of its numbers were estimated, and what was recorded in one direction."""
    if head.header.startswith(HEADER.decode()):
        # A trace without a header is refused.
        messages.show(f"header: {head.header}")
    if head.estimates:
        messages.show(f"estimated from what was seen: {', '.join(it.text for it in head.estimates)}")
    if not messages.is_capture:
        # For a capture this was printed before.
        messages.lack(head.halves)


def again(words: argparse.Namespace, arguments: Sequence[str], messages: Messages) -> Again:
    """The words of a command that reads the same input again; of a capture, without a number that is changed."""
    if messages.is_capture:
        # The page may be given to others: it names no folder of this machine.
        shown = [os.path.basename(word) if word in words.captures else word for word in arguments]
        return {"all": line_with(shown), **{name: line_with(shown, option) for name, option in OPTIONS.items()}}
    name = words.captures[0]
    shown_trace = "TRACE" if name == "-" else shlex.quote(os.path.basename(name))
    return f"<(gzip -dc {shown_trace})" if messages.is_packed else shown_trace


def swapped(job: Job, reading: Again, ends: AllEnds) -> str:
    """The command that reads the same captures with the sides exchanged; nothing for a trace, which has its sides."""
    if isinstance(reading, str):
        return ""
    option = "" if "--swap" in job.arguments else "--swap "
    if job.words.swap and option:
        # The reading exchanged the sides by itself.
        others = list(ends.hosts()[1])
        if len(others) != 1:
            return ""
        option = BY_DIRECTION.get(others[0], f"--dte {others[0]} ")
    return f"x25page {option}{line_with(shlex.split(reading['all']), flags=('--swap',))}"


def sides_of(ends: AllEnds) -> str:
    """Which ends are taken for the DTE and the DCE, and on what that rests, in a sentence; nothing where none is known."""
    if ends.basis:
        return f"{ends.said}."
    dte, dce = ends.hosts()
    return f"{ends_text(list(dte), list(dce))}, as the trace says." if dte and dce else ""


def read(job: Job, messages: Messages, watch: Watch | None = None) -> Read:
    """Reads the named input; `watch` gets the objects of the report before the facts do."""
    words, scanner = job.words, job.scanner
    with opened_trace(words, messages, job.waiting) as (trace, head):
        # The reading is over: from here on a signal ends the program.
        signal.signal(signal.SIGINT, signal.default_int_handler)
        for line in messages.lines():
            messages.add(line)
        show_header(head, messages)
        explanations, facts = scanner.explanations(), Facts(head)
        facts.use.begin(*(int(head.numbers.get(name) or standard) for name, standard in (("WIN", 2), ("MOD", 8))))
        scanner.report(facts, trace, watch)
    words_again = again(words, job.arguments, messages)
    return Read(title_of(words.captures), head, facts, messages, explanations, words_again, sides_of(facts.ends),
                swapped(job, words_again, facts.ends), scanner.not_proved())

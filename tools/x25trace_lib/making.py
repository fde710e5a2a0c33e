"""The trace of captures: the packets are gathered, and the trace is written to a file."""
from __future__ import annotations

import argparse
import contextlib
import tempfile
from collections.abc import Iterator, Sequence
from dataclasses import dataclass
from typing import IO

from x25tools_lib.ledger import Ledger, Topic
from x25tools_lib.notes import SWAP, Head
from x25tools_lib.options import chosen
from x25tools_lib.refusals import Refusal
from x25tools_lib.scanner import built
from x25tools_lib.sides import Side
from x25tools_lib.streams import Waiting, is_pipe, title_of

from .captures import Captures
from .ranking import FOLLOWED, Ranker
from .reading import Reading
from .sides_tried import is_better, is_guess
from .source import Source
from .trace import Trace


def ranker_of(words: argparse.Namespace) -> Ranker:
    """What tries the headers of a trace, which is not followed."""
    return Ranker(None, FOLLOWED) if getattr(words, "is_followed", False) else Ranker(words.scanner or built())


def gathered(
    words: argparse.Namespace, ledger: Ledger, waiting: Waiting, has_comments: bool, first: Source | None = None,
) -> Trace:
    """What the trace of the named captures is made of; the first one may be open, and looked at.

    Where no option says which end is the DTE, and the reactions of the DCE decide for the other one, or it opened the link,
    files are read again. Where the address octets of a link say it, the reactions give a message alone.
    """
    say, held = ledger.say, list[str]()
    ledger.say = held.append

    def again() -> bool:
        """Forgets the first reading, where the captures can be read again."""
        if waiting.is_over or any(name == "-" or is_pipe(name) for name in words.captures):
            return False
        held.clear()
        ledger.begin_again()
        return True

    try:
        trace = read_once(words, ledger, waiting, has_comments, first)
        if has_parts := bool(trace.reading.parts) and again():
            trace = read_once(words, ledger, waiting, has_comments, has_parts=True)
        case = other_way(trace, words.swap) if is_guess(words) else None
        if case and trace.is_guess and again():
            words.swap = not words.swap
            trace = read_once(words, ledger, waiting, has_comments, has_parts=has_parts)
            trace.basis = case.basis
            if case.after:
                ledger.report(Topic.SIDES, f"{case.message}{case.after}")
        elif case:
            trace.doubt = f"{case.message}{SWAP}"
    finally:
        ledger.say = say
        for message in held:
            say(message)
    return trace


@dataclass(frozen=True)
class Case:
    """What speaks for the other sides, on what they rest then, and how the message ends where they are taken for that."""

    message: str
    basis: str
    after: str = ""


def other_way(trace: Trace, is_swapped: bool) -> Case | None:
    """What speaks for the other sides: the reactions of the DCE, or the end that opened the link, which --swap exchanges."""
    try:
        tried = None if is_swapped else trace.other_sides()
        opener = trace.opener
    except Refusal:
        return None
    if tried and is_better(tried[1], tried[0]):
        own, other = (f"{one.answered} of {one.answered + one.counts[1]}" for one in tried)
        message = f"the DCE answers {other} errors of the DTE with the sides exchanged, and {own} as they are"
        basis = f"the DCE answers {other} errors of the DTE, and {own} the other way"
        return Case(message, basis, ", so the sides are exchanged; --dte or --sender say otherwise")
    if not trace.is_guess or opener is None or (opener.side is Side.N) == is_swapped:
        return None
    basis = f"--swap exchanges the ends, and the DCE {opener.did}" if is_swapped else f"the DTE {opener.did}"
    return Case(f"{opener.name} {opener.did}, and is taken for the {opener.side.title}", basis)


def read_once(
    words: argparse.Namespace, ledger: Ledger, waiting: Waiting, has_comments: bool, first: Source | None = None,
    has_parts: bool = False,
) -> Trace:
    """Reads the named captures; the first one may be open, and looked at. `has_parts` means a link for each interface."""
    choices, wishes = chosen(words)
    captures = Captures(words.captures, choices.kinds, ledger, waiting, first)
    trace = Trace(ledger, Reading(ledger, choices, has_parts), wishes, has_comments, ranker_of(words))
    trace.gather(captures.frames())
    return trace


@contextlib.contextmanager
def file_of(trace: Trace, names: Sequence[str]) -> Iterator[tuple[IO[str], Head]]:
    """A trace in an open file, at its beginning, and what it has besides rows."""
    with tempfile.TemporaryFile("w+", encoding="ascii", newline="\n") as file:
        head = trace.write(title_of(names), file)
        file.flush()
        file.seek(0)
        yield file, head

"""The comparison of two captures or traces, as a page or as text."""
from __future__ import annotations

import copy
import pathlib
import signal
from dataclasses import replace

from x25tools_lib.options import Status
from x25tools_lib.refusals import Refusal
from x25tools_lib.streams import Waiting, stem_of, write_text

from .comparison_page import comparison_page
from .comparison_text import comparison_text
from .differences import Section, sections
from .gathering import Job, Messages, read
from .places import checked, written
from .totals import Accounts, Totals, totals_of

def totals(job: Job, name: str) -> tuple[Totals, bool]:
    """The totals of an input, and whether it surely has all packets. Its messages and refusals name it."""
    words = copy.copy(job.words)
    words.captures = [name]
    waiting = Waiting()
    waiting.handle(signal.SIGINT)
    messages, accounts = Messages(lambda it: job.say(f"{name}: {it}")), Accounts()
    try:
        found = read(replace(job, words=words, arguments=[name], waiting=waiting), messages, accounts.watch)
    except Refusal as refusal:
        raise refusal if name in refusal.words else Refusal(refusal.why, f"{name}: {refusal.words}") from refusal
    if waiting.interrupted:
        raise KeyboardInterrupt
    return totals_of(found, accounts), messages.whole


def path_of(job: Job) -> pathlib.Path | None:
    """The file of the page; None where only text is asked for."""
    words = job.words
    if words.page is None and words.summary:
        return None
    name = words.page or f"{'-to-'.join(map(stem_of, words.captures))}.html"
    return checked(pathlib.Path(name), words.captures, words.is_forced)


def count(found: list[Section]) -> str:
    """The number of lines that differ, in words."""
    many = sum(len(it.differing) for it in found)
    return f"{many:,} line{'' if many == 1 else 's'} differ{'s' if many == 1 else ''}"


def run(job: Job) -> Status:
    """Reads both, and writes the page or prints the text; returns the status."""
    path, is_whole, both = path_of(job), True, []
    for name in job.words.captures:
        one, whole = totals(job, name)
        both.append(one)
        is_whole = is_whole and whole
    before, after = both
    found = list(sections(before, after))
    if job.words.summary:
        write_text("".join(f"{line}\n" for line in comparison_text(before, after, found)))
    if path is not None:
        with written(path) as out:
            out.writelines(comparison_page(before, after, found))
        job.say(f"{path}: {count(found)}")
    return Status.WHOLE if is_whole else Status.DAMAGED

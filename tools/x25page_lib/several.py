"""Pages of several captures and traces, one for each, and an index of them."""
from __future__ import annotations

import argparse
import copy
import gc
import os
import pathlib
import signal
from collections.abc import Iterable, Iterator
from dataclasses import dataclass, replace
from itertools import chain

from x25tools_lib.options import Status
from x25tools_lib.refusals import Link, PageWhy, Refusal, Why
from x25tools_lib.streams import Waiting, is_pipe, stem_of
from x25trace_lib.captures import BINARY, is_trace
from x25trace_lib.hexdump import is_dump
from x25trace_lib.source import first_source

from . import inputs
from .gathering import Job, Messages, read, say
from .index_page import INDEX, Line, Side, index_of
from .pages import Page
from .places import checked, written
from .suspicions import number

HEADER_OF_TRACE = b"X25 "


@dataclass(frozen=True)
class Input:
    """A file that was named, or is in a folder that was."""

    path: str
    is_in_folder: bool


@dataclass
class Outcome:
    """The result of an input: its line of the index, and its status."""

    line: Line
    status: Status


def inputs_of(names: Iterable[str]) -> Iterator[Input]:
    """The named files, and those in named folders and their subfolders, sorted by name."""
    for name in names:
        if not os.path.isdir(name):
            yield Input(name, False)
            continue
        for folder, folders, files in os.walk(name):
            folders[:] = sorted(it for it in folders if not it.startswith("."))
            yield from (Input(os.path.join(folder, it), True) for it in sorted(files) if not it.startswith("."))


def without_repeats(found: Iterable[Input]) -> list[Input]:
    """The inputs without repetitions of a file."""
    kept: dict[str, Input] = {}
    for one in found:
        kept.setdefault(os.path.realpath(one.path), one)
    return list(kept.values())


def free_name(stem: str, taken: set[str]) -> str:
    """The name of a page; where it is taken, with a number."""
    name, number = f"{stem}.html", 1
    while name in taken:
        number += 1
        name = f"{stem}-{number}.html"
    taken.add(name)
    return name


def is_foreign(one: Input, job: Job, folder: pathlib.Path) -> bool:
    """Whether a file of a folder is to be passed over: neither a capture nor a trace, or a page of an earlier run."""
    path = pathlib.Path(one.path)
    if path.suffix == ".html" and folder.resolve() in path.resolve().parents or is_pipe(one.path):
        return True
    try:
        with first_source([one.path], Waiting()) as source:
            start = inputs.start_of(source)
    except Refusal:
        return False
    if is_trace(start):
        lines = (line for line in start.split(b"\n") if not line.startswith(b"#"))
        return not next(lines, b"").startswith(HEADER_OF_TRACE)
    is_kind_given = None in dict(job.words.kinds)
    return not start.startswith(BINARY) and not (is_kind_given and is_dump(start))


def job_of(job: Job, path: str, link: Link | None = None) -> Job:
    """The job of one input, or of one link in it."""
    words = copy.copy(job.words)
    words.captures = [path]
    rest = [it for it in job.arguments if it != "--each" and it not in job.words.captures]
    if link:
        words.only = link.carrier
        words.interface = words.interface if link.interface is None else [link.interface]
        rest += link.options
    return replace(job, words=words, arguments=[*rest, path], waiting=Waiting())


def line_of(page: Page, path: str, name: str) -> Line:
    """The line of the index for a page that is written."""
    found = page.read
    facts = found.facts
    header = [(word, value, word in found.head.sources) for word, value in found.head.numbers.items()]
    notes = [] if found.messages.whole else ["Packets may be missing: the page says which."]
    notes += ["The header may be wrong: the page says why."] if page.warnings else []
    notes += [sentence for sentence, *_ in facts.doubts()]
    sides = [Side(facts.found.count_of(side), facts.found.following[side], list(hosts)) for side, hosts in enumerate(facts.ends.hosts())]
    return Line(path, name, facts.verdict(), sides, facts.sums, facts.gaps.seen, header, notes)


def write_page(job: Job, path: str, place: pathlib.Path) -> Outcome:
    """Writes the page of a job; the path is that of its line in the index."""
    waiting = job.waiting
    waiting.handle(signal.SIGINT)
    messages = Messages(None)
    page = Page(read(job, messages))
    with written(place) as out:
        for part in page.parts():
            out.write(part)
    line = line_of(page, path, place.name)
    job.say(f"{path}: {place}: {page.summary()}")
    if waiting.interrupted:
        return Outcome(line, Status.INTERRUPTED)
    return Outcome(line, Status.WHOLE if messages.whole else Status.DAMAGED)


def outcome_of(job: Job, one: Input, place: pathlib.Path, link: Link | None = None) -> Outcome:
    """Writes the page of an input, or of a link in it, or prints why there is none. Raises the refusal of several links."""
    path = one.path if link is None else f"{one.path} ({' '.join(link.options)})"
    try:
        return write_page(job_of(job, one.path, link), path, checked(place, [one.path], job.words.is_forced))
    except Refusal as refusal:
        if refusal.links and link is None:
            raise
        say(f"{path}: {refusal}")
        return Outcome(Line.refused(path, str(refusal)), Status.REFUSED)


def outcomes_of(job: Job, one: Input, folder: pathlib.Path, taken: set[str]) -> Iterator[Outcome]:
    """Writes the page of an input, or one for each link in it."""
    stem = stem_of(one.path)
    name = free_name(stem, taken)
    try:
        yield outcome_of(job, one, folder / name)
    except Refusal as refusal:
        taken.discard(name)
        for link in refusal.links:
            yield outcome_of(job, one, folder / free_name(f"{stem}-{link.name}", taken), link)


def folder_of(words: argparse.Namespace) -> pathlib.Path:
    """The folder of the pages, which is made where there is none."""
    folder = pathlib.Path(words.page)
    if folder.exists() and not folder.is_dir():
        raise Refusal(PageWhy.OUTPUT, f"{folder} is no folder: -o names the folder of the pages")
    folder.mkdir(parents=True, exist_ok=True)
    return folder


def run(job: Job) -> Status:
    """Writes the pages and their index; returns the worst status."""
    folder = folder_of(job.words)
    every = without_repeats(inputs_of(job.words.captures))
    found = [it for it in every if not it.is_in_folder or not is_foreign(it, job, folder)]
    outcomes, taken = list[Outcome](), {INDEX}
    for outcome in chain.from_iterable(outcomes_of(job, one, folder, taken) for one in found):
        outcomes.append(outcome)
        gc.collect()
        if outcome.status is Status.INTERRUPTED:
            break
    lines = [it.line for it in outcomes]
    if not any(line.page for line in lines):
        raise Refusal(Why.NO_PACKET, f"no page was written: {number(len(every), 'file')}, and none is a capture or a trace")
    index = checked(folder / INDEX, [], job.words.is_forced)
    with written(index) as out:
        out.writelines(index_of(lines, job.scanner.not_proved()))
    passed = len(every) - len(found)
    rest = f"; {number(passed, 'other file')} passed over, neither captures nor traces" if passed else ""
    job.say(f"{index}: {number(len(lines), 'line')}{rest}")
    return max(it.status for it in outcomes)

"""What x25page does with its command line: its streams, its signals and its exit status."""
from __future__ import annotations

import argparse
import gc
import os
import pathlib
import signal
import sys
from collections.abc import Sequence
from typing import NoReturn

from x25tools_lib import scanner as programs
from x25tools_lib.options import Status
from x25tools_lib.refusals import Refusal
from x25tools_lib.streams import Waiting, is_open, mute_errors, write_text

from . import comparing, several
from .gathering import Job, Messages, read, say
from .pages import Page
from .places import path_of, written
from .scanner import Scanner
from .summary import Summary
from .suspicions import trial
from .words import parsed

TERMINATED = 128 + signal.SIGTERM


def write(page: Page, path: pathlib.Path, job: Job) -> None:
    """Writes a page, and prints what is in it."""
    with written(path) as out:
        for part in page.parts():
            out.write(part)
    job.say(f"{path}: {page.summary()}")
    if page.warnings:
        job.say(f"the header may be wrong, and the page says why: {trial(page.read.again)} tries others")


def make(job: Job, messages: Messages) -> None:
    """Reads what is named, and writes the page or prints its facts."""
    words = job.words
    path = None if words.summary and words.page is None else path_of(words)
    found = read(job, messages)
    if words.summary:
        write_text(Summary(found).text())
    if path is not None:
        write(Page(found), path, job)


def run(words: argparse.Namespace, arguments: Sequence[str], waiting: Waiting) -> Status:
    """Runs the parsed command line, and returns the exit status."""
    job = Job(words, arguments, Scanner(words.scanner or programs.found("x25page")), waiting)
    messages = Messages(job.say)
    try:
        if words.is_each:
            return several.run(job)
        if words.is_comparison:
            return comparing.run(job)
        make(job, messages)
    except Refusal as refusal:
        say(refusal)
        return Status.INTERRUPTED if waiting.interrupted else Status.REFUSED
    if waiting.interrupted:
        return Status.INTERRUPTED
    return Status.WHOLE if messages.whole else Status.DAMAGED


def main(arguments: Sequence[str], waiting: Waiting) -> Status:
    """Runs without changing the streams and signals of the process."""
    words = parsed(arguments)
    try:
        return run(words, arguments, waiting)
    except OSError as fault:
        name = f"{fault.filename}: " if isinstance(fault.filename, str) else ""
        say(f"reading or writing failed: {name}{fault.strerror or fault}")
        return Status.FAILED
    except KeyboardInterrupt:
        return Status.INTERRUPTED


def fill_gaps() -> None:
    """Opens a replacement for each closed standard stream, so that no file gets its number; a closed standard error shows nothing."""
    is_mute = sys.stderr is None or not is_open(2)
    for descriptor, is_closed in enumerate((sys.stdin is None, sys.stdout is None, is_mute)):
        if is_closed:
            os.dup2(os.open(os.devnull, os.O_RDWR), descriptor)
    if is_mute:
        mute_errors()


def terminate(*_: object) -> NoReturn:
    """The handler of SIGTERM."""
    sys.exit(TERMINATED)


def program(arguments: Sequence[str]) -> Status:
    """Runs as a program: SIGINT ends the reading, and no signal that can be handled leaves a part of a page."""
    fill_gaps()
    waiting = Waiting()
    # Few objects that are made for a row are in cycles, so the collector would find little.
    gc.disable()
    signal.signal(signal.SIGPIPE, signal.SIG_DFL)
    waiting.handle(signal.SIGINT)
    signal.signal(signal.SIGTERM, terminate)
    return main(arguments, waiting)

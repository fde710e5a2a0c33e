"""bin/x25prove: its words, its signals and its exit status."""
from __future__ import annotations

import argparse
import contextlib
import fcntl
import os
import pathlib
import signal
import subprocess
import sys
from collections.abc import Callable, Iterator, Sequence
from types import FrameType
from typing import NoReturn

from .adoption import adopt as adopt_all
from .adoption import sum_of_all
from .keys import Keys, Way, program_way
from .progress import Progress, minutes
from .receipts import Receipts
from .repository import FRESH, OUT, PROGRAM, PROGRAM_NAME, Refusal, kit, slots
from .schedule import Build, remove_left, report
from .store import Store

ABOUT = """\
Proves and builds x25scan and its libraries, unless they are built of these
sources. bin/x25scan runs what it builds.

Without an option each crate is proved from nothing, or taken from the store,
where a proof of the same sources over the same libraries was kept: of another
clone, another branch, or an earlier commit. Standard error says which crate is
proved, how many of how many, the minutes so far, and about how many are left.
A second run waits for the first.
"""
ENDING = """\
The store is the folder $X25SCAN_STORE, else $XDG_CACHE_HOME/x25scan, else
~/.cache/x25scan. It holds at most $X25SCAN_STORE_LIMIT (4G if that is not set;
a number of bytes, or one with K, M or G), and loses first what was not used for
longest.

The exit status is one of these:
  0    the program is built, or what was asked of the store is done
  3    a crate was not proved or not built, as standard error says; or rt is not
       on the path; or the store can't be used
  64   the words of the command line or X25SCAN_STORE_LIMIT are wrong
  65   the receipts can't be used: damaged, of another kit, or no receipts
  130  it was interrupted (129: by SIGHUP, 143: by SIGTERM); what was proved
       until then is kept
"""
KEPT_HELP = "for developers: go on with the work that was kept of each crate (out/kept), which is trusted"
RECEIPTS_HELP = "build by the receipts of an archive (tools/package --receipts), whose maker is trusted"
NOT_BUILT, USAGE = 3, 64
LOG = OUT / "prove.log"
TRUST = {
    Way.NOTHING: "",
    Way.KEPT: "; its proof trusts kept work (out/kept): bin/x25prove proves it from nothing, and packages need that",
    Way.RECEIPTS: "; its proof trusts whoever made the receipts: bin/x25prove proves it here, and packages need that",
}


class Interrupted(BaseException):
    """A signal that ends the run."""

    def __init__(self, number: int) -> None:
        super().__init__(number)
        self.number = number


class Words(argparse.ArgumentParser):
    """The words of the command line; wrong ones have the exit status that the help says."""

    def error(self, message: str) -> NoReturn:
        self.exit(USAGE, f"x25prove: {message}; bin/x25prove --help lists the options\n")


def say(text: object) -> None:
    print(f"x25prove: {text}", file=sys.stderr, flush=True)


def words_of(arguments: Sequence[str]) -> argparse.Namespace:
    """What was asked."""
    layout = argparse.RawDescriptionHelpFormatter
    words = Words(prog="x25prove", description=ABOUT, epilog=ENDING, formatter_class=layout, allow_abbrev=False, add_help=False)
    words.add_argument("--help", "-h", action="help", help="print this help")
    words.add_argument("--background", action="store_true", help="prove in the background, with a log in out/prove.log")
    one = words.add_mutually_exclusive_group()
    one.add_argument("--incremental", action="store_true", help=KEPT_HELP)
    one.add_argument("--receipts", metavar="FILE", type=pathlib.Path, help=RECEIPTS_HELP)
    one.add_argument("--store", action="store_true", help="list what the store holds")
    one.add_argument("--empty-store", action="store_true", help="remove all that the store holds")
    return words.parse_args(arguments)


@contextlib.contextmanager
def alone(say_it: Callable[[object], None]) -> Iterator[None]:
    """Waits until no other run builds in this clone, and keeps others waiting."""
    for folder in (OUT, FRESH, PROGRAM.parent):
        folder.mkdir(parents=True, exist_ok=True)
    with (OUT / "lock").open("w") as lock:
        try:
            fcntl.flock(lock, fcntl.LOCK_EX | fcntl.LOCK_NB)
        except BlockingIOError:
            say_it("another run builds here; this one waits for its end")
            fcntl.flock(lock, fcntl.LOCK_EX)
        remove_left()
        yield


@contextlib.contextmanager
def signals() -> Iterator[None]:
    """Has the signals that end a run end what it started too."""
    def end(number: int, _frame: FrameType | None) -> None:
        raise Interrupted(number)

    ending = (signal.SIGINT, signal.SIGTERM, signal.SIGHUP)
    before = {it: signal.signal(it, end) for it in ending if signal.getsignal(it) is not signal.SIG_IGN}
    try:
        yield
    finally:
        for number, handler in before.items():
            signal.signal(number, handler)


def make_libraries(*above: str) -> bool:
    """Proves and builds from nothing the missing libraries of crates, and returns whether all are there."""
    kit()
    with alone(say):
        build = Build(Way.NOTHING, Store(say), Progress(say, slots()), *above)
        build.shelf.folder.mkdir(parents=True, exist_ok=True)
        failed = build.make_libraries()
        if failed:
            report(failed)
            say(f"the libraries were not built, since this was not proved or not built: {', '.join(failed)}")
    return not failed


def make_program(way: Way, receipts: pathlib.Path | None = None) -> int:
    """Proves and builds the program, unless it is built of these sources in this way or from nothing. Returns the exit status."""
    kit()
    store = Store(say)
    with alone(say):
        archive = Receipts(receipts, OUT / "receipts" / "unpacked", Keys(PROGRAM_NAME).kit, say) if receipts else None
        try:
            if program_way() in (way, Way.NOTHING):
                say(f"the program is built of these sources{TRUST[way]}")
                return 0
            if archive:
                say(f"the receipts are of commit {archive.commit}; whoever made them is trusted")
            return make_all(way, store, archive)
        finally:
            if archive:
                archive.remove()


def make_all(way: Way, store: Store, archive: Receipts | None) -> int:
    """Makes the libraries and the program, and returns the exit status."""
    progress = Progress(say, slots())
    build = Build(way, store, progress, PROGRAM_NAME, receipts=archive)
    build.shelf.folder.mkdir(parents=True, exist_ok=True)
    failed = build.make_libraries(PROGRAM_NAME) or build.make_program()
    if failed:
        report(failed)
        say(f"the program was not built, since this was not proved or not built: {', '.join(failed)}")
        return NOT_BUILT
    say(f"built in {minutes(progress.seconds())} ({progress.summary()}){TRUST[way]}")
    return 0


def begin_in_background(arguments: Sequence[str]) -> int:
    """Starts the same run without --background, apart from this terminal, with its words in the log."""
    OUT.mkdir(parents=True, exist_ok=True)
    words = [sys.executable, sys.argv[0], *(it for it in arguments if it != "--background")]
    with LOG.open("ab") as log:
        child = subprocess.Popen(words, stdin=subprocess.DEVNULL, stdout=log, stderr=log, start_new_session=True)
    say(f"proves in the background, process {child.pid}; tail -f {os.path.relpath(LOG)} shows its progress, and kill {child.pid} ends it")
    return 0


def show_store(is_emptied: bool) -> int:
    """Lists what the store holds, or removes it."""
    store = Store(say)
    if not store.is_used:
        return NOT_BUILT
    if is_emptied:
        print(f"{store.empty()} proofs were removed from {store.folder}")
    else:
        print(store.table(), end="")
    return 0


def answer(arguments: Sequence[str]) -> int:
    """Does what was asked, and returns the exit status."""
    asked = words_of(arguments)
    if asked.store or asked.empty_store:
        return show_store(asked.empty_store)
    if asked.background:
        return begin_in_background(arguments)
    way = Way.KEPT if asked.incremental else Way.RECEIPTS if asked.receipts else Way.NOTHING
    return make_program(way, asked.receipts)


def guarded(done: Callable[[], int]) -> int:
    """Does something, and returns its exit status, or that of a refusal, a signal or a fault of the system."""
    try:
        with signals():
            return done()
    except Refusal as refusal:
        say(refusal)
        return refusal.status
    except Interrupted as interrupted:
        say("interrupted; what was proved until then is kept")
        return 128 + interrupted.number
    except OSError as fault:
        say(f"the program was not built: {fault}")
        return NOT_BUILT


def print_sum() -> int:
    """Prints the sum of the program's sources."""
    print(sum_of_all())
    return 0


def adopt(before: str) -> int:
    """Takes what the merge gate proved since it asked for this sum."""
    def done() -> int:
        with alone(say):
            say(f"{adopt_all(before, Store(say))} crates are those that the gate proved")
        return 0

    return guarded(done)


def main(arguments: Sequence[str]) -> int:
    return guarded(lambda: answer(arguments))

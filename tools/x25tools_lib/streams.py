"""Standard streams, files and pipes by their names, and how SIGINT ends the reading."""
from __future__ import annotations

import contextlib
import errno
import io
import os
import pathlib
import signal
import stat
import sys
import tempfile
import time
from collections.abc import Callable, Iterator, Sequence
from types import FrameType
from typing import BinaryIO

from .packed import ENDING
from .progress import Progress
from .refusals import Refusal, Why
from .waking import WAKER

CHUNK = 1 << 18


def shown_name(name: str) -> str:
    """The name of a file in messages."""
    return "standard input" if name == "-" else name


def title_of(names: Sequence[str]) -> str:
    """The name of an input in an output."""
    return shown_name(pathlib.PurePath(names[0]).name) if len(names) == 1 else f"{len(names)} captures"


def stem_of(name: str) -> str:
    """The name of a file without its folder and its endings: day for day.pcap.gz."""
    return pathlib.PurePath(pathlib.PurePath(name).name.removesuffix(ENDING)).stem


def write_text(text: str) -> None:
    """Writes a text to standard output. Raises OSError where that is closed or fails."""
    if sys.stdout is None:
        raise OSError(errno.EBADF, os.strerror(errno.EBADF), "standard output")
    if isinstance(sys.stdout, io.TextIOWrapper):
        # The name of a file may have octets that are not valid characters.
        sys.stdout.reconfigure(errors="backslashreplace")
    try:
        sys.stdout.write(text)
        sys.stdout.flush()
    except OSError:
        # The rest cannot be written: Python must not try again at the end.
        os.dup2(os.open(os.devnull, os.O_WRONLY), sys.stdout.fileno())
        raise


def open_input(name: str) -> BinaryIO:
    """The stream of a file, or of standard input."""
    if name == "-":
        if sys.stdin is None:
            raise Refusal(Why.UNREADABLE, "standard input is closed")
        return sys.stdin.buffer
    if os.path.isdir(name):
        raise Refusal(Why.FOLDER, f"{name} is a folder: x25page --each {name} -o PAGES writes a page for each file in it")
    try:
        return open(name, "rb")
    except FileNotFoundError as fault:
        raise Refusal(Why.ABSENT, f"there is no file {name}") from fault
    except OSError as fault:
        raise Refusal(Why.UNREADABLE, f"{name}: {fault.strerror}") from fault


def is_pipe(name: str) -> bool:
    """Whether a file is a pipe: its octets come as they are written, and only once."""
    try:
        mode = os.fstat(sys.stdin.fileno()).st_mode if name == "-" else os.stat(name).st_mode
    except (OSError, AttributeError):
        return False
    return not stat.S_ISREG(mode) and not stat.S_ISDIR(mode)


def is_same(name: str | os.PathLike[str], other: str | os.PathLike[str]) -> bool:
    """Whether two names mean the same file."""
    try:
        return os.path.samefile(name, other)
    except OSError:
        return False


def is_open(descriptor: int) -> bool:
    """Whether a stream is open for writing, whether or not the disk is full."""
    try:
        os.write(descriptor, b"")
    except OSError as fault:
        return fault.errno != errno.EBADF
    return True


def is_terminal(descriptor: int) -> bool:
    """Whether a stream is a terminal."""
    try:
        return os.isatty(descriptor)
    except OSError:
        return False


@contextlib.contextmanager
def replaced(name: str) -> Iterator[BinaryIO]:
    """A file to write, which replaces one of that name once it is whole; a device or a pipe is written as it is."""
    if os.path.exists(name) and not os.path.isfile(name):
        with open(name, "wb") as out:
            yield out
        return
    descriptor, path = tempfile.mkstemp(prefix=".x25-", dir=os.path.dirname(os.path.realpath(name)))
    try:
        with open(descriptor, "wb") as out:
            yield out
        mask = os.umask(0)
        os.umask(mask)
        os.chmod(path, 0o666 & ~mask)
        os.replace(path, os.path.realpath(name))
    except BaseException:
        os.unlink(path)
        raise


def mute_errors() -> None:
    """Opens a replacement for a closed standard error, so that no file gets its number."""
    os.dup2(os.open(os.devnull, os.O_WRONLY), 2)
    sys.stderr = open(2, "w", encoding="ascii", errors="replace", closefd=False)


class Interrupted(Exception):
    """Ends the reading."""


# Signals within this number of seconds count as one: timeout sends its signal to its command, and then to its group.
TOGETHER = 0.25


def nothing() -> None:
    """The default of what is done before waiting: nothing."""


class Waiting:
    """Waiting for octets: what is done before it, and how SIGINT ends it: at once, else before more are read."""

    def __init__(self) -> None:
        self.before: Callable[[], object] = nothing
        # Whether a signal ended the reading, and when; whether the reading is over; whether the program waits for octets.
        self.interrupted = self.is_over = self.inside = False
        self.since = 0.0
        self.progress: Progress | None = None

    def handle(self, *numbers: signal.Signals) -> None:
        """Installs the handler that ends the reading."""
        WAKER.start()
        for number in numbers:
            signal.signal(number, self.interrupt)

    def interrupt(self, _number: int, _frame: FrameType | None) -> None:
        """The handler of the signal; a second one ends the program."""
        now = time.monotonic()
        if not self.interrupted:
            self.interrupted, self.since = True, now
            self.end()
        elif now - self.since > TOGETHER:
            raise KeyboardInterrupt

    def end(self) -> None:
        """Ends the reading."""
        self.is_over = True
        if self.inside:
            raise Interrupted

    def octets(self, stream: BinaryIO) -> bytes:
        """Returns the next octets as soon as there are any; none at the end."""
        self.before()
        self.inside = True
        try:
            if self.is_over:
                raise Interrupted
            while not WAKER.wait(stream.fileno()):
                pass
            octets: bytes = stream.read1(CHUNK)  # type: ignore[attr-defined]
        finally:
            self.inside = False
        if self.progress:
            self.progress.add(len(octets))
        return octets

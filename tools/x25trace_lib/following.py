"""x25scan --follow, which reads the trace while it is written; the signals that end the reading do not end it."""
from __future__ import annotations

import contextlib
import os
import signal
import subprocess
from collections.abc import Sequence
from types import FrameType
from typing import TextIO, cast

from x25tools_lib import scanner as programs
from x25tools_lib.streams import Waiting
from x25tools_lib.waking import WAKER

ENDINGS = (signal.SIGINT, signal.SIGTERM)


def shield() -> None:
    """Runs in the new process: a signal that ends the reading must not end the report."""
    for number in ENDINGS:
        signal.signal(number, signal.SIG_IGN)


class Follower:
    """A program x25scan that follows the trace, in its own session, so that Ctrl-C at the terminal does not reach it.

    `forms` has the options of x25scan for the form of its report.
    """

    def __init__(self, scanner: str | None, forms: Sequence[str], waiting: Waiting) -> None:
        self.waiting, self.name = waiting, scanner or programs.found("x25trace")
        waiting.handle(*ENDINGS)
        # If x25scan has ended, the next write fails.
        signal.signal(signal.SIGPIPE, signal.SIG_IGN)
        self.process = subprocess.Popen(
            [self.name, "--follow", *forms], stdin=subprocess.PIPE, encoding="ascii", start_new_session=True,
            preexec_fn=shield,
        )
        signal.signal(signal.SIGCHLD, self.look)
        self.look()

    @property
    def out(self) -> TextIO:
        """Where the trace is written."""
        return cast(TextIO, self.process.stdin)

    def look(self, _number: int = 0, _frame: FrameType | None = None) -> None:
        """The handler of SIGCHLD: ends the reading when x25scan has ended."""
        if self.process.poll() is not None:
            self.waiting.end()

    def end(self) -> int:
        """Ends the trace, and waits for the end of the report; returns the status, below 0 where a signal ended x25scan."""
        with contextlib.suppress(BrokenPipeError):
            self.out.close()
        # Its end raises SIGCHLD too.
        while (status := self.process.poll()) is None:
            WAKER.wait()
        return status

    def kill(self) -> None:
        """Kills x25scan where it runs, without a report."""
        if self.process.poll() is None:
            with contextlib.suppress(ProcessLookupError):
                os.killpg(self.process.pid, signal.SIGKILL)
            self.process.wait()
        with contextlib.suppress(BrokenPipeError):
            self.out.close()

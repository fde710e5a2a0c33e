"""A pipe into which each signal is written, so that a signal just before a call that waits is not missed."""
from __future__ import annotations

import contextlib
import os
import select
import signal

READABLE = select.POLLIN | select.POLLHUP | select.POLLERR | select.POLLNVAL


class Waker:
    """Waits for octets of a stream or for a signal that has a handler."""

    def __init__(self) -> None:
        self.reader: int | None = None

    def start(self) -> None:
        """Has signals write into the pipe from here on."""
        if self.reader is None:
            self.reader, writer = os.pipe()
            os.set_blocking(self.reader, False)
            os.set_blocking(writer, False)
            signal.set_wakeup_fd(writer, warn_on_full_buffer=False)

    def wait(self, stream: int | None = None) -> bool:
        """Waits until a stream has octets or has ended, or a signal has come. Returns whether it was the stream."""
        if self.reader is None:
            return True
        poll = select.poll()
        poll.register(self.reader, select.POLLIN)
        if stream is not None:
            poll.register(stream, READABLE)
        ready = [descriptor for descriptor, _ in poll.poll()]
        if self.reader in ready:
            with contextlib.suppress(BlockingIOError):
                os.read(self.reader, 1 << 12)
        return stream in ready


WAKER = Waker()

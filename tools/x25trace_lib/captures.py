"""The files of a capture: opens each, recognises its format by its first octets, and reads the frames in order."""
from __future__ import annotations

import contextlib
import os
from collections.abc import Iterator, Sequence

from x25tools_lib.choices import KINDS_TEXT
from x25tools_lib.ledger import Ledger, Reason, Topic
from x25tools_lib.refusals import Refusal, Why
from x25tools_lib.streams import Interrupted, Waiting, is_pipe, open_input, shown_name

from .frames import Dropped, Frame
from .hexdump import HexDump, is_dump
from .passing import is_next
from .pcap import MAGICS, Pcap
from .pcapng import MAGIC, Pcapng
from .snoop import MAGIC as SNOOP_MAGIC
from .snoop import Snoop
from .source import Source

LOOK = 1 << 16
COMPRESSED = {
    b"\x1f\x8b": "gzip -d",
    b"\x28\xb5\x2f\xfd": "zstd -d",
    b"\xfd7zXZ": "xz -d",
    b"BZh": "bzip2 -d",
    b"\x04\x22\x4d\x18": "lz4 -d",
    b"PK\x03\x04": "unzip",
}
BOMS_OF_UTF16 = (b"\xff\xfe", b"\xfe\xff")
# The octets of a text that a message shows.
SHOWN = 24
TURN = "editcap -F pcapng FILE OUT.pcapng"
# Other formats of recorded frames, which Wireshark reads.
OTHER_FORMS = {
    b"TRSNIFF data": "Sniffer",
    b"XCP\0": "NetXRay",
    b"RTSS": "Network Monitor",
    b"GMBU": "Network Monitor",
    b"\x1c\x00\x01\xac": "IXIA",
    b"\xac\x01\x00\x1c": "IXIA",
    b"\x1c\x00\x01\xab": "IXIA",
    b"\xab\x01\x00\x1c": "IXIA",
}


Form = Pcap | Pcapng | Snoop | HexDump


def form_of(source: Source, kinds: dict[int | None, str]) -> type[Form]:
    """The class that reads a file, by its first octets."""
    start = source.peek(len(MAGIC))
    if start in MAGICS:
        return Pcap
    if start == MAGIC:
        return Pcapng
    start = source.peek(LOOK)
    if not start:
        if source.damages:
            raise Refusal(Why.COMPRESSED, f"{source.name}: {source.damages[0]}")
        words = "a recorder may write nothing before it ends; tcpdump -U writes each frame at once"
        raise Refusal(Why.EMPTY, f"{source.name} has no octet: {words}")
    if start.startswith(SNOOP_MAGIC):
        return Snoop
    for magic, program in COMPRESSED.items():
        if start.startswith(magic):
            raise Refusal(Why.COMPRESSED, f"{source.name} is compressed; unpack it first with {program}")
    for magic, form in OTHER_FORMS.items():
        if start.startswith(magic):
            words = f"{source.name} is a {form} file"
            raise Refusal(Why.UNKNOWN_FORMAT, f"{words}; {TURN}, of Wireshark, turns it into one that is read")
    if is_next(source):
        words = f"{source.name} is a trace, which is read alone; docs/GUIDE.md says how several become one"
        raise Refusal(Why.UNKNOWN_FORMAT, words)
    if not is_dump(start):
        raise Refusal(Why.UNKNOWN_FORMAT, f"{source.name} is {unknown_form(start)}")
    if None not in kinds:
        words = f"{source.name}, a hex dump, does not say what it holds; --as KIND does: {KINDS_TEXT}"
        raise Refusal(Why.KIND_MISSING, words)
    return HexDump


def unknown_form(start: bytes) -> str:
    """What a file of another format is, by its first octets, and what to do with it."""
    if start.startswith(BOMS_OF_UTF16):
        return "a text in UTF-16; iconv -f UTF-16 -t ASCII FILE turns a trace or a hex dump into one that is read"
    words = f"no pcap, pcapng, snoop, hex dump or trace; it begins with {beginning(start)}"
    return words if words.endswith('"') else f"{words}; {TURN} turns what Wireshark opens"


def beginning(start: bytes) -> str:
    """The beginning of a file: the first words of a text, else octets in hex."""
    line = start.lstrip()[:SHOWN].partition(b"\n")[0].rstrip()
    if line and line.isascii() and line.decode("ascii").isprintable():
        return f'"{line.decode("ascii")}"'
    return start[:4].hex(" ").upper()


BINARY = (*MAGICS, MAGIC, SNOOP_MAGIC, *COMPRESSED, *OTHER_FORMS)


def is_trace(start: bytes) -> bool:
    """Whether a file that begins so is a trace, good or faulty, and not a capture."""
    lines = (line for line in start.split(b"\n") if not line.startswith(b"#"))
    if next(lines, b"").startswith(b"X25 "):
        return True
    is_binary = b"\0" in start or start.startswith(BINARY)
    return bool(start) and not is_binary and not is_dump(start)


class Captures:
    """The frames of files, numbered through all of them. The first file may be open, and looked at."""

    def __init__(
        self, names: Sequence[str], kinds: dict[int | None, str], ledger: Ledger, waiting: Waiting,
        first: Source | None = None,
    ) -> None:
        self.names, self.kinds, self.ledger, self.waiting, self.first = names, kinds, ledger, waiting, first
        self.several = len(names) > 1
        self.number = 0
        # The time of the last frame that was read, where the capture has it.
        self.time: int | None = None

    def frames(self) -> Iterator[Frame | Dropped]:
        """The frames of all files, up to an interruption, and the places where frames were dropped."""
        try:
            if self.several:
                self.check()
            for name in self.names:
                if self.several:
                    self.ledger.file = os.path.basename(shown_name(name))
                    self.ledger.note(f"frames from {self.number + 1} on are of {os.path.basename(name)}")
                yield from self.frames_of(name)
            self.ledger.file = ""
        except Interrupted:
            if not self.waiting.interrupted:
                raise
            words = f"interrupted: the trace is of what was read before, {self.number} frames"
            self.ledger.report(Topic.INTERRUPTED, words)

    def check(self) -> None:
        """Refuses a file that is not a capture, before anything is read; a pipe cannot be looked at twice."""
        for name in self.names:
            if name != "-" and not is_pipe(name):
                with open_input(name) as stream:
                    form_of(Source(stream, self.waiting, shown_name(name), False), self.kinds)

    def frames_of(self, name: str) -> Iterator[Frame | Dropped]:
        with self.opened(name) as form:
            frame, before = None, self.time
            for frame in form.frames():
                if before is not None:
                    self.compare(name, frame.time, before)
                    before = None
                self.number = frame.number
                yield frame
            self.number = form.number
            if frame:
                self.time = frame.time

    def compare(self, name: str, time: int | None, before: int) -> None:
        """Reports a file that begins before the previous one ends; a recorder without a clock writes 0."""
        if time and time < before:
            words = f"{os.path.basename(name)} begins before the file before it ends"
            self.ledger.report(Topic.ORDER, f"{words}: give the files in the order of their times, or join them with mergecap")

    def forms(self) -> Iterator[Form]:
        """The reader of each file, open while it is used; the numbers of frames continue from the previous file."""
        for name in self.names:
            with self.opened(name) as form:
                yield form
                self.number = form.number

    @contextlib.contextmanager
    def opened(self, name: str) -> Iterator[Form]:
        """Returns the reader of a file."""
        with contextlib.ExitStack() as held:
            source, self.first = self.first, None
            if source is None:
                stream = held.enter_context(open_input(name))
                source = Source(stream, self.waiting, shown_name(name), self.several)
            yield form_of(source, self.kinds)(source, self.ledger, self.number)
            for words in source.damages:
                self.ledger.damaged(Reason.BAD_FILE, f"{source.name}: {words}")

"""Cases of several captures that are read as one: parts of a capture, and files that do not follow each other."""
from __future__ import annotations

import contextlib
import pathlib
import struct
import tempfile
from collections.abc import Iterator, Mapping, Sequence

import calls
import forms
import runner
from tracer import written_of

FILES = runner.ROOT / "tests" / "captures" / "files"
# The octets of the header of a pcap file, those of each record before its frame, by the number with which the file begins,
# and the order of its numbers.
HEADER = 24
RECORDS = {
    b"\xa1\xb2\xc3\xd4": (16, ">"), b"\xd4\xc3\xb2\xa1": (16, "<"), b"\xa1\xb2\x3c\x4d": (16, ">"), b"\x4d\x3c\xb2\xa1": (16, "<"),
    b"\xa1\xb2\xcd\x34": (24, ">"), b"\x34\xcd\xb2\xa1": (24, "<"),
}
MERGE = "mergecap -a -w all.pcapng FILE.. joins captures of any format and link type"
ALONE = "the parts of one trace: awk '!/^X25 / || !n++' FILE.. | x25scan"
SAVE = "files that follow each other are read twice: save what it gives to a file"
TOGETHER = "files that follow each other are read together, or none of them"
STANDARD = b"error: standard input is read alone: name each capture, in the order of their times\n"


def records_of(octets: bytes) -> list[bytes]:
    """The records of a pcap file; none where they are not those that its header says."""
    size, order = RECORDS[octets[:4]]
    records, at = [], HEADER
    while at < len(octets):
        if at + size > len(octets):
            return []
        end = at + size + struct.unpack_from(f"{order}I", octets, at + 8)[0]
        if end > len(octets):
            return []
        records.append(octets[at:end])
        at = end
    return records


def parts_of(octets: bytes) -> list[bytes]:
    """A pcap file in parts, each with the header and some of the records, of which one has none; its snap length differs."""
    header, records = octets[:HEADER], records_of(octets)
    ends = [0, len(records) // 3, len(records) // 3, len(records) * 2 // 3, len(records)]
    parts = [header + b"".join(records[begin:end]) for begin, end in zip(ends, ends[1:])]
    return [parts[0], *(part[:16] + bytes(4) + part[20:] for part in parts[1:])]


@contextlib.contextmanager
def written(files: Mapping[str, bytes]) -> Iterator[pathlib.Path]:
    """A folder with files of these names."""
    with tempfile.TemporaryDirectory() as folder:
        for name, octets in files.items():
            pathlib.Path(folder, name).write_bytes(octets)
        yield pathlib.Path(folder)


def read(words: Sequence[str | pathlib.Path], files: Mapping[str, bytes]) -> runner.Outcome:
    """The outcome of a program that reads files of these names in their order."""
    with written(files) as folder:
        return runner.run([*words, *files], cwd=folder)


def part_problems(scanner: str, octets: bytes) -> Iterator[str]:
    """How what is printed of the parts of a capture differs from what is printed of the capture."""
    parts = {f"day.pcap{number}": part for number, part in enumerate(parts_of(octets))}
    for words in (("--trace",), ("--json", "--alone"), ("--follow",)):
        whole = read([scanner, *words], {"day.pcap0": octets})
        yield from runner.differences(read([scanner, *words], parts), whole)


def rows_of(trace: str) -> str:
    """The rows of a trace, each with its time and its frame."""
    return "\n".join(line for line in trace.splitlines() if line.startswith("#@ ") or not line.startswith(("#", "X25 ")))


def traced_problems(scanner: str, files: Mapping[str, bytes]) -> Iterator[str]:
    """How the rows of several captures differ from those of x25trace."""
    with written(files) as folder:
        expected = rows_of(written_of(*(folder / name for name in files)).trace)
        got = runner.run([scanner, "--trace", *files], cwd=folder)
    yield from runner.first_difference("rows", rows_of(got.output.decode()), expected)
    if not expected:
        yield "x25trace gave no row"


def blocks_of(link: int, *parts: Sequence[bytes]) -> dict[str, bytes]:
    """The pcapng files of a capture in parts, each a section with one interface."""
    blocks = [forms.section() + forms.interface(link) + b"".join(map(forms.enhanced, frames)) for frames in parts]
    return {f"day.{number}.pcapng": octets for number, octets in enumerate(blocks)}


def refused(name: str, files: Mapping[str, bytes | None], line: str, advice: str, *more: str, status: int = 3) -> runner.RunCase:
    """A case of files of which one does not follow; `more` are names of files that are not there."""
    first = next(iter(files), *more[:1])
    said = f"x25scan: {line}\nx25scan: cannot open {first}: the files after it don't continue it\n  {advice}\n"
    return runner.RunCase(name, (*files, *more), b"", status, b"", said.encode(), files=dict(files))


def refusals() -> Iterator[runner.RunCase]:
    """Files that do not follow each other, each with why."""
    frames = [forms.ethernet(one) for one in calls.conversation()]
    talk = forms.pcap(1, frames)
    one = {"a.pcap": talk}
    trace = (FILES / "ethernet.trace").read_bytes()
    yield refused("a capture of another link type", {**one, "b.pcap": forms.pcap(113, frames)}, "b.pcap: another link type than a.pcap", MERGE)
    yield refused("a capture of another byte order", {**one, "b.pcap": forms.pcap(1, frames, ">")}, "b.pcap: another format than a.pcap", MERGE)
    yield refused("a capture of another resolution", {**one, "b.pcap": forms.pcap(1, frames, nano=True)}, "b.pcap: another format than a.pcap", MERGE)
    yield refused("a capture of another format", {**one, **blocks_of(1, frames)}, "day.0.pcapng: another format than a.pcap", MERGE)
    yield refused("a capture after one of blocks", {**blocks_of(1, frames), **one}, "a.pcap: another format than day.0.pcapng", MERGE)
    yield refused("the last one differs", {**one, "b.pcap": talk, "c.pcap": forms.pcap(113, frames)}, "c.pcap: another link type than a.pcap", MERGE)
    yield refused("a trace after a capture", {**one, "b.trace": trace}, "b.trace: no pcap or pcapng file", ALONE)
    yield refused("a trace before a capture", {"a.trace": trace, **one}, "a.trace: no pcap or pcapng file", ALONE)
    yield refused("two traces", {"a.trace": trace, "b.trace": trace}, "a.trace: no pcap or pcapng file", ALONE)
    yield refused("an empty file after a capture", {**one, "b.pcap": b""}, "b.pcap: no pcap or pcapng file", ALONE)
    yield refused("a header that is cut off", {**one, "b.pcap": talk[: HEADER - 1]}, "b.pcap: no pcap or pcapng file", ALONE)
    yield refused("a capture that is not there", one, "b.pcap: no such file", TOGETHER, "b.pcap")
    yield refused("a folder after a capture", {**one, "b": None}, "b: it is a directory", TOGETHER)
    yield refused("standard input after a capture", one, "-: a pipe", SAVE, "-")
    yield runner.RunCase("standard input before a capture", ("-", "a.pcap"), talk, 64, b"", STANDARD, files=one)
    missing = b"x25scan: cannot open b.pcap: no such file\n  No such file or directory (os error 2)\n"
    yield runner.RunCase("the first capture is not there", ("b.pcap", "a.pcap"), b"", 3, b"", missing, files=one)


def cases(scanner: str) -> Iterator[runner.Case]:
    """All cases."""
    for path in sorted(FILES.glob("*.pcap")):
        octets = path.read_bytes()
        if octets[:4] in RECORDS and records_of(octets):
            yield runner.Case(f"parts of {path.name}", part_problems, scanner, octets)
    frames = [forms.ethernet(one) for one in calls.conversation()]
    yield runner.Case("a capture in three", traced_problems, scanner, {f"day.pcap{at}": forms.pcap(1, frames[at: at + 4], begin=at) for at in range(0, len(frames), 4)})
    yield runner.Case("a capture of blocks in three", traced_problems, scanner, blocks_of(1, frames[:3], frames[3:4], frames[4:]))
    for case in refusals():
        yield case.of(scanner)

"""The crates of the repository, their sources, what each uses, and the kit that proves them."""
from __future__ import annotations

import functools
import os
import pathlib
import re
import shutil
import sys
from collections.abc import Iterator, Mapping

ROOT = pathlib.Path(__file__).resolve().parent.parent.parent
CRATES = ROOT / "crates"
PROGRAM_NAME = "x25scan"
PROGRAM = CRATES / PROGRAM_NAME / "out" / PROGRAM_NAME
OUT = ROOT / "out"
LIBRARIES, FRESH = OUT / "libraries", OUT / "fresh"
PARTS = ("src", "specs", "proofs")
# The most memory that the proof of one crate needs, in bytes, and what each further processor for it needs.
MEMORY, MORE_MEMORY = 3_000_000_000, 1_500_000_000


class Refusal(Exception):
    """What is said in place of a result, and the exit status."""

    def __init__(self, text: str, status: int) -> None:
        super().__init__(text)
        self.status = status


def say(text: object) -> None:
    print(f"x25scan: {text}", file=sys.stderr, flush=True)


@functools.cache
def kit() -> pathlib.Path:
    """The folder of the kit whose rt is on the path."""
    found = shutil.which("rt")
    if not found:
        say("rt is not on the path: the program is proved and built by its kit")
        sys.exit(3)
    return pathlib.Path(found).resolve().parent.parent


@functools.cache
def lines() -> dict[str, str]:
    """The line of each crate of crates.txt."""
    found = [line for line in (ROOT / "crates.txt").read_text().split("\n") if line and line[0] != "#"]
    return {line.partition(":")[0].split()[0]: line for line in found}


def uses() -> dict[str, list[str]]:
    """The libraries that each crate of crates.txt names, the kit's among them."""
    return {name: line.partition(":")[2].split() for name, line in lines().items()}


def libraries(*above: str) -> dict[str, set[str]]:
    """The repository's libraries that crates use, each with those below it, lowest first."""
    used = uses()

    @functools.cache
    def below(name: str) -> frozenset[str]:
        mine = [it for it in used[name] if it in used]
        return frozenset(mine).union(*map(below, mine))

    found = {name: set(below(name)) for name in set().union(*map(below, above))}
    return dict(sorted(found.items(), key=lambda it: (len(it[1]), it[0])))


def files_below(folder: str) -> Iterator[os.DirEntry[str]]:
    """The files of a folder and of those below it; none where there is no folder."""
    try:
        entries = list(os.scandir(folder))
    except FileNotFoundError:
        return
    for entry in entries:
        if entry.is_dir():
            yield from files_below(entry.path)
        elif entry.is_file():
            yield entry


def source_entries(name: str) -> Iterator[os.DirEntry[str]]:
    """The files that the proof of a crate reads, as the system lists them."""
    for part in PARTS:
        yield from files_below(str(CRATES / name / part))


def sources(name: str) -> list[pathlib.Path]:
    """The files that the proof of a crate reads."""
    return [pathlib.Path(it.path) for it in source_entries(name)]


def weights(below: Mapping[str, set[str]]) -> dict[str, int]:
    """The lines of each crate's sources, which say about how long its proof takes."""
    return {name: sum(it.read_bytes().count(b"\n") for it in sources(name)) for name in below}


def chains(below: Mapping[str, set[str]], length: Mapping[str, int]) -> dict[str, int]:
    """For each library the weight of it and of the longest chain of libraries above it."""
    found: dict[str, int] = {}
    for name in reversed(list(below)):
        found[name] = length[name] + max((found[it] for it in found if name in below[it]), default=0)
    return found


def slots() -> int:
    """How many processors may prove at once."""
    free = re.search(r"MemAvailable:\s+(\d+)", pathlib.Path("/proc/meminfo").read_text())
    room = 1024 * int(free[1]) // MEMORY if free else 1
    return max(1, min(len(os.sched_getaffinity(0)), room))

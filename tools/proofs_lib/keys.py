"""What a library or the program is built from, as one sum: its key. A record beside what is built has its key.

The key is of the kit, the words of the build, the line of crates.txt, the sources, and the sums of the built libraries
below. A comment changes the key of its own crate and, since the built library stays the same, no key above. File times
don't count, so an old library that is copied over a newer one is refused.
"""
from __future__ import annotations

import contextlib
import enum
import functools
import hashlib
import json
import os
import pathlib
import shutil
from collections.abc import Iterator, Mapping
from dataclasses import asdict, dataclass, field

from .repository import CRATES, LIBRARIES, OUT, PROGRAM, PROGRAM_NAME, kit, libraries, lines, source_entries
from .sums import Sums, signature, sum_of_file, sum_of_text, write_whole

# Changes with what a key is made of, and with the words of the prover that WORDS does not have.
FORM = 1


class Way(enum.Enum):
    """How a library was proved. Each way has a folder of its own, so that none passes for another."""

    NOTHING = "from nothing"
    KEPT = "over kept work"
    RECEIPTS = "by receipts"


# What each way says to the kit's `rattle build`, apart from places.
WORDS = {Way.NOTHING: ("--statements",), Way.RECEIPTS: ("--statements",), Way.KEPT: ("--incremental",)}
PROGRAM_WORDS = ("--backend", "llvm")
FOLDERS = {Way.NOTHING: LIBRARIES, Way.KEPT: OUT / "kept" / "libraries", Way.RECEIPTS: OUT / "receipts" / "libraries"}


@dataclass(frozen=True)
class Record:
    """What stands beside something built: its key, the sum of its content, how it was proved, and the kit.

    The program's record also has the key and the sum of each library below it.
    """

    key: str
    sum: str
    way: str
    kit: str
    below: dict[str, list[str]] = field(default_factory=dict)

    def write(self, path: pathlib.Path) -> None:
        write_whole(path, (json.dumps(asdict(self), indent=1) + "\n").encode())


def read_record(path: pathlib.Path) -> Record | None:
    """The record of a file, or none where there is no whole one."""
    try:
        found = Record(**json.loads(path.read_text()))
        Way(found.way)
        return found
    except (OSError, ValueError, TypeError):
        return None


@dataclass(frozen=True)
class Shelf:
    """The libraries that were built in one way."""

    way: Way

    @property
    def folder(self) -> pathlib.Path:
        return FOLDERS[self.way]

    def library(self, name: str) -> pathlib.Path:
        return self.folder / f"{name}.rlib"

    def record_path(self, name: str) -> pathlib.Path:
        return self.folder / f"{name}.key"

    def built(self, name: str, key: str) -> str | None:
        """The sum of a library that was built of a key, or none where it is not, or is another than its record says."""
        record = read_record(self.record_path(name))
        is_same = record and record.key == key and record.way == self.way.value
        return record.sum if record and is_same and library_sum(self.library(name)) == record.sum else None

    def remove(self, name: str) -> None:
        """Removes a library; its record goes first, so nothing half stands for it."""
        self.record_path(name).unlink(missing_ok=True)
        shutil.rmtree(self.library(name), ignore_errors=True)

    def put(self, name: str, fresh: pathlib.Path, record: Record) -> None:
        """Puts a library in its place, with its record."""
        self.folder.mkdir(parents=True, exist_ok=True)
        self.remove(name)
        os.rename(fresh, self.library(name))
        record.write(self.record_path(name))


PROVED = Shelf(Way.NOTHING)


def library_sum(library: pathlib.Path) -> str | None:
    """The sum of its files that a built library has in the last line of its format."""
    with contextlib.suppress(OSError), open(library / "format", "rb") as file:
        file.seek(max(0, os.fstat(file.fileno()).st_size - 200))
        word, _, found = file.read().rstrip().rpartition(b"\n")[2].partition(b" ")
        return found.decode() if word == b"sum" else None
    return None


def kit_files() -> Iterator[pathlib.Path]:
    """The files that say which kit this is: what proves, compiles and links, and the sums of its libraries."""
    top = kit()
    names = ("KIT-ID", "bin/rattle", "bin/rattle-link", "toolchain/bin/clang", "c/libos_c.a", "c/liblibc_c.a")
    yield from (it for it in (top / name for name in names) if it.is_file())
    yield from sorted((top / "rlibs").glob("*/format"))


class Keys:
    """The keys of the sources as they are now."""

    def __init__(self, *above: str, kit_sum: str | None = None) -> None:
        self.below = libraries(*above)
        self.sums = Sums(OUT / "sums.json")
        self.kit = kit_sum or self.sum_of_kit()

    def sum_of_kit(self) -> str:
        top = kit()
        return sum_of_text(json.dumps([[str(it.relative_to(top)), self.sums.of(str(it.resolve()), it.stat())] for it in kit_files()]))

    def sum_of_sources(self, name: str) -> str:
        """The sum of a crate's sources and of its line of crates.txt."""
        start = len(str(CRATES / name)) + 1
        found = sorted((it.path[start:], self.sums.of(it.path, it.stat())) for it in source_entries(name))
        return sum_of_text(json.dumps([lines()[name], found]))

    def of(self, name: str, words: tuple[str, ...], sums: Mapping[str, str]) -> str:
        """The key of a crate that is built with some words over libraries with these sums."""
        below = sorted((it, sums[it]) for it in libraries(name))
        return sum_of_text(json.dumps([FORM, self.kit, name, words, self.sum_of_sources(name), below]))

    def of_library(self, name: str, way: Way, sums: Mapping[str, str]) -> str:
        return self.of(name, WORDS[way], sums)

    def of_program(self, way: Way, sums: Mapping[str, str]) -> str:
        return self.of(PROGRAM_NAME, (*PROGRAM_WORDS, *WORDS[way]), sums)


def state_of_sources(name: str) -> str:
    """What the system says of a crate's sources: it differs if one was written in between, be it with the same bytes."""
    found = sorted((it.path, *signature(it.stat())) for it in source_entries(name))
    return hashlib.sha256(repr(found).encode()).hexdigest()


def program_record_path() -> pathlib.Path:
    return PROGRAM.with_name(f"{PROGRAM_NAME}.key")


@functools.cache
def has_kit() -> bool:
    return shutil.which("rt") is not None


def is_of(record: Record, keys: Keys) -> bool:
    """Whether the program with a record would be built of the sources as they are now."""
    way, sums = Way(record.way), dict[str, str]()
    for name in keys.below:
        key, found = record.below.get(name, ["", ""])
        if key != keys.of_library(name, way, sums):
            return False
        sums[name] = found
    return record.key == keys.of_program(way, sums)


def program_way() -> Way | None:
    """How the program was proved that is built of these sources, or none where there is no such program.

    Where the kit is not on the path, the program is of the kit that it was built with.
    """
    record = read_record(program_record_path())
    if record is None or not PROGRAM.is_file() or sum_of_file(PROGRAM) != record.sum:
        return None
    keys = Keys(PROGRAM_NAME, kit_sum=None if has_kit() else record.kit)
    found = Way(record.way) if is_of(record, keys) else None
    keys.sums.save()
    return found

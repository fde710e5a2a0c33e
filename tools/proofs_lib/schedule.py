"""A build: which crate is next, on how many processors, and whether it is proved or was built already.

Libraries that do not stand on each other are proved side by side, as many as there are processors and memory for, and
first those with the longest chain of others above them. Whether a library is built is known once those below it are,
since its key has their sums: a library whose sources and whose libraries below are the same is not proved again.
"""
from __future__ import annotations

import os
import pathlib
import shutil
import sys
import threading
from collections.abc import Callable
from dataclasses import dataclass

from . import prover
from .keys import PROVED, Keys, Record, Shelf, Way, library_sum, program_record_path, read_record, state_of_sources
from .progress import LINES_OF_PROGRAM, Progress
from .receipts import Receipts
from .repository import FRESH, MEMORY, MORE_MEMORY, PROGRAM, PROGRAM_NAME, chains, slots, weights
from .store import Store
from .sums import sum_of_file

# One crate gains nothing from more processors than these.
MOST_JOBS = 4
# How a crate was made.
NEWLY, BEFORE, FROM_STORE, BY_RECEIPT, UNCHANGED = "proved", "proved before", "from the store", "built by its receipt", "unchanged"
CHANGED = "a source of it changed while it was proved; run this again"


class Failed(Exception):
    """What the prover said of a crate that it didn't prove or build."""


def link_or_copy(source: str, to: str) -> None:
    try:
        os.link(source, to)
    except OSError:
        shutil.copy2(source, to)


def copy_linked(source: pathlib.Path, to: pathlib.Path) -> None:
    """Copies a built library, whose files no one writes again, by links."""
    shutil.copytree(source, to, copy_function=link_or_copy)


@dataclass(frozen=True)
class Job:
    """What is to be made: a crate, its key, its key when it is proved from nothing, and what the system says of its sources."""

    name: str
    key: str
    proved_key: str
    sources: str
    processors: int


class Maker:
    """Makes a library or the program: takes it of what was proved, or proves it. Each call returns how it was made."""

    def __init__(self, shelf: Shelf, kit: str, store: Store, receipts: Receipts | None, proving: Callable[[str], None]) -> None:
        self.shelf, self.kit, self.store, self.receipts, self.proving = shelf, kit, store, receipts, proving

    def library(self, job: Job) -> tuple[str, str]:
        """Puts a library in its place. Returns its sum, and how it was made."""
        fresh = prover.fresh_place(job.name)
        how = self.taken(job, fresh) or self.proved(job, fresh)
        found = library_sum(fresh)
        if found is None:
            raise Failed(f"the kit wrote no library of {job.name}, or one without a sum")
        self.shelf.put(job.name, fresh, Record(job.key, found, self.shelf.way.value, self.kit))
        self.keep(job, how, self.shelf.library(job.name), found)
        return found, how

    def program(self, job: Job, below: dict[str, list[str]]) -> str:
        """Puts the program in its place, with its record. Returns how it was made."""
        fresh = prover.fresh_place(PROGRAM_NAME)
        how = FROM_STORE if self.store.take(PROGRAM_NAME, job.proved_key, fresh, sum_of_file) else self.proved(job, fresh)
        record = Record(job.key, sum_of_file(fresh), self.shelf.way.value, self.kit, below)
        program_record_path().unlink(missing_ok=True)
        os.replace(fresh, PROGRAM)
        record.write(program_record_path())
        self.keep(job, how, PROGRAM, record.sum)
        return how

    def keep(self, job: Job, how: str, built: pathlib.Path, found: str) -> None:
        """Keeps in the store what was proved from nothing."""
        if how == NEWLY and self.shelf.way is Way.NOTHING:
            self.store.put(job.name, job.key, built, found)

    def taken(self, job: Job, fresh: pathlib.Path) -> str | None:
        """Takes a library that was proved from nothing, here or in another clone."""
        if self.shelf.way is not Way.NOTHING and PROVED.built(job.name, job.proved_key):
            copy_linked(PROVED.library(job.name), fresh)
            return BEFORE
        return FROM_STORE if self.store.take(job.name, job.proved_key, fresh, library_sum) else None

    def proved(self, job: Job, fresh: pathlib.Path) -> str:
        """Proves and builds a crate, by its receipt where there is one of its sources."""
        receipt = self.receipts.receipt(job.name, job.key) if self.receipts else None
        if receipt:
            is_built, said = prover.build_checked(job.name, receipt, self.shelf, fresh)
        else:
            self.proving(job.name)
            is_built, said = prover.prove(job.name, job.processors, self.shelf, fresh)
        if is_built and job.sources != state_of_sources(job.name):
            is_built, said = False, CHANGED
        if not is_built:
            shutil.rmtree(fresh, ignore_errors=True)
            raise Failed(said)
        return BY_RECEIPT if receipt else NEWLY


class Build:
    """The libraries that are left, those being made, with their processors, and the keys and sums of those that are built."""

    def __init__(self, way: Way, store: Store, progress: Progress, *above: str, receipts: Receipts | None = None) -> None:
        self.shelf, self.store, self.progress = Shelf(way), store, progress
        self.keys = Keys(*above)
        self.below, self.slots = self.keys.below, slots()
        self.maker = Maker(self.shelf, self.keys.kit, store, receipts, self.proving)
        self.weight = weights(self.below)
        chain = chains(self.below, self.weight)
        self.left = sorted(self.below, key=lambda it: -chain[it])
        self.key: dict[str, str] = {}
        self.sum: dict[str, str] = {}
        self.running: dict[str, int] = {}
        self.failed: dict[str, str] = {}
        self.turn = threading.Condition()

    def ready(self) -> list[str]:
        """The libraries that can be made, those with the longest chains above them first."""
        return [it for it in self.left if self.below[it] <= self.sum.keys()]

    def settle(self) -> list[str]:
        """Finds the libraries that are built already. Returns those that can be made."""
        while True:
            ready = self.ready()
            for name in ready:
                self.key[name] = self.keys.of_library(name, self.shelf.way, self.sum)
                found = self.shelf.built(name, self.key[name])
                if found:
                    self.sum[name] = found
                    self.left.remove(name)
                    if name in self.progress.left:
                        self.progress.end(name, UNCHANGED)
            if not any(it in self.sum for it in ready):
                return ready

    def jobs(self, ready: list[str]) -> int:
        """How many processors the first library that is ready gets: its share of the idle ones, where memory is free for them."""
        idle = self.slots - sum(self.running.values())
        free = self.slots * MEMORY - sum(MEMORY + (it - 1) * MORE_MEMORY for it in self.running.values())
        return min(MOST_JOBS, max(idle // len(ready), 1), 1 + max(free - MEMORY, 0) // MORE_MEMORY) if idle else 0

    def proving(self, name: str) -> None:
        with self.turn:
            self.progress.proving(name)

    def work(self, job: Job) -> None:
        """Makes one library, and reports that it is done."""
        try:
            found, how = self.maker.library(job)
            failed = None
        except Exception as fault:
            failed = str(fault)
        with self.turn:
            del self.running[job.name]
            if failed is None:
                self.key[job.name], self.sum[job.name] = job.key, found
                self.progress.end(job.name, how)
            else:
                self.failed[job.name] = failed
            self.turn.notify()

    def job(self, name: str, processors: int) -> Job:
        """What is to be made of a library. Its sources are looked at before its key is made, and again after its proof."""
        sources = state_of_sources(name)
        key, proved_key = (self.keys.of_library(name, way, self.sum) for way in (self.shelf.way, Way.NOTHING))
        return Job(name, key, proved_key, sources, processors)

    def begin(self) -> None:
        """Begins the libraries that can be made."""
        while not self.failed and (ready := self.settle()) and (processors := self.jobs(ready)):
            name = ready[0]
            self.left.remove(name)
            self.running[name] = processors
            threading.Thread(target=self.work, args=(self.job(name, processors),)).start()

    def make_libraries(self, *also: str) -> dict[str, str]:
        """Makes all libraries, and returns the output of those that failed, by name."""
        with self.turn:
            self.settle()
            self.progress.begin({it: self.weight.get(it, LINES_OF_PROGRAM) for it in [*self.left, *also]})
            try:
                self.begin()
                while self.running:
                    self.turn.wait(1)
                    self.begin()
            except BaseException:
                prover.CHILDREN.end_all()
                raise
        self.keys.sums.save()
        return self.failed

    def make_program(self) -> dict[str, str]:
        """Makes the program over its libraries, and returns the output where that failed."""
        sources = state_of_sources(PROGRAM_NAME)
        key, proved_key = (self.keys.of_program(way, self.sum) for way in (self.shelf.way, Way.NOTHING))
        below = {name: [self.key[name], self.sum[name]] for name in self.below}
        record = read_record(program_record_path())
        try:
            if record and record.key == key and record.way == self.shelf.way.value and PROGRAM.is_file() and sum_of_file(PROGRAM) == record.sum:
                Record(key, record.sum, record.way, self.keys.kit, below).write(program_record_path())
                how = UNCHANGED
            else:
                how = self.maker.program(Job(PROGRAM_NAME, key, proved_key, sources, self.slots), below)
        except (Failed, OSError) as fault:
            return {PROGRAM_NAME: str(fault)}
        except BaseException:
            prover.CHILDREN.end_all()
            raise
        self.progress.end(PROGRAM_NAME, how)
        self.keys.sums.save()
        return {}


def remove_left() -> None:
    """Removes what runs that were killed have left; no other run builds now."""
    for place in FRESH.glob("*"):
        shutil.rmtree(place, ignore_errors=True)
        place.unlink(missing_ok=True)


def report(failed: dict[str, str]) -> None:
    """Prints the end of what the prover said of the crates that failed."""
    sys.stderr.writelines(line + "\n" for said in failed.values() for line in said.split("\n")[-60:])

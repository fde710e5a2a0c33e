"""What the merge gate proved becomes what is built here, so that nothing of it is proved again.

`rt ci` leaves each library and the program in the crate's out/, and no sum of what they are made of. So the gate asks for
the sum of all sources before it proves, and names it afterwards: only where the sources are still those, is it taken.
"""
from __future__ import annotations

import pathlib
import shutil

from . import prover
from .keys import PROVED, Keys, Record, library_sum, program_record_path, read_record, state_of_sources
from .repository import CRATES, PROGRAM, PROGRAM_NAME, Refusal
from .schedule import copy_linked
from .store import Store
from .sums import sum_of_file, sum_of_text

NOT_THESE = 3


def sum_of_all() -> str:
    """The sum of the kit and of all that the program is proved of, and what the system says of these files."""
    keys = Keys(PROGRAM_NAME)
    names = [*keys.below, PROGRAM_NAME]
    return sum_of_text(repr([keys.kit, [[it, keys.sum_of_sources(it), state_of_sources(it)] for it in names]]))


def left_library(name: str) -> pathlib.Path:
    """Where `rt ci` leaves a library."""
    return CRATES / name / "out" / "rlib" / f"{name}.rlib"


def adopt_library(name: str, key: str, kit: str, store: Store) -> str:
    """Takes a library that the gate left. Returns its sum."""
    found = library_sum(left_library(name))
    if found is None:
        raise Refusal(f"there is no library {left_library(name)}: ./check --gate leaves one", NOT_THESE)
    if PROVED.built(name, key) != found:
        fresh = prover.fresh_place(name)
        shutil.rmtree(fresh, ignore_errors=True)
        copy_linked(left_library(name), fresh)
        PROVED.put(name, fresh, Record(key, found, PROVED.way.value, kit))
    store.put(name, key, PROVED.library(name), found)
    return found


def adopt(before: str, store: Store) -> int:
    """Takes the libraries and the program that the gate left. Returns how many crates were taken."""
    if sum_of_all() != before:
        raise Refusal("a source changed since the gate began, so nothing of it is taken", NOT_THESE)
    keys = Keys(PROGRAM_NAME)
    key: dict[str, str] = {}
    found: dict[str, str] = {}
    for name in keys.below:
        key[name] = keys.of_library(name, PROVED.way, found)
        found[name] = adopt_library(name, key[name], keys.kit, store)
    if not PROGRAM.is_file():
        raise Refusal(f"there is no program {PROGRAM}: ./check --gate leaves one", NOT_THESE)
    below = {name: [key[name], found[name]] for name in keys.below}
    record = Record(keys.of_program(PROVED.way, found), sum_of_file(PROGRAM), PROVED.way.value, keys.kit, below)
    if read_record(program_record_path()) != record:
        record.write(program_record_path())
    store.put(PROGRAM_NAME, record.key, PROGRAM, record.sum)
    keys.sums.save()
    return len(found) + 1

#!/usr/bin/env python3
"""build_program.py [--sum | --adopt SUM]: proves and builds the program, unless it is built of these sources, as bin/x25prove does.

With --sum it prints the sum of the program's sources, and with --adopt SUM it takes the libraries and the program that
`rt ci` has proved since then, if the sources are still those: so ./check --gate calls it before and after `rt ci`.

Other tools ask here which libraries there are, whether the program is of these sources, and for libraries that are
proved. What is made of a library is what crates above it can cite, its statements and not its proofs, which each crate
above would read again. It stands in out/ at the top, which `rt` does not touch: it keeps its own in the out/ of each crate.
"""
from __future__ import annotations

import pathlib
import sys
from collections.abc import Iterable, Sequence

sys.dont_write_bytecode = True

from proofs_lib.keys import Way, program_way  # noqa: E402
from proofs_lib.prover import library, rattle, run  # noqa: E402
from proofs_lib.repository import CRATES, FRESH, LIBRARIES, OUT, PROGRAM, ROOT, kit, libraries, say, slots, sources, uses  # noqa: E402

__all__ = (
    "CRATES", "FRESH", "LIBRARIES", "OUT", "PROGRAM", "ROOT", "Way", "build_libraries", "is_older", "is_stale",
    "kit", "libraries", "library", "program_way", "rattle", "run", "say", "slots", "sources", "uses",
)


def is_older(file: pathlib.Path, others: Iterable[pathlib.Path]) -> bool:
    """Whether a file is not there, or older than one of the others."""
    if not file.exists():
        return True
    made = file.stat().st_mtime
    return any(it.stat().st_mtime > made for it in others)


def is_stale() -> bool:
    """Whether no program is built that was proved of these sources. `program_way` says how it was proved."""
    return program_way() is None


def build_libraries(*above: str) -> bool:
    """Proves and builds the missing libraries of crates, and returns whether all are there; waits for another build."""
    from proofs_lib.command import make_libraries

    return make_libraries(*above)


def main(arguments: Sequence[str]) -> int:
    from proofs_lib import command

    if not arguments:
        return command.main([])
    if arguments == ["--sum"]:
        return command.print_sum()
    if len(arguments) == 2 and arguments[0] == "--adopt":
        return command.adopt(arguments[1])
    print("build_program.py: usage: build_program.py [--sum | --adopt SUM]", file=sys.stderr)
    return command.USAGE


if __name__ == "__main__":
    sys.exit(main(sys.argv[1:]))

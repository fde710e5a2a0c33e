"""A stand-in for the kit: it takes the words that the prover takes, proves nothing, and writes what depends on the sources.

`kit` writes its folder, in which this file is run as `rattle` and as `rattle-link`. A library, a receipt and the code of the
program are the source without its comments; a library has its sum in the last line of its format. A crate by a receipt is built
where the receipt is of the source. The variable STAND_IN_SECONDS says how long a crate takes, and a process of its own waits so long.
"""
import argparse
import hashlib
import os
import pathlib
import shutil
import subprocess
import sys

ROLES = ("rattle", "rattle-link")
VALUES = ("--crate-name", "--antt-project", "--links", "--logic-built", "--jobs", "--toolchain", "--backend", "--target")
LISTS = ("--extern", "-L")
PLACES = ("--incremental", "--crate-checked")


def kit(folder):
    """Writes the folder of the kit, and returns it."""
    for name in ("bin", "rlibs/std.rlib", "c"):
        (folder / name).mkdir(parents=True)
    for role in ROLES:
        write_script(folder / "bin" / role, f'exec "{sys.executable}" -S "{pathlib.Path(__file__).resolve()}" {role} "$@"\n')
    write_script(folder / "bin" / "rt", "")
    (folder / "KIT-ID").write_text("a stand-in for the kit\n")
    for name in ("libos_c.a", "liblibc_c.a"):
        (folder / "c" / name).write_text("")
    (folder / "rlibs" / "std.rlib" / "format").write_text("sum of a stand-in\n")
    return folder


def write_script(path, text):
    """Writes a script for the shell."""
    path.write_text(f"#!/bin/sh\n{text}")
    path.chmod(0o755)


def words_of(arguments):
    """The words of the command line; another one is refused."""
    words = argparse.ArgumentParser(allow_abbrev=False)
    words.add_argument("role", choices=ROLES)
    words.add_argument("inputs", nargs="+", type=pathlib.Path)
    words.add_argument("-o", dest="output", type=pathlib.Path, required=True)
    words.add_argument("--statements", action="store_true")
    for name in VALUES:
        words.add_argument(name)
    for name in LISTS:
        words.add_argument(name, action="append")
    for name in PLACES:
        words.add_argument(name, type=pathlib.Path)
    return words.parse_intermixed_args(arguments)


def made_of(root):
    """What is made of a source."""
    return "".join(line for line in root.read_text().splitlines(keepends=True) if not line.strip().startswith("//"))


def write_folder(folder, made):
    """Writes a library or a receipt, with its sum."""
    folder.mkdir()
    (folder / "made").write_text(made)
    (folder / "format").write_text(f"sum {hashlib.sha256(made.encode()).hexdigest()}\n")


def build(words):
    """Makes a library, a receipt, or the code of the program. Returns the exit status."""
    verb, root = words.inputs
    if seconds := os.environ.get("STAND_IN_SECONDS"):
        subprocess.run(["sleep", seconds], check=True)
    made = made_of(root)
    if words.crate_checked and (words.crate_checked / "made").read_text() != made:
        print(f"the receipt of {words.crate_name} is of another source")
        return 1
    if words.incremental:
        (words.incremental / "work").write_text(made)
    if words.backend and verb.name == "build":
        words.output.write_text(made)
    else:
        write_folder(words.output, made)
    return 0


def link(words):
    """Makes the program of its code."""
    shutil.copy(words.inputs[0], words.output)
    words.output.chmod(0o755)
    return 0


if __name__ == "__main__":
    ASKED = words_of(sys.argv[1:])
    sys.exit(build(ASKED) if ASKED.role == "rattle" else link(ASKED))

#!/usr/bin/env python3
"""build_library.py [FOLDER]: proves x25scan_c and builds libx25scan.a and libx25scan.so of it, by default into out/library.

Each is built only where it is not there or a source is newer. The libraries below x25scan_c are those that `rt ci` has
left in the crates, where these are of the sources, else those of tools/build_program.py, which it builds first. FOLDER
also gets x25scan.h and x25scan.pc. Without a linker for C it says so, and the status is 4.
"""
from __future__ import annotations

import fcntl
import os
import pathlib
import re
import shutil
import subprocess
import sys
import tempfile

sys.dont_write_bytecode = True
from build_program import CRATES, FRESH, OUT, ROOT, build_libraries, is_older, kit, libraries, library, rattle, run, say, sources  # noqa: E402
from marks import Mark, mark_of  # noqa: E402

NAME = "x25scan_c"
FOLDER = OUT / "library"
SOURCE = ROOT / "library"
SONAME = "libx25scan.so.1"
EXPORTS = "x25scan_open_form x25scan_feed_text x25scan_feed_packet x25scan_take_finding x25scan_make_report x25scan_end_trace x25scan_take_text x25scan_take_fault x25scan_close_scan x25scan_copy_words".split()


def inputs() -> list[pathlib.Path]:
    """The files that the library is built from."""
    return [ROOT / "crates.txt", *(it for name in [*libraries(NAME), NAME] for it in sources(name))]


def left(name: str) -> pathlib.Path:
    """The library that `rt ci` built in the crate. `rt ci` writes no stamp, so `rt lib` would build the library again."""
    return CRATES / name / "out" / "rlib" / f"{name}.rlib"


def is_left(name: str) -> bool:
    """Whether `rt ci` built a library of these sources. It may reuse files of an earlier run, so the age of the folder is compared."""
    return not is_older(left(name), sources(name)) and not left(name).with_name("stamp").exists()


def prove() -> tuple[bool, str]:
    """Proves the crate over its libraries, and has LLVM compile it into an archive."""
    place = left if all(map(is_left, libraries(NAME))) else library
    if place is library and not build_libraries(NAME):
        return False, ""
    fresh = FRESH / f"lib{NAME}.a"
    kept = OUT / "inc" / NAME
    kept.mkdir(parents=True, exist_ok=True)
    how: list[object] = ["--crate-type", "staticlib", "--toolchain", kit() / "toolchain", "--backend", "llvm", "--incremental", kept, "-o", fresh]
    # Four jobs would take half the time and 1.6 times the processor seconds; in the gate other suites run beside.
    is_proved, said = rattle(NAME, "src/lib.rt", 1, *how, place=place)
    return is_proved, str(fresh) if is_proved else said


def version() -> str:
    """The newest version of CHANGELOG.md."""
    found = re.search(r"^## (\d+\.\d+\.\d+)$", (ROOT / "CHANGELOG.md").read_text(), re.MULTILINE)
    return found[1] if found else "0"


def archive(proved: str, folder: pathlib.Path) -> tuple[bool, str]:
    """Writes one archive of the crate and of the kit's C: a program needs no other."""
    script = f"CREATE {folder / 'libx25scan.a'}\n" + "".join(f"ADDLIB {it}\n" for it in (proved, *c_archives())) + "SAVE\nEND\n"
    done = subprocess.run([str(kit() / "toolchain" / "bin" / "llvm-ar"), "-M"], input=script, text=True, capture_output=True, check=False)
    return done.returncode == 0, done.stderr


def c_archives() -> list[pathlib.Path]:
    """The kit's C, which has the heap."""
    return [kit() / "c" / it for it in ("liblibc_c.a", "libos_c.a")]


def linker() -> str | None:
    """The command that links C."""
    return shutil.which("cc") or shutil.which("gcc") or shutil.which("clang")


def shared(proved: str, folder: pathlib.Path) -> tuple[bool, str]:
    """The shared library, with only the exports visible."""
    with tempfile.TemporaryDirectory() as place:
        names = pathlib.Path(place, "exports")
        names.write_text("{ global: " + " ".join(f"{it};" for it in EXPORTS) + " local: *; };\n")
        words: list[object] = [linker(), "-shared", f"-Wl,-soname,{SONAME}", f"-Wl,--version-script={names}", "-Wl,--gc-sections", "-Wl,-z,defs"]
        words += [*(f"-Wl,-u,{it}" for it in EXPORTS), "-o", folder / SONAME, proved, *c_archives()]
        return run(folder, *words)


def build(folder: pathlib.Path) -> int:
    """Builds the library into a folder, and returns the exit status."""
    if not linker():
        say("the library was not built: there is no linker for C; install gcc or clang")
        return 4
    is_proved, said = prove()
    if not is_proved:
        sys.stderr.write(said[-6000:] + "\n")
        say("the library was not built, since x25scan_c was not proved or not built")
        return 3
    for made in (archive, shared):
        is_made, why = made(said, folder)
        if not is_made:
            say(f"the library was not built: {why.strip()}")
            return 3
    if (mark := mark_of(folder / SONAME)) is not Mark.PROVED:
        for name in (SONAME, "libx25scan.a"):
            (folder / name).unlink()
        say(f"the library was not built: what the kit compiled of x25scan_c {mark.value}; prove it with bin/x25prove first")
        return 3
    link = folder / "libx25scan.so"
    link.unlink(missing_ok=True)
    link.symlink_to(SONAME)
    shutil.copy(SOURCE / "x25scan.h", folder)
    text = (SOURCE / "x25scan.pc.in").read_text().replace("@VERSION@", version()).replace("@PREFIX@", "/usr")
    (folder / "x25scan.pc").write_text(text)
    return 0


def main(arguments: list[str]) -> int:
    folder = pathlib.Path(arguments[0]).resolve() if arguments else FOLDER
    folder.mkdir(parents=True, exist_ok=True)
    FRESH.mkdir(parents=True, exist_ok=True)
    with (OUT / "library.lock").open("w") as lock:
        fcntl.flock(lock, fcntl.LOCK_EX)
        made = [*inputs(), SOURCE / "x25scan.h", SOURCE / "x25scan.pc.in", pathlib.Path(__file__)]
        return 0 if not is_older(folder / SONAME, made) and not is_older(folder / "x25scan.pc", made) else build(folder)


if __name__ == "__main__":
    sys.exit(main(sys.argv[1:]))

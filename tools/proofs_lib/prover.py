"""One library or the program, proved and built by the kit's prover."""
from __future__ import annotations

import contextlib
import os
import pathlib
import signal
import subprocess
import threading
from collections.abc import Callable, Iterable

from .keys import FOLDERS, PROGRAM_WORDS, WORDS, Shelf, Way
from .repository import CRATES, FRESH, LIBRARIES, OUT, PROGRAM_NAME, kit, uses

Place = Callable[[str], pathlib.Path]


class Children:
    """The programs of the kit that run now. All end with this one."""

    def __init__(self) -> None:
        self.turn = threading.Lock()
        self.running: set[subprocess.Popen[str]] = set()
        self.is_over = False

    def run(self, folder: pathlib.Path, words: Iterable[object]) -> tuple[bool, str]:
        """Runs a program in a folder, in a process group of its own. Returns whether it succeeded, and its output."""
        with self.turn:
            if self.is_over:
                return False, "interrupted"
            pipe, both, quiet = subprocess.PIPE, subprocess.STDOUT, subprocess.DEVNULL
            given = [str(it) for it in words]
            child = subprocess.Popen(given, cwd=folder, stdin=quiet, stdout=pipe, stderr=both, text=True, errors="replace", start_new_session=True)
            self.running.add(child)
        try:
            said, _ = child.communicate()
        finally:
            self.end([child])
            with self.turn:
                self.running.discard(child)
        return child.returncode == 0, said

    def end(self, children: Iterable[subprocess.Popen[str]]) -> None:
        """Ends programs that run, with those that they started."""
        for child in children:
            if child.poll() is None:
                with contextlib.suppress(OSError):
                    os.killpg(child.pid, signal.SIGKILL)
                child.wait()

    def end_all(self) -> None:
        """Ends all programs, and begins no other."""
        with self.turn:
            self.is_over = True
            running = list(self.running)
        for child in running:
            with contextlib.suppress(OSError):
                os.killpg(child.pid, signal.SIGKILL)


CHILDREN = Children()


def run(folder: pathlib.Path, *words: object) -> tuple[bool, str]:
    """Runs a program of the kit in a folder. Returns whether it succeeded, and its output."""
    return CHILDREN.run(folder, words)


def library(name: str) -> pathlib.Path:
    """The path of a library that was proved here from nothing."""
    return LIBRARIES / f"{name}.rlib"


def crate_words(name: str, root: str, place: Place) -> list[object]:
    """The words of the prover that say what the crate is and what it uses."""
    used = uses()
    words: list[object] = ["--crate-name", name, root]
    for it in ["std", *used[name]]:
        words += ["--extern", f"{it}={place(it) if it in used else kit() / 'rlibs' / f'{it}.rlib'}"]
    below = {place(it).parent for it in used[name] if it in used} or {LIBRARIES}
    words += [it for folder in sorted(below) for it in ("-L", f"dependency={folder}")]
    words += ["-L", f"dependency={kit() / 'rlibs'}", "--antt-project", kit() / "rattle" / "logic" / "antt-project.json"]
    return words + ["--links", f"{name}="]


def rattle(name: str, root: str, jobs: int, *how: object, place: Place = library, verb: str = "build") -> tuple[bool, str]:
    """Proves a crate with the kit's prover, and builds it; the libraries below it are built and in their places."""
    words = crate_words(name, root, place)
    return run(CRATES / name, kit() / "bin" / "rattle", verb, *words, "--logic-built", kit() / "logic_built", "--jobs", jobs, *how)


def root_of(name: str) -> str:
    return "src/main.rt" if name == PROGRAM_NAME else "src/lib.rt"


def kept_work(name: str) -> pathlib.Path:
    """Where the prover keeps its work on a crate from one developer's build to the next."""
    return FOLDERS[Way.KEPT].with_name("work") / name


def fresh_place(name: str) -> pathlib.Path:
    """Where this run builds, before it is put in its place."""
    return FRESH / f"{os.getpid()}-{name}"


def how_of(name: str, way: Way) -> list[object]:
    """The words of the prover for a way."""
    if way is not Way.KEPT:
        return list(WORDS[way])
    kept_work(name).mkdir(parents=True, exist_ok=True)
    return ["--incremental", kept_work(name)]


def prove(name: str, jobs: int, shelf: Shelf, fresh: pathlib.Path) -> tuple[bool, str]:
    """Proves and builds a library over those of a shelf; or the program, which LLVM compiles and which is then linked."""
    if name != PROGRAM_NAME:
        return rattle(name, root_of(name), jobs, *how_of(name, shelf.way), "-o", fresh, place=shelf.library)
    code = fresh.with_suffix(".o")
    how = how_of(name, shelf.way) if shelf.way is Way.KEPT else []
    is_proved, said = rattle(name, root_of(name), jobs, *how, *to_code(code), place=shelf.library)
    return link(code, fresh) if is_proved else (False, said)


def to_code(code: pathlib.Path) -> list[object]:
    return ["--toolchain", kit() / "toolchain", *PROGRAM_WORDS, "-o", code]


def build_checked(name: str, receipt: pathlib.Path, shelf: Shelf, fresh: pathlib.Path) -> tuple[bool, str]:
    """Builds a crate by a receipt, which the kit compares with the sources."""
    words = [kit() / "bin" / "rattle", "build", *crate_words(name, root_of(name), shelf.library), "--crate-checked", receipt]
    if name != PROGRAM_NAME:
        return run(CRATES / name, *words, "-o", fresh)
    code = fresh.with_suffix(".o")
    is_built, said = run(CRATES / name, *words, *to_code(code))
    return link(code, fresh) if is_built else (False, said)


def check(name: str, jobs: int, shelf: Shelf, receipt: pathlib.Path) -> tuple[bool, str]:
    """Proves a crate and writes the receipt of its proof."""
    how = [] if name == PROGRAM_NAME else list(WORDS[Way.NOTHING])
    return rattle(name, root_of(name), jobs, *how, "-o", receipt, place=shelf.library, verb="check")


def link(code: pathlib.Path, fresh: pathlib.Path) -> tuple[bool, str]:
    """Links the program with the kit's C."""
    libraries_of_c = [kit() / "c" / it for it in ("libos_c.a", "liblibc_c.a")]
    words = ["--target", "x86_64-unknown-linux-gnu", "--toolchain", kit() / "toolchain", "-o", fresh, code, *libraries_of_c]
    is_linked, said = run(OUT, kit() / "bin" / "rattle-link", *words)
    code.unlink(missing_ok=True)
    return is_linked, said

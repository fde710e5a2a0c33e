"""Where the program x25scan is: the installed one; in a checkout the proved one, else the one compiled before its proof."""
from __future__ import annotations

import pathlib
import shutil
import sys

ROOT = pathlib.Path(__file__).resolve().parents[2]
# An installed program has no sources beside it, and lies where a checkout has the launcher.
INSTALLED = ROOT / "bin" / "x25scan"
IS_CHECKOUT = (ROOT / "crates").is_dir()


def proved() -> pathlib.Path | None:
    """The proved program: the installed one, or that of these sources, where it is there."""
    if not IS_CHECKOUT:
        return INSTALLED if INSTALLED.exists() else None
    import build_program

    return None if build_program.is_stale() else build_program.PROGRAM


def built() -> str | None:
    """The program that is there already, proved or not; else None."""
    if program := proved():
        return str(program)
    if not IS_CHECKOUT or not shutil.which("rt"):
        return None
    import build_trial

    return str(build_trial.PROGRAM) if build_trial.is_fresh() else None


def found(name: str) -> str:
    """The program. Where none is proved, it is compiled unless it is there; the tool of this name then says on standard error which one it runs."""
    if program := proved():
        return str(program)
    if not IS_CHECKOUT:
        raise OSError(f"there is no program {INSTALLED}: --scanner names one")
    if not shutil.which("rt"):
        raise OSError("there is no program x25scan, and no rt on the path to compile it: --scanner names one")
    import build_trial

    if build_trial.build() is not build_trial.Built.READY:
        raise OSError("there is no program x25scan: bin/x25prove proves and builds it, and --scanner names one")
    print(f"{name}: runs a program that is {build_trial.NOT_PROVED}; bin/x25prove makes the proved one", file=sys.stderr, flush=True)
    return str(build_trial.PROGRAM)

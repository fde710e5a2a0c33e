"""Captures, by the program x25trace."""
from __future__ import annotations

import os
import shutil
import subprocess

from x25scan._library import ScanError


def trace_of(path: str | os.PathLike[str]) -> bytes:
    """The trace of a capture."""
    program = os.environ.get("X25TRACE") or shutil.which("x25trace")
    if not program:
        raise ScanError(3, "x25trace is not installed: it is in the package x25scan")
    done = subprocess.run([program, os.fspath(path)], capture_output=True, check=False)
    if done.returncode:
        raise ScanError(done.returncode, done.stderr.decode(errors="replace").strip())
    return done.stdout

"""x25trace in this process: what it writes of captures."""
from __future__ import annotations

import contextlib
import io
import pathlib
from typing import NamedTuple

from x25trace_lib import command


class Written(NamedTuple):
    """What x25trace writes of captures: its trace, what it says, and its exit status."""

    trace: str
    said: str
    status: int


def written_of(*words: str | pathlib.Path) -> Written:
    """What x25trace writes with these words; no trace where it refuses a capture."""
    out, said = io.StringIO(), io.StringIO()
    with contextlib.redirect_stdout(out), contextlib.redirect_stderr(said):
        status = command.main(["--scanner", "/bin/false", *map(str, words)])
    return Written(out.getvalue(), said.getvalue(), status)

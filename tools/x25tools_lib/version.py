"""The version of the programs, which is that of x25scan."""
from __future__ import annotations

import re
import subprocess

from .scanner import INSTALLED, ROOT

VERSION = re.compile(r"x25scan (\d+(?:\.\d+)+[\w.+-]*)")
# Where the repository has it. An installed program is asked.
SOURCE = ROOT / "crates" / "command_line" / "src" / "help.rt"


def version() -> str:
    """The version, or the word unknown where neither the repository nor x25scan says it."""
    try:
        if SOURCE.exists():
            text = SOURCE.read_text()
        else:
            text = subprocess.run([INSTALLED, "--version"], capture_output=True, text=True, check=False).stdout
    except OSError:
        text = ""
    found = VERSION.search(text)
    return found[1] if found else "unknown"

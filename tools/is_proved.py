#!/usr/bin/env python3
"""is_proved.py: whether the proved program is there and of these sources; else the exit status is 69, and a sentence says what makes it."""
from __future__ import annotations

import sys

sys.dont_write_bytecode = True
from build_program import PROGRAM, is_stale, say  # noqa: E402

NOT_THERE = 69


def main() -> int:
    if not is_stale():
        return 0
    which = "the proved program is not of these sources" if PROGRAM.exists() else "there is no proved program yet"
    say(f"{which}: bin/x25prove proves and builds it, in 20 to 70 minutes; bin/x25try runs the program before its proof, within two minutes")
    return NOT_THERE


if __name__ == "__main__":
    sys.exit(main())

#!/usr/bin/env python3
"""waits.py LOG: compares how many functions of each crate may wait for a thread, as a log of `rt ci` says, with crates.txt.

`rt ci` prints that number after each crate that it proves, but only `rt verdict`, which proves the crate once more,
compares it with `may_wait` of crates.txt. A crate that the log does not name was proved by an earlier run, whose log
had it. The last line is 'N passed, M failed'.
"""
from __future__ import annotations

import pathlib
import re
import sys
from collections.abc import Iterator

ROOT = pathlib.Path(__file__).resolve().parent.parent
LISTED = re.compile(r"^(\w+)\b([^:\n#]*):", re.MULTILINE)
PROVED = re.compile(r"^logic=proved functions=\d+")
WAITS = re.compile(r" may[-_]wait=(\d+)")
NAMED = re.compile(r"^rt: (\w+) proved")


def waits(words: str) -> int:
    """How many functions may wait, by the words of a line of crates.txt or of a check's last line."""
    match = WAITS.search(words)
    return int(match[1]) if match else 0


def listed(text: str) -> dict[str, int]:
    """How many functions of each crate may wait, by crates.txt."""
    return {name: waits(words) for name, words in LISTED.findall(text)}


def proved(log: str) -> Iterator[tuple[str, int]]:
    """How many functions of each crate may wait, by the log of a gate."""
    count = 0
    for line in log.splitlines():
        if PROVED.match(line):
            count = waits(line)
        elif match := NAMED.match(line):
            yield match[1], count


def main(words: list[str]) -> int:
    if len(words) != 1:
        sys.exit("waits.py: usage: tools/waits.py LOG")
    expected = listed((ROOT / "crates.txt").read_text())
    found = dict(proved(pathlib.Path(words[0]).read_text()))
    wrong = [name for name, count in found.items() if count != expected.get(name, 0)]
    for name in wrong:
        print(f"waits.py: {found[name]} functions of {name} may wait, and crates.txt says {expected.get(name, 0)}")
    print(f"{len(found) - len(wrong)} passed, {len(wrong)} failed")
    return 1 if wrong else 0


if __name__ == "__main__":
    sys.exit(main(sys.argv[1:]))

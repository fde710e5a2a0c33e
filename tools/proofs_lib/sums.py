"""SHA-256 sums of files. A sum is kept between runs and taken again where the system says that the file is the same."""
from __future__ import annotations

import contextlib
import hashlib
import json
import os
import pathlib
import tempfile
import time

# A file that changed less than this before its sum was taken may change again without another time stamp.
SETTLED_NS = 2_000_000_000

Signature = list[int]


def signature(stat: os.stat_result) -> Signature:
    """What differs after a file was written or replaced. No program can set the time of the last change (ctime) back."""
    return [stat.st_size, stat.st_mtime_ns, stat.st_ctime_ns, stat.st_ino, stat.st_dev]


def sum_of_text(text: str) -> str:
    return hashlib.sha256(text.encode()).hexdigest()


def sum_of_file(path: str | pathlib.Path) -> str:
    with open(path, "rb") as file:
        found = hashlib.sha256()
        while chunk := file.read(1 << 20):
            found.update(chunk)
    return found.hexdigest()


def write_whole(path: pathlib.Path, content: bytes) -> None:
    """Writes a file that other processes see whole or not at all."""
    handle, name = tempfile.mkstemp(prefix=f".new-{os.getpid()}-", dir=path.parent)
    try:
        with open(handle, "wb") as file:
            file.write(content)
        os.chmod(name, 0o644)
        os.replace(name, path)
    except BaseException:
        with contextlib.suppress(OSError):
            os.unlink(name)
        raise


class Sums:
    """The sums of files, kept in a file of their own. Where that can't be read or written, each sum is computed."""

    def __init__(self, kept: pathlib.Path) -> None:
        self.kept = kept
        self.is_changed = False
        try:
            known = json.loads(kept.read_text())
        except (OSError, ValueError):
            known = {}
        self.known: dict[str, tuple[Signature, str]] = known if isinstance(known, dict) else {}

    def of(self, path: str, stat: os.stat_result) -> str:
        """The sum of a file of which the system said this."""
        seen = signature(stat)
        entry = self.known.get(path)
        if isinstance(entry, (list, tuple)) and len(entry) == 2 and entry[0] == seen and isinstance(entry[1], str):
            return entry[1]
        began = time.time_ns()
        found = sum_of_file(path)
        self.known.pop(path, None)
        if began - stat.st_ctime_ns > SETTLED_NS and signature(os.stat(path)) == seen:
            self.known[path] = (seen, found)
        self.is_changed = True
        return found

    def save(self) -> None:
        """Keeps the sums for the next run."""
        if self.is_changed:
            with contextlib.suppress(OSError):
                self.kept.parent.mkdir(exist_ok=True)
                write_whole(self.kept, json.dumps(self.known).encode())
            self.is_changed = False

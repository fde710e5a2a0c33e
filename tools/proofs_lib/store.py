"""Proofs that every clone of a user on this machine shares, each named by its key.

An entry is one file: a line about it, and the packed library or program, whose sum is in that line. It is written under
another name and renamed, so it is whole or not there. Where the store can't be used, one sentence says why, and the
build goes on without it.
"""
from __future__ import annotations

import contextlib
import hashlib
import io
import json
import os
import pathlib
import re
import shutil
import stat
import subprocess
import tarfile
import time
import zlib
from collections.abc import Callable
from dataclasses import dataclass

from .repository import Refusal

ENDING = ".proof"
FORM = "x25scan proof 1"
LIMIT = 4 << 30
UNITS = {"": 1, "K": 1 << 10, "M": 1 << 20, "G": 1 << 30}
# What a run that was killed left is removed after this.
LEFT_SECONDS = 86_400
USAGE = 64


@dataclass(frozen=True)
class Entry:
    """An entry of the store: its file, its size in bytes, and when it was last used."""

    path: pathlib.Path
    size: int
    used: float

    @property
    def name(self) -> str:
        return self.path.name.partition("-")[0]


class Damaged(Exception):
    """What is wrong with an entry."""


class Unread(Exception):
    """Why an entry can't be read here, though it may be right."""


def default_folder() -> pathlib.Path:
    """Where the store is: X25SCAN_STORE, else below XDG_CACHE_HOME, else below the user's folder."""
    named = os.environ.get("X25SCAN_STORE")
    if named:
        return pathlib.Path(named).absolute()
    cache = os.environ.get("XDG_CACHE_HOME", "")
    return pathlib.Path(cache if os.path.isabs(cache) else os.path.expanduser("~/.cache")) / "x25scan"


def limit_of(text: str | None) -> int:
    """The most bytes that the store holds, of X25SCAN_STORE_LIMIT."""
    if not text:
        return LIMIT
    found = re.fullmatch(r"(\d+)([KMG]?)", text.strip().upper())
    if not found:
        raise Refusal(f"X25SCAN_STORE_LIMIT is {text!r}: write a number of bytes, or one with K, M or G, such as 4G", USAGE)
    return int(found[1]) * UNITS[found[2]]


def packed(folder: pathlib.Path) -> tuple[str, bytes]:
    """A folder or a file as one packed text, and how it was packed: by zstd where that is installed."""
    held = io.BytesIO()
    with tarfile.open(fileobj=held, mode="w") as tar:
        tar.add(folder, "it")
    if shutil.which("zstd"):
        done = subprocess.run(["zstd", "-q", "-3", "-c"], input=held.getbuffer(), stdout=subprocess.PIPE, check=False)
        if done.returncode == 0:
            return "zstd", done.stdout
    return "zlib", zlib.compress(held.getbuffer(), 1)


def unpacked(how: str, content: bytes) -> bytes:
    """The archive of a packed text."""
    if how == "zlib":
        try:
            return zlib.decompress(content)
        except zlib.error as fault:
            raise Damaged(str(fault)) from fault
    if not shutil.which("zstd"):
        raise Unread("it was packed by zstd, which is not installed")
    done = subprocess.run(["zstd", "-q", "-d", "-c"], input=content, stdout=subprocess.PIPE, stderr=subprocess.DEVNULL, check=False)
    if done.returncode:
        raise Damaged("zstd can't unpack it")
    return done.stdout


def write_files(archive: bytes, to: pathlib.Path) -> None:
    """Writes what an archive has: folders and files, all below one name."""
    with tarfile.open(fileobj=io.BytesIO(archive)) as tar:
        for member in tar:
            parts = pathlib.PurePosixPath(member.name).parts
            if parts[:1] != ("it",) or ".." in parts or not (member.isdir() or member.isfile()):
                raise Damaged(f"it has {member.name}")
            place = to.joinpath(*parts[1:])
            if member.isdir():
                place.mkdir(parents=True, exist_ok=True)
                continue
            source = tar.extractfile(member)
            assert source
            with open(place, "wb") as file:
                shutil.copyfileobj(source, file, 1 << 20)
            place.chmod(member.mode & 0o755)


class Store:
    """The store of this user. A store that can't be used says so once, has nothing and takes nothing."""

    def __init__(self, say: Callable[[object], None], folder: pathlib.Path | None = None) -> None:
        self.say, self.folder = say, folder or default_folder()
        self.limit = limit_of(os.environ.get("X25SCAN_STORE_LIMIT"))
        why = self.fault()
        self.is_used = self.is_written = not why
        if why:
            say(f"the store {self.folder} is not used, since {why}")

    def fault(self) -> str | None:
        """Why the store can't be used."""
        try:
            self.folder.mkdir(mode=0o700, parents=True, exist_ok=True)
            found = self.folder.stat()
        except OSError as fault:
            return f"it can't be made: {fault.strerror}"
        if found.st_uid != os.geteuid():
            return "it is another user's; X25SCAN_STORE names one of yours"
        if stat.S_IMODE(found.st_mode) & 0o022:
            return "others may write to it; chmod go-w lets it be used"
        return None

    def path(self, name: str, key: str) -> pathlib.Path:
        return self.folder / f"{name}-{key}{ENDING}"

    def take(self, name: str, key: str, to: pathlib.Path, sum_of: Callable[[pathlib.Path], str | None]) -> str | None:
        """Unpacks an entry to a path, and returns the sum of what was built, which has to be that of `sum_of`.

        A damaged entry is removed. Fails where the path can't be written.
        """
        path = self.path(name, key)
        if not self.is_used or not path.exists():
            return None
        try:
            said, archive = self.read(path, key)
            write_files(archive, to)
            if sum_of(to) != said:
                raise Damaged("what it holds has another sum")
        except (Damaged, tarfile.TarError) as fault:
            shutil.rmtree(to, ignore_errors=True)
            to.unlink(missing_ok=True)
            self.say(f"the proof of {name} in the store was damaged ({fault}), so it was removed and is made anew")
            self.remove(path)
            return None
        except Unread as fault:
            self.say(f"the proof of {name} in the store can't be read, so it is made anew: {fault}")
            return None
        with contextlib.suppress(OSError):
            os.utime(path)
        return said

    def read(self, path: pathlib.Path, key: str) -> tuple[str, bytes]:
        """The sum that an entry says, and its archive."""
        try:
            head, _, content = path.read_bytes().partition(b"\n")
        except OSError as fault:
            raise Unread(fault.strerror) from fault
        try:
            said = json.loads(head)
            is_of_key, sum_said, how = (said["form"], said["key"]) == (FORM, key), str(said["sum"]), said["how"]
            is_whole = hashlib.sha256(content).hexdigest() == said["packed"]
        except (ValueError, KeyError, TypeError) as fault:
            raise Damaged("its first line is no line about it") from fault
        if not is_of_key or not is_whole:
            raise Damaged("its sum is another" if is_of_key else "it is of another key")
        return sum_said, unpacked(how, content)

    def put(self, name: str, key: str, built: pathlib.Path, built_sum: str) -> None:
        """Keeps what was built, unless it is kept already; makes room for it."""
        if not self.is_written or self.path(name, key).exists():
            return
        how, content = packed(built)
        said = {"form": FORM, "name": name, "key": key, "sum": built_sum, "how": how, "packed": hashlib.sha256(content).hexdigest()}
        whole = json.dumps(said).encode() + b"\n" + content
        if len(whole) > self.limit:
            self.say(f"the proof of {name} is not kept in the store, which holds {shown(self.limit)}: X25SCAN_STORE_LIMIT sets that")
            return
        try:
            self.write(self.path(name, key), whole)
            self.make_room()
        except OSError as fault:
            self.is_written = False
            self.say(f"proofs of this run are not kept in the store {self.folder}: {fault.strerror}")

    def write(self, path: pathlib.Path, whole: bytes) -> None:
        """Writes an entry under another name, and renames it."""
        fresh = self.folder / f".new-{os.getpid()}-{path.name}"
        try:
            with open(fresh, "xb") as file:
                file.write(whole)
            os.replace(fresh, path)
        except BaseException:
            self.remove(fresh)
            raise

    def remove(self, path: pathlib.Path) -> None:
        with contextlib.suppress(OSError):
            path.unlink()

    def entries(self) -> list[Entry]:
        """The entries, those that were used last at the end."""
        found = []
        with contextlib.suppress(OSError):
            for path in self.folder.glob(f"*{ENDING}"):
                with contextlib.suppress(OSError):
                    said = path.stat()
                    found.append(Entry(path, said.st_size, said.st_mtime))
        return sorted((it for it in found if it.path.name[0] != "."), key=lambda it: (it.used, it.path.name))

    def make_room(self) -> None:
        """Removes the entries that were not used for longest until the store holds no more than its limit."""
        found = self.entries()
        much = sum(it.size for it in found)
        for entry in found:
            if much <= self.limit:
                break
            self.remove(entry.path)
            much -= entry.size
        self.remove_left(LEFT_SECONDS)

    def remove_left(self, seconds: float) -> None:
        """Removes what runs that were killed have left some time ago."""
        for path in self.folder.glob(".new-*"):
            with contextlib.suppress(OSError):
                if time.time() - path.stat().st_mtime > seconds:
                    path.unlink()

    def empty(self) -> int:
        """Removes all entries, and returns how many there were."""
        found = self.entries()
        for entry in found:
            self.remove(entry.path)
        self.remove_left(0)
        return len(found)

    def table(self) -> str:
        """What the store holds, a line for each crate, those that were used last at the end."""
        found = self.entries()
        lines = [f"{time.strftime('%Y-%m-%d %H:%M', time.localtime(it.used))}  {shown(it.size):>10}  {it.name}\n" for it in found]
        much = sum(it.size for it in found)
        return "".join(lines) + f"{self.folder}: {len(found)} proofs, {shown(much)} of {shown(self.limit)}\n"


def shown(size: int) -> str:
    """A number of bytes, as people write it."""
    for unit, letter in ((1 << 30, "GB"), (1 << 20, "MB"), (1 << 10, "kB")):
        if size >= unit:
            return f"{size / unit:.1f} {letter}"
    return f"{size} bytes"

"""An archive of receipts: of each crate the folder that `rattle check -o` wrote, and a list of all files with their sums.

With a receipt the kit builds a crate without its proof, after it compared the sources with those that were proved. That
trusts whoever made the archive.
"""
from __future__ import annotations

import hashlib
import json
import lzma
import pathlib
import shutil
import subprocess
import tarfile
from collections.abc import Callable
from typing import Any

from .repository import Refusal
from .sums import sum_of_file

FORM = "x25scan receipts 1"
LIST = "RECEIPTS"
ZSTD, XZ = b"\x28\xb5\x2f\xfd", b"\xfd7zXZ\x00"
UNFIT = 65
ADVICE = "get it again, or run bin/x25prove without it"


class Damaged(Exception):
    """An archive whose bytes are not those that were written."""


def unpack(path: pathlib.Path, to: pathlib.Path) -> None:
    """Writes the tar archive in a file that zstd or xz packed."""
    with open(path, "rb") as file:
        start = file.read(len(XZ))
    if start.startswith(ZSTD):
        if not shutil.which("zstd"):
            raise Refusal(f"the receipts {path} are packed by zstd, which is not on the path: install zstd", UNFIT)
        if subprocess.run(["zstd", "-q", "-d", "-f", path, "-o", to], capture_output=True, check=False).returncode:
            raise Damaged
    elif start.startswith(XZ):
        try:
            with lzma.open(path) as source, open(to, "wb") as target:
                shutil.copyfileobj(source, target, 1 << 20)
        except (lzma.LZMAError, EOFError) as fault:
            raise Damaged from fault
    else:
        raise Refusal(f"{path} is no archive of receipts: tools/package --receipts makes one", UNFIT)


def write_files(archive: pathlib.Path, folder: pathlib.Path) -> None:
    """Writes the files of a tar archive below a folder."""
    try:
        with tarfile.open(archive) as tar:
            for member in tar:
                source = tar.extractfile(member) if member.isfile() else None
                if source is None or member.name.startswith("/") or ".." in member.name.split("/"):
                    raise Damaged
                place = folder / member.name
                place.parent.mkdir(parents=True, exist_ok=True)
                with open(place, "wb") as target:
                    shutil.copyfileobj(source, target, 1 << 20)
    except tarfile.TarError as fault:
        raise Damaged from fault


def list_in(folder: pathlib.Path) -> dict[str, Any]:
    """The list of an archive whose files are those of the list."""
    try:
        about: dict[str, Any] = json.loads((folder / LIST).read_text())
        sums, own = about["sums"], about.pop("sum")
        is_whole = about["form"] == FORM and own == sum_of(about) and isinstance(about["keys"], dict)
    except (OSError, ValueError, KeyError, TypeError, AttributeError) as fault:
        raise Damaged from fault
    files = (it for it in folder.rglob("*") if it.is_file() and it != folder / LIST)
    if not is_whole or sums != {str(it.relative_to(folder)): sum_of_file(it) for it in files}:
        raise Damaged
    return about


class Receipts:
    """The receipts of an archive, whose sums are right and which are of this kit, in a folder where the kit reads them."""

    def __init__(self, path: pathlib.Path, folder: pathlib.Path, kit: str, say: Callable[[object], None]) -> None:
        self.folder, self.say = folder, say
        try:
            about = self.read(path, kit)
        except BaseException:
            self.remove()
            raise
        self.commit, self.keys = str(about["commit"]), about["keys"]

    def read(self, path: pathlib.Path, kit: str) -> dict[str, Any]:
        """Writes the receipts, and returns their list."""
        self.remove()
        self.folder.mkdir(parents=True)
        archive = self.folder.with_suffix(".tar")
        try:
            unpack(path, archive)
            write_files(archive, self.folder)
            about = list_in(self.folder)
        except Damaged as fault:
            raise Refusal(f"the receipts {path} are damaged: {ADVICE}", UNFIT) from fault
        except OSError as fault:
            raise Refusal(f"the receipts {path} can't be read: {fault.strerror}", UNFIT) from fault
        finally:
            archive.unlink(missing_ok=True)
        if about["kit"] != kit:
            raise Refusal(f"the receipts {path} are of another kit, {about.get('kit_name')}: use that kit, or run bin/x25prove without them", UNFIT)
        return about

    def remove(self) -> None:
        """Removes what was written."""
        shutil.rmtree(self.folder, ignore_errors=True)

    def receipt(self, name: str, key: str) -> pathlib.Path | None:
        """The receipt of a crate with this key, or none where the archive has one of other sources."""
        if self.keys.get(name) == key:
            return self.folder / name
        self.say(f"the receipt of {name} is of other sources, so {name} is proved here")
        return None


def sum_of(about: dict[str, Any]) -> str:
    """The sum of the list of an archive."""
    return hashlib.sha256(json.dumps(about, sort_keys=True).encode()).hexdigest()

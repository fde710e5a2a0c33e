"""The archive of receipts: with it bin/x25prove --receipts builds the program without a proof.

The kit writes a receipt of a crate while it proves it, so each crate is proved once more; the receipts that are made stay
in out/receipts/made until their sources change. Whoever builds by the archive trusts who made it: it has sums, and no signature.
"""
from __future__ import annotations

import concurrent.futures
import io
import json
import lzma
import pathlib
import shutil
import subprocess
import tarfile
from collections.abc import Callable, Mapping
from dataclasses import dataclass

from package_files import Refusal
from proofs_lib import prover
from proofs_lib.command import alone, make_libraries
from proofs_lib.keys import PROVED, Keys, Record, read_record, state_of_sources
from proofs_lib.receipts import FORM, LIST, sum_of
from proofs_lib.repository import OUT, PROGRAM_NAME, kit, slots, weights
from proofs_lib.sums import sum_of_file

MADE = OUT / "receipts" / "made"


@dataclass(frozen=True)
class Source:
    """What the receipts are of: the version, the commit and its time."""

    version: str
    commit: str
    seconds: int


def keys_of_all(keys: Keys) -> dict[str, str]:
    """The key of each library and of the program, whose libraries are built."""
    found: dict[str, str] = {}
    sums: dict[str, str] = {}
    for name in keys.below:
        found[name] = keys.of_library(name, PROVED.way, sums)
        built = PROVED.built(name, found[name])
        if built is None:
            raise Refusal(f"{name} changed since it was proved: run this again")
        sums[name] = built
    return {**found, PROGRAM_NAME: keys.of_program(PROVED.way, sums)}


def make_receipt(name: str, key: str, kit_sum: str) -> str | None:
    """Proves a crate and writes its receipt, unless it is there. Returns what the prover said where that failed."""
    place, record = MADE / name, MADE / f"{name}.key"
    known = read_record(record)
    if known and known.key == key and place.is_dir():
        return None
    record.unlink(missing_ok=True)
    shutil.rmtree(place, ignore_errors=True)
    before = state_of_sources(name)
    is_proved, said = prover.check(name, 1, PROVED, place)
    if not is_proved or before != state_of_sources(name):
        return said if not is_proved else f"a source of {name} changed while it was proved"
    Record(key, "", PROVED.way.value, kit_sum).write(record)
    return None


def make_receipts(say: Callable[[object], None]) -> tuple[dict[str, str], str]:
    """Writes the receipts of all crates. Returns their keys, and the sum of the kit."""
    if not make_libraries(PROGRAM_NAME):
        raise Refusal("the libraries were not proved, so there are no receipts")
    MADE.mkdir(parents=True, exist_ok=True)
    with alone(say):
        keys = Keys(PROGRAM_NAME)
        found = keys_of_all(keys)
        size = weights({name: set() for name in found})
        order = sorted(found, key=lambda it: -size[it])
        with concurrent.futures.ThreadPoolExecutor(slots()) as pool:
            running = {pool.submit(make_receipt, it, found[it], keys.kit): it for it in order}
            for count, done in enumerate(concurrent.futures.as_completed(running), 1):
                if said := done.result():
                    pool.shutdown(cancel_futures=True)
                    raise Refusal(f"{running[done]} has no receipt, since it was not proved:\n{said[-3000:]}")
                say(f"{count} of {len(order)}: the receipt of {running[done]}")
        keys.sums.save()
    return found, keys.kit


def list_of(source: Source, keys: Mapping[str, str], kit_sum: str, files: Mapping[str, pathlib.Path]) -> bytes:
    """The list of an archive: what the receipts are of, and the sum of each file."""
    about: dict[str, object] = {"form": FORM, "version": source.version, "commit": source.commit, "kit": kit_sum}
    about |= {"kit_name": (kit() / "KIT-ID").read_text().strip(), "keys": dict(keys)}
    about |= {"sums": {name: sum_of_file(path) for name, path in files.items()}}
    return (json.dumps({**about, "sum": sum_of(about)}, indent=1) + "\n").encode()


def write_tar(path: pathlib.Path, about: bytes, files: Mapping[str, pathlib.Path], seconds: int) -> None:
    """Writes a tar archive of a list and of the files of the list, whose entries are of the commit's date."""
    def entry(name: str, size: int) -> tarfile.TarInfo:
        made = tarfile.TarInfo(name)
        made.size, made.mtime, made.mode = size, seconds, 0o644
        return made

    with tarfile.open(path, mode="w", format=tarfile.USTAR_FORMAT) as tar:
        tar.addfile(entry(LIST, len(about)), io.BytesIO(about))
        for name, place in files.items():
            with open(place, "rb") as file:
                tar.addfile(entry(name, place.stat().st_size), file)


def pack(tar: pathlib.Path, path: pathlib.Path) -> pathlib.Path:
    """Packs an archive by zstd where that is installed, else by xz. Returns the path, which has the ending."""
    if shutil.which("zstd"):
        packed = path.with_name(f"{path.name}.zst")
        done = subprocess.run(["zstd", "-q", "-f", "-10", tar, "-o", packed], capture_output=True, text=True, check=False)
        if done.returncode:
            raise Refusal(f"zstd wrote no {packed}: {done.stderr.strip()}")
        return packed
    packed = path.with_name(f"{path.name}.xz")
    with open(tar, "rb") as source, lzma.open(packed, "wb", preset=1) as target:
        shutil.copyfileobj(source, target, 1 << 20)
    return packed


def write_receipts(source: Source, folder: pathlib.Path, say: Callable[[object], None]) -> pathlib.Path:
    """Writes the archive of the receipts of all crates, and returns its path."""
    keys, kit_sum = make_receipts(say)
    files = {str(it.relative_to(MADE)): it for name in sorted(keys) for it in sorted((MADE / name).rglob("*")) if it.is_file()}
    tar = MADE.with_suffix(".tar")
    try:
        write_tar(tar, list_of(source, keys, kit_sum, files), files, source.seconds)
        return pack(tar, folder / f"x25scan-{source.version}-receipts.tar")
    finally:
        tar.unlink(missing_ok=True)

"""Receipts: those of the sources, those of other sources, damaged ones, and those of another kit."""
import io
import json
import subprocess
import sys
import tarfile
import threading

from clone_cases import outcome_problems, way_problems, without_proofs
from clones import SECONDS
from runner import Case

# The cases of archives that are refused have one clone, in which a run says so where it waits for another one.
TURN = threading.Lock()
BY_RECEIPT = "built by its receipt"
TRUST = "; its proof trusts whoever made the receipts: bin/x25prove proves it here, and packages need that"
WRITE = """
import pathlib, sys
import package_receipts as it
print(it.write_receipts(it.Source("1.0.0", "0123abcd", 1_700_000_000), pathlib.Path(sys.argv[1]), print))
"""


def made(base, name):
    """A copy of the clone, and the archive of its receipts; the second call of the tool proves nothing."""
    clone = base.copy(name, with_store=True)
    command = [sys.executable, "-c", WRITE, str(clone.folder)]
    runs = [subprocess.run(command, cwd=clone.folder / "tools", env=clone.environment(), capture_output=True, text=True, check=True, timeout=SECONDS) for _ in range(2)]
    return clone, clone.folder / runs[0].stdout.split("\n")[-2]


def right_problems(base, path):
    """By receipts of the sources nothing is proved; it is said who is trusted, and the store gets nothing."""
    clone = without_proofs(base, "receipts-right")
    ways = dict.fromkeys(base.names, BY_RECEIPT)
    said = "the receipts are of commit 0123abcd; whoever made them is trusted"
    problems = outcome_problems(clone.prove("--receipts", str(path)), ways, said, TRUST)
    problems += way_problems(clone, "by receipts") + ([] if not clone.entries() else ["the store was written"])
    for name in base.names[:-1]:
        records = [it.record(f"out/{place}/{name}.key")["sum"] for it, place in ((base, "libraries"), (clone, "receipts/libraries"))]
        problems += [] if records[0] == records[1] else [f"{name} has other bytes than the one that was proved"]
    return problems + outcome_problems(clone.prove("--receipts", str(path)), {}, TRUST)


def other_problems(base, path):
    """A crate whose receipt is of other sources is proved, and the others are built by theirs."""
    clone = without_proofs(base, "receipts-other")
    clone.comment()
    ways = {"low": "proved", "high": BY_RECEIPT, "x25scan": BY_RECEIPT}
    return outcome_problems(clone.prove("--receipts", str(path)), ways, "the receipt of low is of other sources, so low is proved here", TRUST)


def refused_problems(base, path, sentence):
    """An archive that can't be used: nothing is built."""
    with TURN:
        status, ways, said = base.prove("--receipts", str(path))
    return [] if (status, ways, said) == (65, {}, f"x25prove: {sentence}\n") else [f"status {status}: {said}"]


def changed(path, place, change):
    """A copy of an archive in which one of its files was changed."""
    plain = subprocess.run(["zstd", "-dcq" if path.suffix == ".zst" else "-h", path], capture_output=True, check=True).stdout
    held = io.BytesIO()
    with tarfile.open(fileobj=io.BytesIO(plain)) as old, tarfile.open(fileobj=held, mode="w") as new:
        for entry in old:
            content = change(entry.name, old.extractfile(entry).read())
            entry.size = len(content)
            new.addfile(entry, io.BytesIO(content))
    place.write_bytes(subprocess.run(["xz", "-0c"], input=held.getvalue(), capture_output=True, check=True).stdout)
    return place


def of_other_kit(name, content):
    """The list of an archive, with another kit and the right sum."""
    if name != "RECEIPTS":
        return content
    from proofs_lib.receipts import sum_of

    about = {**json.loads(content), "kit": "0", "kit_name": "rattle-kit-1"}
    del about["sum"]
    return json.dumps({**about, "sum": sum_of(about)}).encode()


def cases(base):
    clone, path = made(base, "receipts")
    folder = clone.folder
    yield Case("receipts", right_problems, base, path)
    yield Case("receipts of other sources", other_problems, base, path)
    cut, none, nothing = folder / "cut.tar.zst", folder / "none.tar.zst", folder / "nothing.tar.zst"
    cut.write_bytes(path.read_bytes()[:-100])
    none.write_bytes(b"no archive")
    again = "get it again, or run bin/x25prove without it"
    yield Case("receipts that were cut", refused_problems, clone, cut, f"the receipts {cut} are damaged: {again}")
    yield Case("no receipts", refused_problems, clone, none, f"{none} is no archive of receipts: tools/package --receipts makes one")
    yield Case("receipts that are not there", refused_problems, clone, nothing, f"the receipts {nothing} can't be read: No such file or directory")
    flipped = changed(path, folder / "flipped.tar.xz", lambda name, content: content[:-1] if name.startswith("low/") else content)
    yield Case("receipts with another file", refused_problems, clone, flipped, f"the receipts {flipped} are damaged: {again}")
    other = changed(path, folder / "other.tar.xz", of_other_kit)
    sentence = f"the receipts {other} are of another kit, rattle-kit-1: use that kit, or run bin/x25prove without them"
    yield Case("receipts of another kit", refused_problems, clone, other, sentence)

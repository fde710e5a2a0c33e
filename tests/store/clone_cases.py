"""Which crates are proved again: in a second clone, after a switch, a comment, a late copy, a damaged entry."""
import os
import shutil

from clones import TEXTS, git
from runner import Case

FROM_STORE = "from the store"
PROVED_BEFORE = "from nothing"
OTHER_BODY = TEXTS["high/src/lib.rt"].replace("low::one()", "let number = low::one();\n    number")


def without_proofs(base, name):
    """A clone of the same sources, with nothing built and an empty store."""
    clone = base.fresh(name)
    for entry in clone.entries():
        entry.unlink()
    return clone


def outcome_problems(outcome, made, *sentences):
    """How a run differs from one that ends well and made crates in these ways."""
    status, got, said = outcome
    problems = [] if (status, got) == (0, made) else [f"status {status}, made {got}, expected {made}: {said}"]
    return problems + [f"it does not say {it!r}: {said}" for it in sentences if it not in said]


def way_problems(clone, way):
    """How the answer to tools differs: how the program was proved, and whether it is stale."""
    got, expected = clone.way(), [str(way), str(way is None)]
    return [] if got == expected else [f"tools get {got}, expected {expected}"]


def nothing_problems(outcome):
    return outcome_problems(outcome, {}, "the program is built of these sources")


def again_problems(base):
    """Nothing is proved again, nor after all files were written anew."""
    clone = base.copy("again")
    for name, text in TEXTS.items():
        clone.change(name, text)
    return nothing_problems(clone.prove()) + way_problems(clone, PROVED_BEFORE)


def second_problems(base):
    """A second clone takes all of the store, and the same bytes."""
    clone = base.fresh("second")
    problems = way_problems(clone, None) + outcome_problems(clone.prove(), dict.fromkeys(base.names, FROM_STORE)) + way_problems(clone, PROVED_BEFORE)
    libraries = [f"out/libraries/{name}.key" for name in base.names[:-1]]
    for name in (*libraries, "crates/x25scan/out/x25scan.key", "crates/x25scan/out/x25scan"):
        if (clone.folder / name).read_bytes() != (base.folder / name).read_bytes():
            problems.append(f"{name} has other bytes")
    mode = (clone.folder / "crates/x25scan/out/x25scan").stat().st_mode & 0o777
    return problems + ([] if mode & 0o100 else [f"the program has the mode {mode:o}"])


def switch_problems(other):
    """There and back, nothing is proved, whether there was a run in between or not."""
    clone = other.copy("switch")
    (clone.folder / ".gitignore").write_text("out/\nstore/\n")
    for words in (["init", "-q", "-b", "other"], ["add", "-A"], ["commit", "-qm", "another body"], ["switch", "-qc", "main"]):
        git(clone.folder, *words)
    clone.change("high/src/lib.rt", TEXTS["high/src/lib.rt"])
    git(clone.folder, "commit", "-qam", "the first body")
    problems = way_problems(clone, None)
    for branch in ("main", "other"):
        git(clone.folder, "switch", "-q", branch)
        problems += outcome_problems(clone.prove(), dict.fromkeys(("high", "x25scan"), FROM_STORE))
    git(clone.folder, "switch", "-q", "main")
    git(clone.folder, "switch", "-q", "other")
    return problems + way_problems(clone, PROVED_BEFORE)


def comment_problems(base):
    """A comment in a low library proves that library alone, also where the store can't be used."""
    clone = base.copy("comment", with_store=True)
    clone.comment()
    clone.store.chmod(0o777)
    before = clone.entries()
    problems = way_problems(clone, None)
    sentence = f"the store {clone.store} is not used, since others may write to it; chmod go-w lets it be used"
    problems += outcome_problems(clone.prove(), {"low": "proved", "high": "unchanged", "x25scan": "unchanged"}, sentence)
    return problems + way_problems(clone, PROVED_BEFORE) + ([] if clone.entries() == before else ["the store was written"])


def copied_problems(base, other):
    """An old library that is copied over a newer one is not taken for it, with its record or without."""
    clone = other.copy("copied", with_store=True)
    problems = []
    for names in (["high.rlib"], ["high.rlib", "high.key"]):
        for name in names:
            old, place = base.folder / "out/libraries" / name, clone.folder / "out/libraries" / name
            shutil.rmtree(place, ignore_errors=True)
            shutil.copytree(old, place) if old.is_dir() else shutil.copy(old, place)
        (clone.folder / "crates/x25scan/out/x25scan.key").unlink()
        problems += outcome_problems(clone.prove(), dict.fromkeys(("high", "x25scan"), FROM_STORE))
    return problems


def copied_program_problems(base):
    """An old program that is copied late is stale: without its record, and with one of other sources."""
    clone = base.copy("copied-program", with_store=True)
    program = clone.folder / "crates/x25scan/out/x25scan"
    program.write_bytes(program.read_bytes() + b"x")
    problems = way_problems(clone, None)
    shutil.copy(base.folder / "crates/x25scan/out/x25scan", program)
    clone.change("x25scan/src/main.rt", TEXTS["x25scan/src/main.rt"] + "\n// A comment.\n")
    later = program.stat().st_mtime + 100
    os.utime(program, (later, later))
    return problems + way_problems(clone, None)


def damaged_problems(base):
    """A damaged entry is removed with a sentence, and proved anew; the next clone takes the new one."""
    clone = base.fresh("damaged")
    entry, = clone.entries("low")
    content = bytearray(entry.read_bytes())
    content[-9] ^= 1
    entry.write_bytes(content)
    sentence = "the proof of low in the store was damaged (its sum is another), so it was removed and is made anew"
    problems = outcome_problems(clone.prove(), {**dict.fromkeys(base.names, FROM_STORE), "low": "proved"}, sentence)
    return problems + ([] if clone.entries("low") == [entry] and entry.read_bytes() != content else ["the entry was not written again"])


def refused_problems(base):
    """A crate that is not proved is named with what the prover said, and nothing of it is kept."""
    clone = base.copy("refused", with_store=True)
    clone.change("low/src/lib.rt", TEXTS["low/src/lib.rt"].replace("\n    1\n", "\n    2\n"))
    before = clone.entries()
    status, made, said = clone.prove()
    problems = [] if (status, made) == (3, {}) and "not proved or not built: low" in said else [f"status {status}, made {made}: {said}"]
    problems += [] if clone.entries() == before and not list((clone.folder / "out/fresh").iterdir()) else ["something was kept"]
    return problems + way_problems(clone, None)


def adopted_problems(base):
    """What the gate proved is taken where the sources are those of its beginning, and no source of it is missing."""
    clone = without_proofs(base, "adopted")
    before = clone.tool("--sum")[1].strip()
    for name in ("low", "high"):
        shutil.copytree(base.folder / f"out/libraries/{name}.rlib", clone.folder / f"crates/{name}/out/rlib/{name}.rlib")
    missing = f"x25prove: there is no program {clone.folder}/crates/x25scan/out/x25scan: ./check --gate leaves one\n"
    problems = [] if (got := clone.tool("--adopt", before)) == (3, missing) else [f"without a program: {got}"]
    shutil.copy(base.folder / "crates/x25scan/out/x25scan", clone.folder / "crates/x25scan/out/x25scan")
    got = clone.tool("--adopt", before)
    problems += [] if got == (0, "x25prove: 3 crates are those that the gate proved\n") else [f"got {got}"]
    problems += way_problems(clone, PROVED_BEFORE) + ([] if len(clone.entries()) == 3 else ["the store has other entries"])
    clone.comment()
    got = clone.tool("--adopt", before)
    return problems + ([] if got == (3, "x25prove: a source changed since the gate began, so nothing of it is taken\n") else [f"after a change: {got}"])


def cases(base):
    other = base.copy("other", with_store=True)
    other.change("high/src/lib.rt", OTHER_BODY)
    yield Case("another body", outcome_problems, other.prove(), {"high": "proved", "x25scan": "proved"})
    yield Case("again", again_problems, base)
    yield Case("a second clone", second_problems, base)
    yield Case("a switch there and back", switch_problems, other)
    yield Case("a comment, and a store that others may write to", comment_problems, base)
    yield Case("a library that is copied late", copied_problems, base, other)
    yield Case("a program that is copied late", copied_program_problems, base)
    yield Case("a damaged entry", damaged_problems, base)
    yield Case("what the gate proved", adopted_problems, base)

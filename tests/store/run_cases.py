"""Runs of bin/x25prove: at once, in the background, interrupted, over kept work, and words that it refuses."""
import fcntl
import os
import pathlib
import re
import shutil
import signal
import time

from clone_cases import OTHER_BODY, PROVED_BEFORE, outcome_problems, way_problems
from clones import SECONDS, TEXTS
from runner import Case

KEPT = "over kept work"
LOW_BODY = TEXTS["low/src/lib.rt"].replace("\n    1\n", "\n    let number: u8 = 1;\n    number\n")


def wait_for(run, sentence):
    """What a run said until a line that has a sentence."""
    said = ""
    for line in run.stderr:
        said += line
        if sentence in line:
            return said
    return said


def waiting_problems(base):
    """A run waits for another of the same clone, and says so."""
    clone = base.fresh("waiting")
    (clone.folder / "out").mkdir()
    with (clone.folder / "out" / "lock").open("w") as lock:
        fcntl.flock(lock, fcntl.LOCK_EX)
        with clone.begin() as run:
            said = wait_for(run, "another run builds here; this one waits for its end")
            fcntl.flock(lock, fcntl.LOCK_UN)
            rest = run.communicate(timeout=SECONDS)[1]
    return [] if run.returncode == 0 and "waits" in said and "3 from the store" in rest else [f"status {run.returncode}: {said}{rest}"]


def background_problems(base):
    """A run in the background ends after the command, with its progress in the log."""
    clone = base.fresh("background")
    status, _, said = clone.prove("--background")
    found = re.fullmatch(r"x25prove: proves in the background, process (\d+); tail -f out/prove\.log shows its progress, and kill \1 ends it\n", said)
    log = clone.folder / "out" / "prove.log"
    until = time.monotonic() + SECONDS
    while "built in" not in log.read_text() and time.monotonic() < until:
        time.sleep(0.1)
    return [] if status == 0 and found and "3 from the store" in log.read_text() else [f"status {status}: {said}{log.read_text()}"]


def provers_of(folder):
    """The processes that work in a folder."""
    found = []
    for process in pathlib.Path("/proc").glob("[0-9]*"):
        try:
            found += [process.name] if pathlib.Path(os.readlink(process / "cwd")).is_relative_to(folder) else []
        except OSError:
            continue
    return found


def interrupted_problems(base, number):
    """A run that a signal ends leaves nothing half, and no prover; the next one proves what is left."""
    clone = base.copy(f"interrupted-{number}", with_store=True)
    clone.change("low/src/lib.rt", LOW_BODY)
    before = clone.entries()
    with clone.begin(STAND_IN_SECONDS=str(SECONDS)) as run:
        wait_for(run, "proving low")
        time.sleep(0.5)
        run.send_signal(number)
        said = run.communicate(timeout=SECONDS)[1]
    problems = [] if (run.returncode, said) == (128 + number, "x25prove: interrupted; what was proved until then is kept\n") else [f"status {run.returncode}: {said}"]
    problems += [f"{it} works on" for it in provers_of(clone.folder)]
    return problems + ([] if clone.entries() == before else ["the store was written"]) + way_problems(clone, None)


def changed_problems(base):
    """A library whose source is written while it is proved is not taken."""
    clone = base.copy("changed", with_store=True)
    clone.comment()
    before = clone.entries()
    with clone.begin(STAND_IN_SECONDS="1") as run:
        wait_for(run, "proving low")
        clone.comment()
        said = run.communicate(timeout=SECONDS)[1]
    sentence = "a source of it changed while it was proved; run this again"
    return [] if run.returncode == 3 and sentence in said and clone.entries() == before else [f"status {run.returncode}: {said}"]


def kept_problems(base):
    """A developer's build goes on with kept work, is marked, and gives the store nothing; it takes what was proved."""
    clone = base.copy("kept", with_store=True)
    problems = outcome_problems(clone.prove("--incremental"), {})
    clone.change("high/src/lib.rt", OTHER_BODY)
    before = clone.entries()
    made = {"low": "proved before", "high": "proved", "x25scan": "proved"}
    trust = "; its proof trusts kept work (out/kept): bin/x25prove proves it from nothing, and packages need that"
    problems += outcome_problems(clone.prove("--incremental"), made, trust) + way_problems(clone, KEPT)
    problems += outcome_problems(clone.prove("--incremental"), {}, trust)
    problems += [] if clone.entries() == before else ["the store was written"]
    problems += [] if any((clone.folder / "out/kept/work/high").iterdir()) else ["no work is kept"]
    clone.change("high/src/lib.rt", TEXTS["high/src/lib.rt"])
    return problems + outcome_problems(clone.prove(), {"x25scan": "from the store"}) + way_problems(clone, PROVED_BEFORE)


def no_kit_problems(base):
    """Without rt, nothing can be proved, and a program that is built stays what it is."""
    clone = base.copy("no-kit")
    path = clone.folder / "path"
    path.mkdir()
    (path / "zstd").symlink_to(shutil.which("zstd") or "/bin/true")
    status, _, said = clone.prove(PATH=str(path))
    problems = [] if status == 3 and "rt is not on the path" in said else [f"status {status}: {said}"]
    return problems + ([] if clone.way(str(path)) == [PROVED_BEFORE, "False"] else [f"tools get {clone.way(str(path))}"])


def refused_problems(base, words, environment, status, sentence):
    """Words that are refused, with what to do."""
    got, made, said = base.prove(*words, **environment)
    return [] if (got, made, said) == (status, {}, f"x25prove: {sentence}\n") else [f"status {got}: {said}"]


def listed_problems(base):
    """The store is listed, and emptied."""
    clone = base.fresh("listed")
    status, _, said = clone.prove("--store")
    lines = rf"(\d{{4}}-\d\d-\d\d \d\d:\d\d +\S+ [kM]?B?(bytes)? +(low|high|x25scan)\n){{3}}{re.escape(str(clone.store))}: 3 proofs, \S+ kB of 4\.0 GB\n"
    problems = [] if status == 0 and re.fullmatch(lines, said) else [f"status {status}: {said}"]
    status, _, said = clone.prove("--empty-store")
    return problems + ([] if (status, said, clone.entries()) == (0, f"3 proofs were removed from {clone.store}\n", []) else [f"status {status}: {said}"])


def cases(base):
    yield Case("a run that waits", waiting_problems, base)
    yield Case("in the background", background_problems, base)
    yield Case("interrupted", interrupted_problems, base, signal.SIGINT)
    yield Case("ended", interrupted_problems, base, signal.SIGTERM)
    yield Case("a source that changes", changed_problems, base)
    yield Case("kept work", kept_problems, base)
    yield Case("no kit", no_kit_problems, base)
    yield Case("the store is listed and emptied", listed_problems, base)
    sentence = "X25SCAN_STORE_LIMIT is '4 GB': write a number of bytes, or one with K, M or G, such as 4G"
    yield Case("a limit that is none", refused_problems, base, (), {"X25SCAN_STORE_LIMIT": "4 GB"}, 64, sentence)
    sentence = "unrecognized arguments: --increment; bin/x25prove --help lists the options"
    yield Case("an option that is none", refused_problems, base, ("--increment",), {}, 64, sentence)
    sentence = "argument --store: not allowed with argument --incremental; bin/x25prove --help lists the options"
    yield Case("two options at once", refused_problems, base, ("--incremental", "--store"), {}, 64, sentence)

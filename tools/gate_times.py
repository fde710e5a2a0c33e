#!/usr/bin/env python3
"""gate_times.py watch FILE PARENT: notes into FILE, until it is ended, what each check and each run below the process PARENT costs.
gate_times.py table FILE: prints what each part of the gate cost, with the ten dearest of each.

`rt ci` says nothing of time, so the watcher reads /proc once a second: which checks run, of which crate and with
which edit, and the processor seconds that each took until it was last seen.
"""
from __future__ import annotations

import collections
import json
import os
import pathlib
import signal
import sys
import time
from collections.abc import Iterable, Mapping, Sequence
from dataclasses import dataclass

ROOT = pathlib.Path(__file__).resolve().parent.parent
PAUSE = 1.0
TICKS = os.sysconf("SC_CLK_TCK")
SUITES = tuple(sorted(it.parent.name for it in (ROOT / "tests").glob("*/compare")))
# A seed is the check of an unchanged crate, from which the checks of its edits start.
PARTS = ("libraries", "tests", "seeds", "edits", "programs", *SUITES)
DEAREST = 10


# What distinguishes a process from others, and from what it was before it began to run another program.
Key = tuple[int, int, tuple[str, ...]]


@dataclass
class Process:
    """A process as /proc shows it, with the processor seconds of its own and of the children that have ended."""

    number: int
    parent: int
    started: int
    seconds: float
    words: list[str]

    @property
    def name(self) -> str:
        return os.path.basename(self.words[0]) if self.words else ""

    @property
    def key(self) -> Key:
        """What distinguishes a process from others, and from what it was before it began to run another program."""
        return self.number, self.started, tuple(self.words)


@dataclass
class Run:
    """One check or one run of a program: the part of the gate, the crate or edit, and the cost."""

    part: str
    label: str
    begun: float
    ended: float
    seconds: float


def processes() -> dict[int, Process]:
    """All processes by number, without those that end while they are read."""
    found = {}
    for folder in pathlib.Path("/proc").iterdir():
        if folder.name.isdigit():
            try:
                fields = (folder / "stat").read_text().rpartition(") ")[2].split()
                words = os.fsdecode((folder / "cmdline").read_bytes()).split("\0")[:-1]
            except OSError:
                continue
            seconds = sum(int(it) for it in fields[11:15]) / TICKS
            number = int(folder.name)
            found[number] = Process(number, int(fields[1]), int(fields[19]), seconds, words)
    return found


def below(process: Process | None, ancestor: int, found: Mapping[int, Process]) -> bool:
    """Whether a process descends from another."""
    while process and process.number != ancestor:
        process = found.get(process.parent)
    return process is not None


def edited(edit: pathlib.Path, folder: pathlib.Path) -> dict[str, str]:
    """The texts of the files that a must-fail edit changes, by their path in the crate."""
    texts: dict[str, str] = {}
    file = old = ""
    for line in edit.read_text().split("\n"):
        name, _, value = line.partition(":")
        value = value.removeprefix(" ")
        if name == "file":
            file = value.strip()
            texts.setdefault(file, (folder / file).read_text())
        elif name == "old":
            old = value
        elif name == "new" and old:
            texts[file], old = texts[file].replace(old, value), ""
    return texts


def edit_of(crate: str, room: str) -> str | None:
    """The name of the must-fail edit whose texts are in the copy of a crate that is being checked; None for the unchanged crate."""
    folder = ROOT / "crates" / crate
    for edit in sorted((folder / "must-fail").glob("*.edit")):
        if all((pathlib.Path(room) / file).read_text() == text for file, text in edited(edit, folder).items()):
            return edit.stem
    return None


def kind_of(process: Process) -> tuple[str, str] | None:
    """The part of the gate that a process belongs to, and the crate or edit that it is for; None for other processes."""
    words = process.words
    if process.name == "rattle" and "--crate-name" in words:
        crate = words[words.index("--crate-name") + 1]
        room = os.readlink(f"/proc/{process.number}/cwd")
        if "/rt-edit-" in room:
            edit = edit_of(crate, room)
            return ("edits", f"{crate}/{edit}") if edit else ("seeds", crate)
        if "--test" in words:
            return "tests", crate
        return ("programs" if "--crate-checked" in words else "libraries"), crate
    if "/rt-run-" in (words[0] if words else ""):
        return "tests" if process.name.startswith("tests_") else "programs", f"{process.name} (run)"
    if words[1:2] and words[1].endswith(tuple(f"{suite}/compare" for suite in SUITES)):
        return words[1].split("/")[-2], "all"
    return None


def watch(file: str, ancestor: int) -> None:
    """Notes all runs below a process until SIGTERM ends this one."""
    runs: dict[Key, Run] = {}
    parts: dict[Key, tuple[str, str] | None] = {}
    going = True

    def end(*_: object) -> None:
        nonlocal going
        going = False

    signal.signal(signal.SIGTERM, end)
    while going:
        now, found = time.time(), processes()
        for process in found.values():
            if process.key not in parts:
                try:
                    parts[process.key] = kind_of(process) if below(process, ancestor, found) else None
                except OSError:
                    continue
                parent = found.get(process.parent)
                if parent and parts.get(parent.key):
                    parts[process.key] = None
            if part := parts[process.key]:
                begun = runs[process.key].begun if process.key in runs else now
                runs[process.key] = Run(*part, begun, now + PAUSE, process.seconds)
        time.sleep(PAUSE)
    pathlib.Path(file).write_text(json.dumps([vars(run) for run in runs.values()]))


def united(runs: Iterable[Run]) -> float:
    """The seconds in which at least one of the runs was running."""
    total, last = 0.0, 0.0
    for run in sorted(runs, key=lambda it: it.begun):
        total += max(run.ended - max(run.begun, last), 0)
        last = max(last, run.ended)
    return total


def table(file: str) -> None:
    """Prints the parts with their cost, and the dearest of each."""
    parts = collections.defaultdict(list)
    for record in json.loads(pathlib.Path(file).read_text()):
        parts[record["part"]].append(Run(**record))
    everything = [run for runs in parts.values() for run in runs]
    print("part        processor s   wall s    runs")
    for name, runs in [*((part, parts[part]) for part in PARTS), ("all", everything)]:
        print(f"{name:10} {sum(run.seconds for run in runs):12.0f} {united(runs):8.0f} {len(runs):7}")
    for part in PARTS:
        costs: dict[str, float] = collections.defaultdict(float)
        for run in parts[part]:
            costs[run.label] += run.seconds
        if len(costs) > 1:
            dearest = "; ".join(f"{label} {seconds:.0f}" for label, seconds in sorted(costs.items(), key=lambda it: -it[1])[:DEAREST])
            print(f"dearest {part}, processor s: {dearest}")


def main(words: Sequence[str]) -> None:
    if words[:1] == ["watch"] and len(words) == 3:
        watch(words[1], int(words[2]))
    elif words[:1] == ["table"] and len(words) == 2:
        table(words[1])
    else:
        sys.exit(__doc__)


if __name__ == "__main__":
    main(sys.argv[1:])

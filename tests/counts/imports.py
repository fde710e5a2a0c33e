"""What each crate builds on: the column of docs/ARCHITECTURE.md and crates.txt, compared with what its sources import."""
import functools
import re

from runner import ROOT

ROW = re.compile(r"^\| \[(\w+)\]\(\.\./crates/\w+\) \|.*\| ([\w, -]+) \|$", re.MULTILINE)
USE = re.compile(r"(?<![\w.])([a-z]\w*)::")
# An import of definitions or of a proof.
CITED = re.compile(r"\bRattle\.(\w+)\.")
DOCUMENT = ROOT / "docs" / "ARCHITECTURE.md"


@functools.cache
def written():
    """The crates that each crate builds on, as the table has them."""
    return {crate: set(re.findall(r"\w+", names)) for crate, names in ROW.findall(DOCUMENT.read_text())}


def wrong_crates(crates):
    """Where the table has other crates than the repository, except for those that have tests of libraries."""
    kept = {crate for crate in crates if not crate.startswith("tests_") or crate == "tests_devices"}
    return [f"{name} is in one of them" for name in sorted(kept ^ written().keys())]


def used(crate):
    """The crates that the sources of a crate name, other than in comments and in contracts."""
    names = set()
    for source in (ROOT / "crates" / crate / "src").rglob("*.rt"):
        lines = (line.strip() for line in source.read_text().splitlines())
        names |= {name for line in lines if not line.startswith(("//", "ghost ")) for name in USE.findall(line)}
    return names & written().keys() - {crate}


@functools.cache
def listed():
    """The libraries that each crate uses by crates.txt, the kit's among them."""
    lines = (line.partition(":") for line in (ROOT / "crates.txt").read_text().splitlines() if line and line[0] != "#")
    return {head.split()[0]: set(names.split()) for head, _, names in lines}


@functools.cache
def imported(crate):
    """The libraries of crates.txt that a crate names in its code, its contracts, its definitions and its proofs."""
    names, folder = set(), ROOT / "crates" / crate
    for source in (it for part in ("src", "specs", "proofs") for it in (folder / part).rglob("*") if it.suffix in (".rt", ".antt")):
        lines = (line for line in source.read_text().splitlines() if not line.lstrip().startswith("//"))
        names |= {name for line in lines for pattern in (USE, CITED) for name in pattern.findall(line)}
    return names & set(listed()).union(*listed().values()) - {crate}


@functools.cache
def reached(crate):
    """The libraries that a crate imports, and those that they import in turn."""
    own = imported(crate) if crate in listed() else set()
    return own.union(*map(reached, own))


def wrong_libraries(crate):
    """Where crates.txt lists none of the libraries that a crate imports, or one to which no import leads."""
    yield from (f"imports {name}, which crates.txt does not list" for name in sorted(imported(crate) - listed()[crate]))
    yield from (f"lists {name} in crates.txt, and no import leads there" for name in sorted(listed()[crate] - reached(crate)))


def below(crate):
    """All crates below a crate, as the table has them."""
    own = written().get(crate, set())
    return own.union(*map(below, own))


def problems(crate):
    """Where the table names a crate that this one doesn't use, or names none from which one leads that it uses."""
    yield from (f"builds on {name} in {DOCUMENT.name}, and does not use it" for name in sorted(written()[crate] - used(crate)))
    yield from (f"uses {name}, which {DOCUMENT.name} does not lead to" for name in sorted(used(crate) - below(crate)))

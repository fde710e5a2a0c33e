"""The files of a package: programs, manual pages, completions, documents with their pictures and traces, and PROVED."""
from __future__ import annotations

import functools
import gzip
import hashlib
import posixpath
import re
from collections.abc import Iterator, Sequence
from dataclasses import dataclass

import completions
from option_tables import NAMES, ROOT, options_of

DOCUMENTS = "share/doc/x25scan"
# What is installed in the folder of the documents, by its path in the repository.
READ = {f"docs/{name}.md": f"{name}.md" for name in ("GUIDE", "REPORT", "CODES", "TRACE", "RULES", "CAPTURES")}
READ |= {"CHANGELOG.md": "CHANGELOG.md", "docs/rows.schema.json": "rows.schema.json"}
# Folders of which the documents name files; what is installed of them keeps its place in the repository.
EXAMPLES, CAPTURES, TRACES = "examples", "tests/captures/files", ("tests/traces", "tests/gaps/traces")
LINK = re.compile(r"\[([^\]\n]*)\]\(([^)#\s]*)(#[^)\s]*)?\)")
INSTALLED_PROGRAM = re.compile(rf"(?<![\w/])(?:bin|tools)/({'|'.join(NAMES)})(?![\w/])")
# The other programs, their libraries and a link to x25scan are placed as in the repository; links lead to the launchers.
SHARED = "share/x25scan"
LAUNCHED = ("x25trace", "x25page")
LIBRARIES = {"x25tools_lib": ("*.py",), "x25trace_lib": ("*.py",), "x25page_lib": ("*.py", "page/*.*")}
PICTURES = "docs/pictures"


class Refusal(Exception):
    """Why there is no package."""


@dataclass(frozen=True)
class Release:
    """What is released: the bytes of the program, its help, its version, the kit that proved it, and the commit with its date.

    It is not known whether a program that was named on the command line was proved at this commit.
    """

    program: bytes
    help: str
    is_named: bool
    version: str
    kit: str
    commit: str
    seconds: int
    author: str


@dataclass(frozen=True)
class File:
    """A file of a package, or a symbolic link where it has a target."""

    path: str
    content: bytes = b""
    mode: int = 0o644
    target: str = ""


def place_of(path: str, target: str) -> str:
    """The path in the repository that a link of a document leads to."""
    return posixpath.normpath(posixpath.join(posixpath.dirname(path), target))


@functools.cache
def shown() -> set[str]:
    """The examples, the traces that a document links to, and the captures that one names, by their place in the repository."""
    texts = {path: (ROOT / path).read_text() for path in READ}
    linked = {place_of(path, target) for path, text in texts.items() for _, target, _ in LINK.findall(text)}
    traces = {it for it in linked if it.startswith(TRACES) and it.endswith(".trace")}
    captures = {f"{CAPTURES}/{it.name}" for it in (ROOT / CAPTURES).iterdir() if it.name in texts["docs/CAPTURES.md"]}
    return traces | captures | {f"{EXAMPLES}/{it.name}" for it in (ROOT / EXAMPLES).iterdir()}


def pictures() -> dict[str, str]:
    """The pictures of the documents, as they are installed, by their place in the repository."""
    return {f"{PICTURES}/{it.name}": f"pictures/{it.name}" for it in sorted((ROOT / PICTURES).glob("*.png"))}


def link_of(match: re.Match[str], path: str) -> str:
    """A link of a document as it is after the installation; its text alone where its target is not installed."""
    text, target, part = match[1], match[2], match[3] or ""
    if not target or "://" in target:
        return match[0]
    place = place_of(path, target)
    known = READ | pictures()
    installed = place if place in (*shown(), EXAMPLES, CAPTURES) else known.get(place)
    return f"[{text}]({installed}{part})" if installed else text


def document(path: str) -> bytes:
    """A document with links and names of programs that are right after the installation."""
    text = LINK.sub(lambda it: link_of(it, path), (ROOT / path).read_text())
    return INSTALLED_PROGRAM.sub(r"\1", text).encode()


def programs(release: Release) -> Iterator[File]:
    """The programs, and the modules of those in Python."""
    yield File("bin/x25scan", release.program, 0o755)
    yield File(f"{SHARED}/bin/x25scan", target="../../../bin/x25scan")
    for name in LAUNCHED:
        yield File(f"bin/{name}", target=f"../{SHARED}/bin/{name}")
        for path in (f"bin/{name}", f"tools/{name}"):
            yield File(f"{SHARED}/{path}", (ROOT / path).read_bytes(), 0o755)
    for library, patterns in LIBRARIES.items():
        for file in sorted(it for pattern in patterns for it in (ROOT / "tools" / library).glob(pattern)):
            yield File(f"{SHARED}/{file.relative_to(ROOT)}", file.read_bytes())


def pages_and_completions(release: Release, zsh_folder: str) -> Iterator[File]:
    """The manual pages and the completions of each program."""
    for name in NAMES:
        options = options_of(name, release.help)
        page = (ROOT / "docs" / f"{name}.1").read_bytes()
        yield File(f"share/man/man1/{name}.1.gz", gzip.compress(page, 9, mtime=0))
        yield File(f"share/bash-completion/completions/{name}", completions.bash(name, options).encode())
        yield File(f"{zsh_folder}/_{name}", completions.zsh(name, options).encode())
        yield File(f"share/fish/vendor_completions.d/{name}.fish", completions.fish(name, options).encode())


def documents() -> Iterator[File]:
    """The documents, and the traces and captures that they name."""
    for path, name in READ.items():
        yield File(f"{DOCUMENTS}/{name}", document(path))
    for path, name in pictures().items():
        yield File(f"{DOCUMENTS}/{name}", (ROOT / path).read_bytes())
    for path in shown():
        yield File(f"{DOCUMENTS}/{path}", (ROOT / path).read_bytes())


def proved(release: Release, files: Sequence[File]) -> File:
    """The text of PROVED: the kit, the commit, and the sums of the files, which `sha256sum -c` reads next to bin and share."""
    sums = "".join(f"{hashlib.sha256(it.content).hexdigest()}  {it.path}\n" for it in files if not it.target)
    known = "the program is the one that was named: whether it was proved of this commit is not known"
    commit = f"# commit {release.commit}\n" + (f"# {known}\n" if release.is_named else "")
    text = f"# x25scan {release.version}, {release.kit}\n{commit}{sums}"
    return File(f"{DOCUMENTS}/PROVED", text.encode())


def files_of(release: Release, zsh_folder: str) -> list[File]:
    """All files of a package, in the order of their paths, which are below the folder that has bin and share."""
    found = [*programs(release), *pages_and_completions(release, zsh_folder), *documents()]
    found.sort(key=lambda it: it.path)
    return sorted([*found, proved(release, found)], key=lambda it: it.path)

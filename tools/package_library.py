"""The packages of the library: libx25scan1, libx25scan-dev, python3-x25scan, and a wheel."""
from __future__ import annotations

import base64
import gzip
import hashlib
import io
import pathlib
import re
import tempfile
import zipfile
from collections.abc import Iterator, Sequence

import package_forms
from build_library import FOLDER, SONAME
from marks import Mark, mark_of
from package_files import ROOT, File, Refusal, Release

MODULE = "library/python/x25scan"
CONTROL = """\
Package: {name}
Source: x25scan
Version: {version}
Architecture: {architecture}
Maintainer: {author}
Installed-Size: {size}
Depends: {needs}
Section: {section}
Priority: optional
Description: {about}
"""


def is_built() -> bool:
    """Whether the library is there."""
    return (FOLDER / SONAME).exists()


def refuse_unproved() -> None:
    """Raises a refusal where the library is not of proved code."""
    if (mark := mark_of(FOLDER / SONAME)) is not Mark.PROVED:
        raise Refusal(f"{FOLDER / SONAME} {mark.value}, and only a proved library is packed: tools/build_library.py builds it")


def shared() -> Iterator[File]:
    """The files of libx25scan1."""
    yield File(f"lib/{SONAME}", (FOLDER / SONAME).read_bytes())


def development() -> Iterator[File]:
    """The files of libx25scan-dev."""
    yield File("include/x25scan.h", (FOLDER / "x25scan.h").read_bytes())
    yield File("lib/libx25scan.a", (FOLDER / "libx25scan.a").read_bytes())
    yield File("lib/libx25scan.so", target=SONAME)
    yield File("lib/pkgconfig/x25scan.pc", (FOLDER / "x25scan.pc").read_bytes())
    page = (ROOT / "docs" / "x25scan.3").read_bytes()
    yield File("share/man/man3/x25scan.3.gz", gzip.compress(page, 9, mtime=0))
    for file in sorted((ROOT / "library" / "examples").glob("*.c")):
        yield File(f"share/doc/libx25scan-dev/examples/{file.name}", file.read_bytes())


def module(place: str) -> Iterator[File]:
    """The files of the module for Python, below a folder."""
    for file in sorted((ROOT / MODULE).iterdir()):
        if file.is_file():
            yield File(f"{place}/{file.name}", file.read_bytes())


def library_version() -> str:
    """The newest version of the C library that the shared library needs."""
    found = re.findall(rb"GLIBC_(\d+)\.(\d+)", (FOLDER / SONAME).read_bytes())
    return ".".join(map(str, max((tuple(map(int, it)) for it in found), default=(2, 2))))


def packages(release: Release) -> Iterator[tuple[str, str, str, str, str, Sequence[File]]]:
    """The Debian packages: the name, the architecture, what each needs, its section, what it is, and its files."""
    machine = package_forms.machine(release.program)[1]
    same = f"libx25scan1 (= {release.version})"
    yield "libx25scan1", machine, f"libc6 (>= {library_version()})", "libs", "judges the packets of an X.25 interface", list(shared())
    yield "libx25scan-dev", machine, same, "libdevel", "files to build programs with libx25scan", list(development())
    needs = f"python3 (>= 3.11), libx25scan1 (>= {release.version}), x25scan"
    files = list(module("lib/python3/dist-packages/x25scan"))
    yield "python3-x25scan", "all", needs, "python", "judges the packets of an X.25 interface, in Python", files


def write_debians(release: Release, folder: pathlib.Path) -> Iterator[pathlib.Path]:
    """Writes the .deb of each package of the library."""
    for name, machine, needs, section, about, files in packages(release):
        size = sum(len(it.content) + 1023 >> 10 for it in files)
        text = CONTROL.format(name=name, version=release.version, architecture=machine, author=release.author, size=size, needs=needs, section=section, about=about)
        with tempfile.TemporaryDirectory() as top:
            path = folder / f"{name}_{release.version}_{machine}.deb"
            yield package_forms.build_debian(release, files, text, path, pathlib.Path(top))


def record(files: Sequence[File]) -> str:
    """The sums of a wheel's files."""
    lines = []
    for file in files:
        digest = base64.urlsafe_b64encode(hashlib.sha256(file.content).digest()).rstrip(b"=").decode()
        lines.append(f"{file.path},sha256={digest},{len(file.content)}\n")
    return "".join(lines)


def write_wheel(release: Release, folder: pathlib.Path) -> pathlib.Path:
    """Writes the wheel, which has the module and the shared library."""
    version = release.version.replace("-", "_")
    tag = f"py3-none-linux_{package_forms.machine(release.program)[0]}"
    place = f"x25scan-{version}.dist-info"
    about = f"Metadata-Version: 2.1\nName: x25scan\nVersion: {version}\nSummary: judges the packets of an X.25 interface\nRequires-Python: >=3.11\n"
    wheel = f"Wheel-Version: 1.0\nGenerator: x25scan\nRoot-Is-Purelib: false\nTag: {tag}\n"
    files = [*module("x25scan"), File(f"x25scan/{SONAME}", (FOLDER / SONAME).read_bytes())]
    files += [File(f"{place}/METADATA", about.encode()), File(f"{place}/WHEEL", wheel.encode())]
    files.append(File(f"{place}/RECORD", (record(files) + f"{place}/RECORD,,\n").encode()))
    held = io.BytesIO()
    with zipfile.ZipFile(held, "w", zipfile.ZIP_DEFLATED) as archive:
        for file in files:
            archive.writestr(zipfile.ZipInfo(file.path), file.content, zipfile.ZIP_DEFLATED)
    path = folder / f"x25scan-{version}-{tag}.whl"
    path.write_bytes(held.getvalue())
    return path

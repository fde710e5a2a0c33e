"""The forms of a package: a .tar.gz, and a .deb."""
from __future__ import annotations

import gzip
import io
import os
import pathlib
import re
import shutil
import subprocess
import tarfile
from collections.abc import Sequence

from package_files import File, Refusal, Release, files_of

# The names of an ELF machine in archives and in Debian.
MACHINES = {62: ("x86_64", "amd64"), 183: ("aarch64", "arm64"), 243: ("riscv64", "riscv64")}
CONTROL = """\
Package: x25scan
Version: {version}
Architecture: {architecture}
Maintainer: {author}
Installed-Size: {size}
Depends: libc6 (>= {library})
Recommends: python3 (>= 3.10)
Section: net
Priority: optional
Description: reports which side of a recorded X.25 interface broke the protocol
 x25scan reads the packets of one X.25 interface and reports which side broke
 the protocol and with which diagnostic code, the calls and what they cost, the
 settings of their PADs, the peak of calls, and the sums. Every function of it
 is proved to meet its contract.
 .
 x25trace writes the trace that it reads from captures of XOT, LAPB and X.25,
 and x25page a page of HTML with the ladder of each call.
"""


def machine(program: bytes) -> tuple[str, str]:
    """The names of the machine that a program is for."""
    number = int.from_bytes(program[18:20], "little")
    if program[:4] != b"\x7fELF" or number not in MACHINES:
        raise Refusal("the program is no ELF file for x86_64, aarch64 or riscv64")
    return MACHINES[number]


def archive(release: Release, root: str) -> bytes:
    """The bytes of a tar archive, whose entries are of root and of the commit's date."""
    held = io.BytesIO()
    with tarfile.open(fileobj=held, mode="w", format=tarfile.USTAR_FORMAT) as tar:
        for file in files_of(release, "share/zsh/site-functions"):
            entry = tarfile.TarInfo(f"{root}/{file.path}")
            entry.mode, entry.mtime, entry.size = file.mode, release.seconds, len(file.content)
            entry.uname = entry.gname = "root"
            if file.target:
                entry.type, entry.linkname, entry.mode = tarfile.SYMTYPE, file.target, 0o777
            tar.addfile(entry, io.BytesIO(file.content))
    return held.getvalue()


def write_archive(release: Release, folder: pathlib.Path) -> pathlib.Path:
    """Writes the .tar.gz, and returns its path."""
    root = f"x25scan-{release.version}"
    path = folder / f"{root}-linux-{machine(release.program)[0]}.tar.gz"
    path.write_bytes(gzip.compress(archive(release, root), 9, mtime=0))
    return path


def put(file: File, top: pathlib.Path) -> None:
    """Writes a file below a folder."""
    path = top / file.path
    path.parent.mkdir(parents=True, exist_ok=True)
    if file.target:
        path.symlink_to(file.target)
    else:
        path.write_bytes(file.content)
        path.chmod(file.mode)


def control(release: Release, files: Sequence[File]) -> str:
    """The control file of the package, which dpkg reads."""
    versions = re.findall(rb"GLIBC_(\d+)\.(\d+)", release.program)
    library = max(tuple(map(int, it)) for it in versions)
    size = sum(len(it.content) + 1023 >> 10 for it in files)
    names = {"version": release.version, "architecture": machine(release.program)[1], "author": release.author}
    return CONTROL.format(**names, size=size, library=".".join(map(str, library)))


def write_debian(release: Release, folder: pathlib.Path, top: pathlib.Path) -> pathlib.Path:
    """Writes the .deb of the programs from a tree below an empty folder, and returns its path."""
    files = files_of(release, "share/zsh/vendor-completions")
    path = folder / f"x25scan_{release.version}_{machine(release.program)[1]}.deb"
    return build_debian(release, files, control(release, files), path, top)


def build_debian(release: Release, files: Sequence[File], text: str, path: pathlib.Path, top: pathlib.Path) -> pathlib.Path:
    """Writes a .deb of files below /usr, with the text of its control file, from a tree below an empty folder."""
    if not shutil.which("dpkg-deb"):
        raise Refusal("there is no .deb: dpkg-deb is not on the path; install dpkg, or use the .tar.gz")
    for file in files:
        put(file, top / "usr")
    (top / "DEBIAN").mkdir()
    (top / "DEBIAN" / "control").write_text(text)
    for place in (top, *top.rglob("*")):
        if not place.is_symlink() and (place.is_dir() or place.name == "control"):
            place.chmod(0o755 if place.is_dir() else 0o644)
        os.utime(place, (release.seconds, release.seconds), follow_symlinks=False)
    how: list[str | pathlib.Path] = ["--root-owner-group", "-Zxz", "--build", top, path]
    env = {**os.environ, "SOURCE_DATE_EPOCH": str(release.seconds)}
    done = subprocess.run(["dpkg-deb", *how], env=env, capture_output=True, text=True, check=False)
    if done.returncode:
        raise Refusal(f"dpkg-deb made no .deb: {done.stderr.strip()}")
    return path

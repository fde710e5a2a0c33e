"""Where a page is written: the name of its file, and how it replaces an older one."""
from __future__ import annotations

import argparse
import contextlib
import os
import pathlib
import stat
import tempfile
from collections.abc import Iterable, Iterator
from typing import TextIO

from x25tools_lib.refusals import PageWhy, Refusal
from x25tools_lib.streams import is_same, stem_of

from .markup import is_page


def path_of(words: argparse.Namespace) -> pathlib.Path:
    """The file of the page."""
    if words.page is not None:
        return checked(pathlib.Path(words.page), words.captures, words.is_forced)
    name = pathlib.PurePath(words.captures[0])
    stem = name.name if name.suffix == ".html" else stem_of(name.name)
    return checked(pathlib.Path(f"{stem}.html"), words.captures, words.is_forced)


def checked(path: pathlib.Path, inputs: Iterable[str], is_forced: bool) -> pathlib.Path:
    """Returns a path that may be written: neither an input nor, unless that is forced, a file that is no page."""
    if path.is_dir():
        raise Refusal(PageWhy.OUTPUT, f"{path} is a folder: -o names a file")
    if any(is_same(path, name) for name in inputs):
        raise Refusal(PageWhy.OUTPUT, f"{path} is what the page is made of: -o names another file")
    if not is_forced and is_other(path):
        raise Refusal(PageWhy.OUTPUT, f"{path} exists and is no page of x25page: -o names another file, --force writes over it")
    return path


def is_other(path: pathlib.Path) -> bool:
    """Whether a file has something that is no page; an empty file, a device and a pipe have nothing to lose."""
    return path.is_file() and path.stat().st_size > 0 and not is_page(path)


@contextlib.contextmanager
def written(path: pathlib.Path) -> Iterator[TextIO]:
    """A stream for a page, which gets its name when it is complete; a device or a pipe is written to directly."""
    with contextlib.suppress(FileNotFoundError):
        if not stat.S_ISREG(path.stat().st_mode):
            with open(path, "w", encoding="ascii") as out:
                yield out
            return
    place = path.resolve()
    try:
        descriptor, name = tempfile.mkstemp(prefix=".x25page-", dir=place.parent)
    except OSError as fault:
        raise OSError(fault.errno, fault.strerror, str(path)) from fault
    try:
        with open(descriptor, "w", encoding="ascii", newline="\n") as out:
            yield out
        mask = os.umask(0)
        os.umask(mask)
        os.chmod(name, 0o666 & ~mask)
        os.replace(name, place)
    except BaseException:
        os.unlink(name)
        raise

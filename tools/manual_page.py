#!/usr/bin/env python3
"""manual_page.py [--check] [X25SCAN]: writes docs/x25scan.1, docs/x25trace.1 and docs/x25page.1.

It makes the page of x25scan from the help that X25SCAN prints, by default the proved program, else the one that bin/x25try
runs, and the table of crates/explanations, and those of x25trace and x25page from their help. With --check it writes nothing. It
says where a page differs, where the help has other options than are read or other exit statuses than the table, and where the
source of the version names another logic than `rt version`. The last line is 'N passed, M failed'.
"""
from __future__ import annotations

import argparse
import pathlib
import re
import subprocess
import sys
from collections.abc import Iterable, Iterator
from dataclasses import dataclass

sys.dont_write_bytecode = True
from codes_document import rows  # noqa: E402
from option_tables import ROOT, Option, options_of, printed, section  # noqa: E402
from x25page_lib import words as page_words  # noqa: E402
from x25tools_lib import scanner  # noqa: E402
from x25trace_lib import words as trace_words  # noqa: E402

WORDS = ROOT / "crates" / "command_line" / "src" / "options.rt"
VERSION = WORDS.with_name("help.rt")
NAME = re.compile(r'(?:(?:flag|number|text)\(alloc, |\.long\()"([\w-]+)"')
LOGIC = re.compile(r"proved with Rattle, logic (\w+)")
STATUS = re.compile(r"^  (\d+) +(.*)$", re.MULTILINE)
DOCUMENTS = "/usr/share/doc/x25scan/"


@dataclass(frozen=True)
class Scan:
    """The help and the version that x25scan prints."""

    help: str
    version: list[str]


def troff(text: str) -> str:
    """A text, escaped for the macros of a manual page."""
    text = text.replace("\\", "\\e").replace("-", "\\-")
    return "\n".join("\\&" + line if line[:1] in (".", "'") else line for line in text.split("\n"))


def capital(text: str) -> str:
    return text[0].upper() + text[1:]


def head(option: Option) -> str:
    """The tag of a paragraph: an option with its value."""
    if not option.names:
        return f"\\fI{option.value}\\fR"
    names = ", ".join(f"\\fB{troff(name)}\\fR" for name in option.names)
    value = f"\\fI{troff(option.value)}\\fR"
    if option.is_value_free:
        return f"{names} [{value}]"
    return f"{names} {value}" if option.value else names


def synopsis(options: Iterable[Option]) -> str:
    """The lines of a synopsis: all options except those that print a text, and the positional arguments."""
    shown = [it for it in options if len(it.names) < 2]
    ordered = sorted(shown, key=lambda it: not it.names)
    return "".join(head(it) + " ..." * it.is_repeated + "\n" if it.is_needed else f"[{head(it)}]{' ...' * is_operands(it)}\n" for it in ordered)


def is_operands(option: Option) -> bool:
    """Whether it is an argument without a name that may be given several times."""
    return not option.names and option.is_repeated


def entry(title: str, text: str) -> str:
    """A paragraph with a title of its own."""
    return f".TP\n{title}\n{troff(text)}\n"


def entries(options: Iterable[Option]) -> str:
    """The paragraphs of all options, those of a group below its title."""
    text, group = "", ""
    for it in options:
        if it.group != group:
            group = it.group
            text += f".SS {troff(capital(group))}\n"
        default = f" ({it.default} where it is left out)" if it.default else ""
        text += entry(head(it), capital(it.help) + default + ".")
    return text


def beginning(program: str, scan: Scan, summary: str, description: str) -> str:
    """The parts of a page that come first."""
    options = options_of(program, scan.help)
    text = f'.TH {program.upper()} 1 "" "{scan.version[0]}"\n.SH NAME\n{program} \\- {summary}\n'
    text += f".SH SYNOPSIS\n.B {program}\n" + synopsis(options)
    return text + ".SH DESCRIPTION\n" + troff(description) + "\n.SH OPTIONS\n" + entries(options)


def examples(text: str) -> str:
    return ".SH EXAMPLES\n.nf\n" + troff(text) + "\n.fi\n"


def statuses(pairs: Iterable[tuple[str, str]]) -> str:
    return ".SH EXIT STATUS\n" + "".join(entry(f"\\fB{status}\\fR", text) for status, text in pairs)


def scan_page(scan: Scan) -> str:
    """The page of x25scan."""
    helped, table = scan.help, rows()
    text = '.\\" Written by tools/manual_page.py from the help of x25scan and crates/explanations.\n'
    text += beginning("x25scan", scan, "what an observer of an X.25 interface finds in a trace", helped.split("\n")[0] + ".")
    text += examples(section(helped, "Examples"))
    text += statuses((it["word"], it["meaning"]) for it in table if it["topic"] == "Status")
    text += ".SH DIAGNOSTICS\nOn standard error, after \\fBx25scan:\\fR.\n"
    text += "".join(entry(f"\\fB{troff(it['name'])}\\fR", it["meaning"] + " " + it["when"]) for it in table if it["topic"] == "Refusal")
    return text + see_also("x25scan", helped.rstrip("\n").split("\n\n")[-1])


def see_also(program: str, text: str) -> str:
    """The other programs, and where the documents are."""
    others = [f".BR {it} (1)" for it in sorted(PAGES) if it != program]
    return ".SH SEE ALSO\n" + " ,\n".join(others) + "\n.PP\n" + troff(text) + "\n"


def python_page(words: argparse.ArgumentParser, scan: Scan, summary: str, more: str, documents: str) -> str:
    """The page of a program whose command line a parser describes."""
    program = words.prog
    text = f'.\\" Written by tools/manual_page.py from the help of tools/{program}.\n'
    text += beginning(program, scan, summary, words.description or "")
    text += "".join(f".PP\n{troff(part)}\n" for part in more.split("\n\n"))
    text += examples(section(words.epilog or "", "examples"))
    text += statuses((status, capital(meaning) + ".") for status, meaning in STATUS.findall(section(words.epilog or "", "exit status")))
    return text + see_also(program, documents)


def trace_page(scan: Scan) -> str:
    """The page of x25trace."""
    words = trace_words.parser()
    documents = f"{DOCUMENTS}CAPTURES.md says which captures are read and how, and {DOCUMENTS}TRACE.md how a trace is written."
    return python_page(words, scan, "the trace of the X.25 packets in a capture", f"{trace_words.GAPS}\n\n{trace_words.FOLLOWING}", documents)


def page_page(scan: Scan) -> str:
    """The page of x25page."""
    documents = f"{DOCUMENTS}GUIDE.md shows a page, {DOCUMENTS}CAPTURES.md says which captures are read, and {DOCUMENTS}REPORT.md what the numbers mean."
    return python_page(page_words.parser(), scan, "a page of HTML of an X.25 capture or trace", page_words.NAMES_OF_PAGES, documents)


PAGES = {"x25scan": scan_page, "x25trace": trace_page, "x25page": page_page}


def path_of(program: str) -> pathlib.Path:
    return ROOT / "docs" / f"{program}.1"


def complaints(scan: Scan) -> Iterator[tuple[str, list[str]]]:
    """What is wrong, by subject."""
    for program, page in PAGES.items():
        path = path_of(program)
        current = path.exists() and path.read_text() == page(scan)
        yield str(path.relative_to(ROOT)), [] if current else ["it is not what tools/manual_page.py writes"]
    helped = [number for number, _ in STATUS.findall(section(scan.help, "Exit status"))]
    table = [it["word"] for it in rows() if it["topic"] == "Status"]
    yield "exit statuses", [] if helped == table else [f"help has {helped}, the table {table}"]
    shown = {name.removeprefix("--") for it in options_of("x25scan", scan.help) if len(it.names) == 1 for name in it.names}
    read = set(NAME.findall(WORDS.read_text()))
    yield "options", [] if shown == read else [f"help has {sorted(shown)}, and {sorted(read)} are read"]
    kit = subprocess.run(["rt", "version"], capture_output=True, text=True, check=False).stdout.strip()
    named = LOGIC.search(VERSION.read_text())
    is_of_kit = named and kit.endswith(f" logic {named[1]}")
    yield "version", [] if is_of_kit else [f"{VERSION.relative_to(ROOT)} names {named and named[1]}, and this is {kit!r}"]


def check(scan: Scan) -> int:
    """Checks the pages and the words, and returns the exit status."""
    passed, failed = 0, 0
    for name, said in complaints(scan):
        passed, failed = passed + (not said), failed + bool(said)
        for it in said:
            print(f"{name}: {it}")
    print(f"{passed} passed, {failed} failed")
    return 1 if failed else 0


def main(arguments: list[str]) -> int:
    words = argparse.ArgumentParser(description=__doc__.split("\n")[0], allow_abbrev=False)
    words.add_argument("--check", action="store_true", help="write nothing, and say what differs")
    words.add_argument("program", metavar="X25SCAN", type=pathlib.Path, nargs="?")
    asked = words.parse_args(arguments)
    program = asked.program or pathlib.Path(scanner.found("manual_page.py"))
    scan = Scan(printed(program, "--help"), printed(program, "--version").split("\n"))
    if asked.check:
        return check(scan)
    for name, page in PAGES.items():
        path_of(name).write_text(page(scan))
    return 0


if __name__ == "__main__":
    sys.exit(main(sys.argv[1:]))

"""The options of the programs that a package installs, as their help has them.

Those of x25scan are read from the help that it prints, and those of x25trace and x25page from the parsers of their words.
The manual pages (manual_page.py) and the completions (completions.py) are written from these tables.
"""
from __future__ import annotations

import argparse
import pathlib
import re
import subprocess
from dataclasses import dataclass

from x25page_lib import words as page_words
from x25tools_lib.choices import KINDS
from x25trace_lib import words as trace_words

ROOT = pathlib.Path(__file__).resolve().parent.parent
NAMES = ("x25scan", "x25trace", "x25page")
OPTION = re.compile(r"^ +(?:(-\w), )?(--[\w-]+)(?: (\[?)<(\w+)>\]?)? {2,}(.+)$", re.MULTILINE)
OPERAND = re.compile(r"^  \[(\w+)\](\.\.\.)? {2,}(.+)$", re.MULTILINE)
# The rest of what a line says of an option, on a line of its own.
FURTHER = re.compile(r"\n {20,}(?=\S)")
CAPTURES = "Options of captures"
FILES = ("FILE", "CAPTURE", "OUT", "PROGRAM")
# What completes a value of which other values are allowed too.
SUGGESTED = {"kinds": KINDS}
TITLES_OF_ARGPARSE = ("positional arguments", "options")
# The values that options of x25scan may have, where its help names them.
CHOICES = {
    "--mod": ("8", "128"),
    "--lapb-modulo": ("8", "128"),
    "--size": tuple(str(1 << power) for power in range(4, 13)),
    "--as": KINDS,
    "--only": ("lapb", "x25", "xot"),
}


@dataclass
class Option:
    """An option, or an argument without a name: what it does, and its value if it has one."""

    names: tuple[str, ...]
    help: str
    value: str = ""
    default: str = ""
    choices: tuple[str, ...] = ()
    group: str = ""
    is_value_free: bool = False
    is_needed: bool = False
    is_repeated: bool = False

    @property
    def is_file(self) -> bool:
        """Whether its value is the name of a file."""
        return self.value in FILES


def printed(program: pathlib.Path, option: str) -> str:
    """What a program prints for an option such as --help."""
    done = subprocess.run([program.resolve(), option], stdin=subprocess.DEVNULL, capture_output=True, text=True, check=True)
    return done.stdout


def section(text: str, title: str) -> str:
    """The lines of a help text below a title."""
    found = re.search(rf"^{title}:\n(.*?)(?:\n\n|\Z)", text, re.MULTILINE | re.DOTALL)
    if not found:
        raise ValueError(f"the help has no {title}")
    return found[1]


def options_of_help(helped: str) -> list[Option]:
    """The options of x25scan in the order of its help: the name of the trace before those that have a letter, those of captures last."""
    helped = FURTHER.sub(" ", helped)
    found = OPTION.findall(section(helped, "Options"))
    named = [Option((name,), text, value, is_value_free=bool(free)) for letter, name, free, value, text in found if not letter]
    of_captures = OPTION.findall(section(helped, CAPTURES))
    operands = [Option((), text, value, is_repeated=bool(more)) for value, more, text in OPERAND.findall(section(helped, "Arguments"))]
    lettered = [Option((letter, name), text) for letter, name, _, _, text in found if letter]
    captures = [Option((name,), text, value, choices=CHOICES.get(name, ()), group=CAPTURES) for _, name, _, value, text in of_captures]
    return named + operands + lettered + captures


def option_of_action(action: argparse.Action, group: str) -> Option:
    """The option of an action of a parser."""
    suggested = SUGGESTED.get(action.dest, ()) if action.choices is None else action.choices
    choices = tuple(map(str, suggested))
    has_value = action.nargs != 0
    value = str(action.metavar or "|".join(choices)) if has_value else ""
    option = Option(tuple(action.option_strings), action.help or "", value, choices=choices, group=group)
    option.is_needed, option.is_repeated = action.required, isinstance(action.default, list) or action.nargs == "+"
    return option


def options_of_parser(parser: argparse.ArgumentParser) -> list[Option]:
    """The options of a parser in the order of its help."""
    groups = [(it.title or "", it._group_actions) for it in parser._action_groups]
    named = [("" if title in TITLES_OF_ARGPARSE else title, actions) for title, actions in groups]
    return [option_of_action(action, title) for title, actions in named for action in actions]


def options_of(name: str, scan_help: str) -> list[Option]:
    """The options of a program, those of x25scan by the help that it prints."""
    parsers = {"x25trace": trace_words.parser, "x25page": page_words.parser}
    return options_of_parser(parsers[name]()) if name in parsers else options_of_help(scan_help)

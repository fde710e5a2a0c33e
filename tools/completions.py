"""Completions of the programs for bash, zsh and fish, written from the tables of their options."""
from __future__ import annotations

from collections.abc import Iterable, Sequence

from option_tables import Option

BASH = """\
# Completion of {program} in bash, written by tools/completions.py from the table of its options.
_{program}() {{
    local word=${{COMP_WORDS[COMP_CWORD]}} before=${{COMP_WORDS[COMP_CWORD - 1]}}
    COMPREPLY=()
    case $before in
{cases}    esac
    if [[ $word == -* ]]; then
        mapfile -t COMPREPLY < <(compgen -W '{names}' -- "$word")
    else
        mapfile -t COMPREPLY < <(compgen -f -- "$word")
    fi
}}
complete -o filenames -F _{program} {program}
"""
ZSH = """\
#compdef {program}
# Completion of {program} in zsh, written by tools/completions.py from the table of its options.
_arguments \\
{lines}
"""
FISH = """\
# Completion of {program} in fish, written by tools/completions.py from the table of its options.
{lines}
"""


def bash_cases(options: Iterable[Option]) -> str:
    """What completes the value of an option: its choices, or nothing."""
    chosen = [it for it in options if it.choices]
    lines = [f"""{it.names[0]}) mapfile -t COMPREPLY < <(compgen -W '{" ".join(it.choices)}' -- "$word"); return ;;""" for it in chosen]
    if others := [it.names[0] for it in options if not it.choices]:
        lines.append(f"{'|'.join(others)}) return ;;")
    return "".join(f"        {line}\n" for line in lines)


def bash(program: str, options: Sequence[Option]) -> str:
    """The completion in bash."""
    cases = bash_cases([it for it in options if it.names and it.value and not it.is_file and not it.is_value_free])
    return BASH.format(program=program, cases=cases, names=" ".join(name for it in options for name in it.names))


def zsh_text(text: str) -> str:
    """A text, escaped for a specification of _arguments within single quotes."""
    for letter in "\\[]:":
        text = text.replace(letter, "\\" + letter)
    return text.replace("'", "'\\''")


def zsh_line(option: Option) -> str:
    """The specification of an option."""
    help_text, value = zsh_text(option.help), zsh_text(option.value)
    action = f"({' '.join(option.choices)})" if option.choices else "_files" * option.is_file
    if not option.names:
        return f"  '{'*' if option.is_repeated else '1'}:{value}:{action}'"
    colon = "::" if option.is_value_free else ":"
    message = f"{colon}{value}:{action}" if option.value else ""
    if len(option.names) > 1:
        return f"  '({' '.join(option.names)})'{{{','.join(option.names)}}}'[{help_text}]{message}'"
    repeated = "*" if option.is_repeated else ""
    return f"  '{repeated}{option.names[0]}[{help_text}]{message}'"


def zsh(program: str, options: Sequence[Option]) -> str:
    """The completion in zsh."""
    return ZSH.format(program=program, lines=" \\\n".join(map(zsh_line, options)))


def fish_line(program: str, option: Option) -> str:
    """The line of an option."""
    names = " ".join(f"-l {name[2:]}" if name.startswith("--") else f"-s {name[1:]}" for name in option.names)
    value = (" -r" if option.is_file else " -x") if option.value and not option.is_value_free else ""
    choices = f" -a '{' '.join(option.choices)}'" if option.choices else ""
    text = option.help.replace("\\", "\\\\").replace("'", "\\'")
    return f"complete -c {program} {names}{value}{choices} -d '{text}'"


def fish(program: str, options: Sequence[Option]) -> str:
    """The completion in fish."""
    return FISH.format(program=program, lines="\n".join(fish_line(program, it) for it in options if it.names))

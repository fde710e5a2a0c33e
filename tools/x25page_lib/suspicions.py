"""What makes a header doubtful: errors of both sides, errors that the DCE ignored, and errors that only the DCE reports."""
from __future__ import annotations

from collections.abc import Iterable, Iterator
from typing import Any

from x25tools_lib.notes import SWAP

from .reactions import Reactions

# A code that each side has so often may come from a wrong header.
OFTEN = 2
# Codes that a wrong number of the header gives, each with the number.
NUMBERS = {"1": "WIN", "2": "WIN", "39": "SIZE", "36": "SVC", "34": "SVC", "40": "MOD"}
# Diagnostic codes of errors that too great a number hides.
HIDDEN = {"1": "WIN", "39": "SIZE"}
# The numbers of a header by their words; and the words of a command that reads the same again.
Numbers = dict[str, str]
Again = dict[str, str] | str


def number(many: int, noun: str) -> str:
    """A number with its noun."""
    return f"{many:,} {noun}{'' if many == 1 else 's'}"


def words_of(header: Numbers, name: str) -> str:
    """A number of the header as it is written; OUT where SVC is missing."""
    name = "OUT" if name == "SVC" and "SVC" not in header else name
    return f"{name} {header[name]}" if name in header else name


def greater(header: Numbers, name: str) -> list[int]:
    """Values to try in place of one that is too small."""
    value, modulus = int(header.get(name, 0)), int(header.get("MOD", 8))
    if name == "WIN":
        return [it for it in (value + 1, 2 * value + 1, modulus - 1) if value < it < modulus][:2]
    if name == "SIZE":
        return [it for it in (2 * value, 4 * value, 8 * value) if it <= 4096][:2]
    return []


def smaller(header: Numbers, name: str) -> list[int]:
    """Values to try in place of one that is too great."""
    value = int(header.get(name, 0))
    found = (2, value - 1, 1) if name == "WIN" else (value // 2, value // 4)
    return [it for it in dict.fromkeys(found) if (1 if name == "WIN" else 16) <= it < value][:2]


def of_both_sides(header: Numbers, codes: list[list[Any]]) -> Iterator[tuple[str, str]]:
    """Sentences on codes that both sides have so often that the header may be wrong."""
    for code, name, _, counts, *_ in codes:
        if code in NUMBERS and min(counts) >= OFTEN:
            words = words_of(header, NUMBERS[code])
            yield NUMBERS[code], (
                f"Both sides have code {code} ({name}): the DTE {number(counts[0], 'time')}, the DCE "
                f"{number(counts[1], 'time')}. Where both sides break one rule again and again, {words} of the header "
                "may be wrong."
            )


def of_debts(reactions: Reactions) -> Iterator[tuple[str, str]]:
    """The sentence on errors that the DCE did not react to and that a wrong header gives, and no earlier error."""
    unpaid = {code: it for code, it in reactions.ignored.items() if code in NUMBERS and it.begun}
    if not unpaid:
        return
    code = max(unpaid, key=lambda it: unpaid[it].begun)
    first = min(it.packet for it in unpaid.values())
    yield NUMBERS[code], (
        f"After {number(sum(it.begun for it in unpaid.values()), 'finding')} of the DTE (the first is "
        f"{reactions.frames.name(first)}) the DCE did not do what it had to: it went on as if nothing was wrong. Then the DTE "
        "was probably right, and the header is not that of the interface. Data after such a finding is not counted, so the "
        "sums are too low."
    )


def of_unseen(header: Numbers, reactions: Reactions) -> Iterator[tuple[str, str]]:
    """Sentences on errors that only the DCE reports."""
    for code, name in HIDDEN.items():
        if found := [it for it in reactions.unexplained() if str(it.code) == code]:
            many, first = sum(it.many for it in found), min(it.packet for it in found)
            yield name, (
                f"By diagnostic code {code} the DCE says {number(many, 'time')} (the first is {reactions.frames.name(first)}) "
                f"that the DTE broke a rule, and the trace shows no such error. Then {words_of(header, name)} of the header is "
                "probably too great."
            )


def trial(again: Again) -> str:
    """The command that reads the input again and tries other headers."""
    tried = "x25scan --try-headers"
    return f"{tried} {again}" if isinstance(again, str) else f"x25trace {again['all']} | {tried}"


def of_sides(comments: Iterable[str]) -> Iterator[str]:
    """The sentence on sides that agree better with the reactions of the DCE."""
    for words in comments:
        if words.endswith(SWAP):
            yield f"The ends may be taken the wrong way round: {words.removesuffix(SWAP)}. --swap exchanges them."


def warnings(
    header: Numbers, codes: list[list[Any]], reactions: Reactions, comments: Iterable[str] = (),
) -> list[list[Any]]:
    """Each doubt in a sentence, with the number of the header that may be wrong and values to try; the last one is of the sides."""
    found = [*of_both_sides(header, codes), *of_debts(reactions)]
    doubts = [[sentence, name, greater(header, name)] for name, sentence in found]
    doubts += [[sentence, name, smaller(header, name)] for name, sentence in of_unseen(header, reactions)]
    return doubts and doubts + [[sentence, "", []] for sentence in of_sides(comments)]

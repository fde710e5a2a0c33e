#!/usr/bin/env python3
"""codes_document.py [--check]: writes docs/CODES.md from the table of crates/explanations.

The functions that give a code are those whose bodies name its constant. With --check it writes nothing, and says where
the document is another one, where a definition, a trace, a function, a proof or an edit that a row names is not there,
where a row of a diagnostic code has another name than its constant, and where a trace does not print the row's example.
The last line is 'N passed, M failed'.
"""
from __future__ import annotations

import functools
import pathlib
import re
import sys
from collections.abc import Iterator

sys.dont_write_bytecode = True
from code_proofs import PROOFS
from word_definitions import definition_of

ROOT = pathlib.Path(__file__).resolve().parent.parent
CRATES = ROOT / "crates"
SOURCES = CRATES / "explanations" / "src"
DIAGNOSTICS = CRATES / "line_model" / "src" / "diagnostic.rt"
DOCUMENT = ROOT / "docs" / "CODES.md"
ROW = re.compile(r"    Explanation \{\n(.*?)    \},\n", re.DOTALL)
FIELD = re.compile(r'^        (\w+):\s+(?:Topic::(\w+)|"((?:[^"\\]|\\.)*)"),$', re.MULTILINE)
# The fields of a row by their names.
Row = dict[str, str]
SECTION = re.compile(r"^        (\w+)\(\),$", re.MULTILINE)
TITLES = {
    "Line": "Lines of the report",
    "Side": "Sides",
    "Direction": "Directions of a call",
    "Ending": "How a call ended",
    "Setting": "Words of a setting",
    "Absent": "Absent values",
    "State": "States",
    "Code": "Diagnostic codes",
    "Message": "Codes of PAD messages",
    "Kind": "Kinds of faulty lines",
    "Refusal": "Refusals",
    "Status": "Exit statuses",
    "Parameter": "PAD parameters",
    "Field": "Fields of the report",
    "Header": "Words of the header",
    "ClearingCause": "Causes of clears",
    "ResettingCause": "Causes of resets",
    "RestartingCause": "Causes of restarts",
    "Term": "Terms",
}
HEAD = """# The words of the report, of a header and of the refusals, causes and terms

`x25scan --explain WORD` prints what this page says of a word, and `x25scan --explain` the list of all words. A word is
known by its name too: `--explain echo` prints what `--explain "parameter 2"` does. A word with several meanings is in
several tables: `--explain 22` prints all three meanings of 22, `--explain "kind 22"` that of a faulty line, and
`--explain "cause 1"` the causes of a clear, a reset and a restart.

`--explain kind` prints all kinds. The same holds of `line`, `field`, `side`, `direction`, `end`, `setting`, `absent`,
`state`, `code`, `message`, `header`, `refusal`, `status`, `cause`, `term` and `parameter`.

A line that the program prints can be pasted: `--explain "F 5 T d1 1"` explains the line and each of its words by its
field, `--explain "x25scan: line 3: kind 24"` the kind, and `--explain "write failed"` the refusal.

*Profile* marks what this project chose; X.25 means the edition of 10/96. The last column has an example of what is
printed, and a trace that prints it.

`tools/codes_document.py` writes this page from the table of [explanations](../crates/explanations).
"""
PROOFS_HEAD = """
## From a code to its proof

Each row leads from a code to its rule in words, to the file of its definition, to the function that returns it (whose
contract names the definition), to the file of the function's proof, to an edit that the prover refuses, and to a trace
that prints the code. Where the proof is `-`, the prover proves the contract without a written proof. *Also given by* has
all other functions whose bodies name the code, apart from those that only say what it means.

The contract of `table_t` is the whole table. An edit of it lets a class of packets pass that has these codes, so several
codes name the same edit. Three codes are of the DCE alone: `table_n` returns them where no indication is owed.

`Flow` judges P(S) and P(R) of every channel, by a comparison of the numbers of one direction (`is_send_valid` and
`count_acknowledged` in the definition); the proof and the edit of codes 1 and 2 are those of the comparison. The scans keep
the `Flow` of a channel in one word, which they read and write back. More than the window may be outstanding on a settled
channel of a recording with gaps: its `Flow` has the widest windows, and `data_within` judges in that of the call.

| code | rule | definition | function | proof | edit | trace | also given by |
|---|---|---|---|---|---|---|---|
"""
# The crates that say what a code means, and give none.
SAYING = {"descriptions", "explanations"}
CONSTANT = re.compile(r"^/// (.*) \(\d+\)\.\npub const (\w+): u8 = (\d+);$", re.MULTILINE)
FUNCTION = re.compile(r"^ *(?:pub(?:\(crate\))? )?(?:const )?fn (\w+)")


def rows() -> list[Row]:
    """The rows of the table, section after section, as dictionaries of their fields."""
    found = []
    for section in SECTION.findall((SOURCES / "table.rt").read_text()):
        for body in ROW.findall((SOURCES / f"{section}.rt").read_text()):
            fields = {name: topic or text.replace('\\"', '"').replace("\\\\", "\\") for name, topic, text in FIELD.findall(body)}
            found.append({**fields, "definition": definition_of(section, fields["word"])})
    return found


def link(path: str) -> str:
    name = pathlib.Path(path)
    return f"[{name.stem}](../{path})"


def line_of(row: Row) -> str:
    """The line of a row in its table."""
    example = f"`{row['example']}`" + (f" {link(row['trace'])}" if row["trace"] else "")
    cells = [f"`{row['word']}`", f"**{row['name']}** {row['meaning']} {row['when']}", f"{row['clause']}; {link(row['definition'])}", example]
    return "| " + " | ".join(cell.replace("|", "\\|") for cell in cells) + " |\n"


def anchor(heading: str) -> str:
    """The anchor of a heading."""
    return re.sub(r"[^\w -]", "", heading.lower()).replace(" ", "-")


def body_lines(source: pathlib.Path) -> Iterator[tuple[str, str]]:
    """The lines of the functions of a file, each with the function's name, without imports, comments and contracts."""
    function = ""
    for line in source.read_text().splitlines():
        if named := FUNCTION.match(line):
            function = named[1]
        elif line == "}":
            function = ""
        if function and not line.strip().startswith(("//", "ghost ", "requires ", "ensures ")):
            yield function, line


@functools.cache
def givers() -> dict[str, list[tuple[str, str]]]:
    """The functions that name the constant of each code: the file and the name of each, in order."""
    numbers = {constant: number for number, (constant, _) in constants().items()}
    found = dict[str, list[tuple[str, str]]]()
    sources = (it for it in CRATES.glob("*/src/**/*.rt") if it != DIAGNOSTICS)
    for source in sorted(it for it in sources if not it.relative_to(CRATES).parts[0].startswith(("tests_", *SAYING))):
        path = str(source.relative_to(ROOT))
        for function, line in body_lines(source):
            for word in numbers.keys() & set(re.findall(r"\w+", line)):
                places = found.setdefault(numbers[word], [])
                places += [(path, function)] * ((path, function) not in places)
    return found


def proof_line(row: Row) -> str:
    """The row of the table that leads from a code to its proof."""
    proof = PROOFS[row["word"]]
    source = f"[`{proof.function}`](../{proof.source})"
    if proof.comparison:
        source += f", by [`{proof.comparison[1]}`](../{proof.comparison[0]})"
    cells = [f"`{row['word']}`", f"[{proof.rule}](RULES.md#{anchor(proof.rule)})", link(row["definition"]), source]
    cells += [f"[{'/'.join(pathlib.Path(proof.proof).parts[3:])}](../{proof.proof})" if proof.proof else "-", link(proof.edit), link(row["trace"])]
    others = [it for it in givers().get(row["word"], []) if it not in ((proof.source, proof.function), proof.comparison)]
    cells.append(", ".join(f"[`{function}`](../{path})" for path, function in others) or "-")
    return "| " + " | ".join(cells) + " |\n"


def codes() -> list[Row]:
    """The rows of codes."""
    return [row for row in rows() if row["topic"] in ("Code", "Message")]


def document() -> str:
    """The text of the document."""
    text, topic = HEAD, None
    for row in rows():
        if row["topic"] != topic:
            topic = row["topic"]
            text += f"\n## {TITLES[topic]}\n\n| word | meaning | rule | example |\n|---|---|---|---|\n"
        text += line_of(row)
    return text + PROOFS_HEAD + "".join(map(proof_line, codes()))


def printed(trace: pathlib.Path) -> list[str]:
    """The lines that the program prints for a trace, with its exit status."""
    status = trace.with_suffix(".status")
    said = f"x25scan < t; echo $? prints {status.read_text().strip() if status.exists() else 0}\n"
    endings = (".report", ".errors")
    return (said + "".join(trace.with_suffix(it).read_text() for it in endings if trace.with_suffix(it).exists())).split("\n")


def constants() -> dict[str, tuple[str, str]]:
    """The constant of each diagnostic code, and the name that X.25 Annex E gives it."""
    return {number: (constant, name) for name, constant, number in CONSTANT.findall(DIAGNOSTICS.read_text())}


def name_complaints(row: Row) -> list[str]:
    """Where a row of a diagnostic code has another name than its constant."""
    constant, name = constants().get(row["word"], ("", ""))
    spelled = re.sub(r"\W+", "_", name.replace("/", " or ")).strip("_").upper()
    return [] if (row["name"], constant) == (name, spelled) else [f"its name is {row['name']!r}, and its constant is {constant} with {name!r}"]


def complaints(row: Row) -> list[str]:
    """What is wrong with the files that a row names."""
    said = name_complaints(row) if row["topic"] == "Code" else []
    if not (ROOT / row["definition"]).exists():
        said.append(f"there is no {row['definition']}")
    trace = ROOT / row["trace"] if row["trace"] else None
    if trace and not trace.exists():
        said.append(f"there is no {row['trace']}")
    elif trace and row["example"] not in printed(trace):
        said.append(f"{row['trace']} does not print {row['example']!r}")
    return said


def proof_complaints(row: Row) -> list[str]:
    """What is missing between a code and its proof."""
    proof = PROOFS.get(row["word"])
    if not proof:
        return ["tools/code_proofs.py has no row for it"]
    said = [f"there is no {path}" for path in (proof.edit, proof.proof) if path and not (ROOT / path).exists()]
    for source, function in [(proof.source, proof.function)] + ([proof.comparison] if proof.comparison else []):
        if not (ROOT / source).exists() or not re.search(rf"\bfn {function}\b", (ROOT / source).read_text()):
            said.append(f"{source} has no function {function}")
    if not re.search(rf"^#+ {re.escape(proof.rule)}$", (ROOT / "docs" / "RULES.md").read_text(), re.MULTILINE):
        said.append(f"docs/RULES.md has no heading {proof.rule}")
    return said


def check() -> int:
    """Checks the document and the rows, and returns the exit status."""
    passed, failed = 0, 0
    current = DOCUMENT.exists() and DOCUMENT.read_text() == document()
    outcomes = [("docs/CODES.md", [] if current else ["it is not what tools/codes_document.py writes"])]
    outcomes += [(f"{row['word']} ({row['topic']})", complaints(row)) for row in rows()]
    outcomes += [(f"the proof of {row['word']}", proof_complaints(row)) for row in codes()]
    without = sorted(constants().keys() - {row["word"] for row in codes()})
    outcomes.append(("the constants of codes", [f"no row is of {number}" for number in without]))
    for name, said in outcomes:
        passed, failed = passed + (not said), failed + bool(said)
        for it in said:
            print(f"{name}: {it}")
    print(f"{passed} passed, {failed} failed")
    return 1 if failed else 0


if __name__ == "__main__":
    if sys.argv[1:] == ["--check"]:
        sys.exit(check())
    if sys.argv[1:]:
        sys.exit(__doc__)
    DOCUMENT.write_text(document())

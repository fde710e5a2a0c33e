#!/usr/bin/env python3
"""worked_traces.py [--check]: writes the worked traces of tests/traces/worked as theorems about the definitions alone.

In crates/line_model they are specs/traces/WorkedTexts.antt (the texts), specs/traces/WorkedReports.antt (their reports),
specs/traces/WorkedTraces.antt (the statement) and proofs/WorkedTraces.antt (by computing). Run it after a change of those traces.
With --check it writes nothing, and names each file that is another one. The last line is 'N passed, M failed'.
"""
from __future__ import annotations

import pathlib
import re
import sys
from collections.abc import Mapping

ROOT = pathlib.Path(__file__).resolve().parent.parent
TRACES = ROOT / "tests/traces/worked"
CRATE = ROOT / "crates/line_model"
KINDS = ["HeaderMissing", "HeaderForm", "HeaderRange", "LineForm", "Number", "Side", "Hex", "LineLong", "TextLarge"]
WRITTEN = "-- tools/worked_traces.py writes this file from tests/traces/worked."
USES_OF_KINDS = "use Rattle.line_model.specs.declared.fault.Kind.TheVariants.{" + ", ".join(KINDS[:-1]) + "}"
UNFOLDING = (
    "digits decode_pairs fault head rows head_of rows_in last_number size_kind header_kind contents_kind "
    "header_numbers interface_with interface_of row_words octets_of row_kind row_of"
)
# a run of one or two characters, which is written as their number
RUN = re.compile(r"(..?)\1{40,}")
REFUSAL = re.compile(r"x25scan: line (\d+): kind (\d+)\n")


def traces() -> list[pathlib.Path]:
    """The worked traces, by name."""
    return sorted(TRACES.glob("*.trace"))


def content(path: pathlib.Path) -> str:
    """The text of a file, with each CR."""
    return path.read_bytes().decode("utf-8")


def refusal(trace: pathlib.Path) -> tuple[int, str] | None:
    """The line and the kind of a trace's refusal, or None."""
    errors = trace.with_suffix(".errors")
    if not errors.exists():
        return None
    refused = REFUSAL.match(content(errors))
    if not refused:
        raise ValueError(f"{errors} does not say a line and a kind")
    return int(refused[1]), KINDS[int(refused[2]) - 21]


def report(trace: pathlib.Path) -> str:
    """The report of a trace."""
    return content(trace.with_suffix(".report"))


def line_term(line: str) -> str:
    """The codes of a line, long runs as repetitions."""
    run = RUN.search(line)
    if not run:
        return f'codes "{line}"'
    before, unit, after = line[: run.start()], run.group(1), line[run.end() :]
    parts = [f'codes "{before}"'] if before else []
    parts.append(f'repeated {(run.end() - run.start()) // len(unit)} (codes "{unit}")')
    parts += [f'codes "{after}"'] if after else []
    return "(" + " ++ ".join(parts) + ")"


def text_term(text: str) -> str:
    """The bytes of a text, line by line."""
    *ended, begun = text.split("\n")
    lines = "text (" + "".join(f"{line_term(line)} ∷\n    " for line in ended) + "[])"
    return lines if not begun else f"{lines} ++ {line_term(begun)}"


def name_of(trace: pathlib.Path) -> str:
    """The name of a trace in the definitions."""
    return trace.stem.replace("-", "_")


def claim(trace: pathlib.Path) -> str:
    """The statement about a trace."""
    name, refused = name_of(trace), refusal(trace)
    if not refused:
        return f"IsReported {name}-text {name}-report"
    line, kind = refused
    return f"fault {name}-text ≡ Some ({line}, {kind})"


def constants(ending: str, texts: Mapping[pathlib.Path, str]) -> str:
    """A constant for each text, by its trace."""
    return "".join(
        f"\nabbrev pub {name_of(trace)}-{ending} : List ℕ\n{name_of(trace)}-{ending} =\n    {text_term(text)}\n"
        for trace, text in texts.items()
    )


def constants_file(title: str, terms: str) -> str:
    """The file of some constants, which imports only what they name."""
    joined, repeated = " ◌++◌," if "++" in terms else "", ", repeated" if "repeated " in terms else ""
    return f"""-- {title}
{WRITTEN}
use Rattle.std.specs.Prelude.{{ℕ, List, [], ◌∷◌,{joined} codes}}
use Rattle.line_model.specs.traces.Traces.{{text{repeated}}}
{terms}"""


def uses_of_constants(terms: str, module: str) -> str:
    """The line that imports all constants of a module."""
    names = ", ".join(re.findall(r"abbrev pub (\S+)", terms))
    return f"use Rattle.line_model.specs.{module}.{{{names}}}"


def statement_file(uses: str) -> str:
    """The file of the statement."""
    fields = "".join(f"  pub {name_of(trace)} : {claim(trace)}\n" for trace in traces())
    return f"""-- What the worked traces come to: each is refused by its first faulty line, or has no fault and exactly this report.
{WRITTEN}
use Rattle.std.specs.Prelude.{{◌≡◌, Some, length}}
{USES_OF_KINDS}
use Rattle.line_model.specs.text.Text.{{fault}}
use Rattle.line_model.specs.traces.Traces.{{IsReported, trace_plan}}
{uses}

pub record WorkedTraces : Type 0 where
{fields}  pub three_epochs-pieces : length (trace_plan three_epochs-text) ≡ 12
"""


def proof(trace: pathlib.Path) -> str:
    """The proof of the statement about a trace."""
    name = name_of(trace)
    body = "refl" if refusal(trace) else "record { sound = refl; report = refl }"
    return f"\n{name}-holds : {claim(trace)}\nunfolding {UNFOLDING}\n{name}-holds = {body}\n"


def proof_file(uses: str) -> str:
    """The file of the proofs."""
    proofs = "".join(map(proof, traces()))
    holds = ";\n".join(f"  {name_of(trace)} = {name_of(trace)}-holds" for trace in traces())
    return f"""-- The worked traces, by computing.
{WRITTEN}
use Rattle.std.proofs.Common.{{◌≡◌, refl, length, Some}}
use Rattle.std.specs.Fmt.{{digits}}
use Rattle.hex.specs.Hex.{{decode_pairs}}
{USES_OF_KINDS}
use Rattle.line_model.specs.text.Header.{{header_numbers, interface_with, interface_of}}
use Rattle.line_model.specs.text.RowLine.{{row_words, octets_of, row_kind, row_of}}
use Rattle.line_model.specs.text.Text.{{fault, head, rows, head_of, rows_in, last_number, size_kind, header_kind, contents_kind}}
use Rattle.line_model.specs.traces.Traces.{{IsReported, trace_plan}}
{uses}
use Rattle.line_model.specs.traces.WorkedTraces.{{WorkedTraces}}
{proofs}
three_epochs-planned : length (trace_plan three_epochs-text) ≡ 12
unfolding {UNFOLDING}
three_epochs-planned = refl

pub worked : WorkedTraces
worked = record {{
{holds};
  three_epochs-pieces = three_epochs-planned;
}}
"""


def files() -> dict[pathlib.Path, str]:
    """The files that are written, with their contents."""
    texts = constants("text", {trace: content(trace) for trace in traces()})
    reports = constants("report", {trace: report(trace) for trace in traces() if not refusal(trace)})
    uses = uses_of_constants(texts, "traces.WorkedTexts") + "\n" + uses_of_constants(reports, "traces.WorkedReports")
    return {
        CRATE / "specs/traces/WorkedTexts.antt": constants_file("The texts of the worked traces.", texts),
        CRATE / "specs/traces/WorkedReports.antt": constants_file(
            "The reports of the worked traces that are not refused.", reports
        ),
        CRATE / "specs/traces/WorkedTraces.antt": statement_file(uses),
        CRATE / "proofs/WorkedTraces.antt": proof_file(uses),
    }


def check(tool: str, wanted: Mapping[pathlib.Path, str]) -> int:
    """Compares files with what a tool writes there, and returns the exit status."""
    differing = [path for path, text in wanted.items() if not path.exists() or content(path) != text]
    for path in differing:
        print(f"{path.relative_to(ROOT)}: it is not what {tool} writes")
    print(f"{len(wanted) - len(differing)} passed, {len(differing)} failed")
    return 1 if differing else 0


def write_or_check(tool: str, wanted: Mapping[pathlib.Path, str], usage: str | None) -> int:
    """Writes the files, or checks them where --check asks for it, and returns the exit status."""
    if sys.argv[1:] == ["--check"]:
        return check(tool, wanted)
    if sys.argv[1:]:
        sys.exit(usage)
    for path, text in wanted.items():
        path.write_bytes(text.encode("utf-8"))
    return 0


if __name__ == "__main__":
    sys.exit(write_or_check("tools/worked_traces.py", files(), __doc__))

#!/usr/bin/env python3
"""worked_gap_traces.py [--check]: writes some traces of tests/gaps/traces as theorems about the definitions alone.

In crates/line_model they are specs/traces/WorkedGapTraces.antt (the texts, their reports and the statement) and
proofs/WorkedGapTraces.antt (by computing). Run it after a change of those traces. With --check it writes nothing, and names
each file that is another one. The last line is 'N passed, M failed'. With --all it writes every trace of that folder.
"""
from __future__ import annotations

import pathlib
import sys

from worked_traces import CRATE, KINDS, ROOT, UNFOLDING, constants, content, name_of, refusal, report, write_or_check

TRACES = ROOT / "tests/gaps/traces"
WRITTEN = "-- tools/worked_gap_traces.py writes this file from tests/gaps/traces."
# The traces that are worked: gaps of a channel and of all, restarts, a recording that begins in the middle, and refusals.
NAMES = [
    "all-channels",
    "begins-in-the-middle",
    "call-after-a-gap",
    "gap-in-the-second-form",
    "gap-number-falls",
    "gap-on-channel-0",
    "no-gap",
    "restart-of-both-sides",
    "restart-owed-at-the-gap",
    "settled-by-an-acknowledgement",
]


def traces(names: list[str]) -> list[pathlib.Path]:
    """The traces of these names."""
    return [TRACES / f"{name}.trace" for name in sorted(names)]


def claim(trace: pathlib.Path) -> str:
    """The statement about a trace."""
    name, refused = name_of(trace), refusal(trace)
    if not refused:
        return f"IsReported {name}-text {name}-report"
    line, kind = refused
    return f"fault {name}-text ≡ Some ({line}, {kind})"


def uses_of_kinds(worked: list[pathlib.Path]) -> str:
    """The lines that import the kinds of the refusals."""
    kinds = {refused[1] for refused in map(refusal, worked) if refused}
    return "use Rattle.line_model.specs.declared.fault.Kind.TheVariants.{" + ", ".join(it for it in KINDS if it in kinds) + "}"


def statement_file(names: list[str]) -> str:
    """The file of the texts, the reports and the statement."""
    worked = traces(names)
    texts = constants("text", {trace: content(trace) for trace in worked})
    reports = constants("report", {trace: report(trace) for trace in worked if not refusal(trace)})
    fields = "".join(f"  pub {name_of(trace)} : {claim(trace)}\n" for trace in worked)
    joined, repeated = " ◌++◌," if "++" in texts else "", ", repeated" if "repeated " in texts else ""
    return f"""-- What some recordings with gaps come to: each is refused by its first faulty line, or has no fault and exactly this report.
{WRITTEN}
use Rattle.std.specs.Prelude.{{◌≡◌, ℕ, List, [], ◌∷◌,{joined} codes, Some}}
{uses_of_kinds(worked)}
use Rattle.line_model.specs.text.Text.{{fault}}
use Rattle.line_model.specs.traces.Traces.{{IsReported, text{repeated}}}
{texts}{reports}
pub record WorkedGapTraces : Type 0 where
{fields}"""


def proof(trace: pathlib.Path) -> str:
    """The proof of the statement about a trace."""
    body = "refl" if refusal(trace) else "record { sound = refl; report = refl }"
    return f"\n{name_of(trace)}-holds : {claim(trace)}\nunfolding {UNFOLDING}\n{name_of(trace)}-holds = {body}\n"


def proof_file(names: list[str]) -> str:
    """The file of the proofs."""
    worked = traces(names)
    proofs = "".join(map(proof, worked))
    holds = ";\n".join(f"  {name_of(trace)} = {name_of(trace)}-holds" for trace in worked)
    reported = [trace for trace in worked if not refusal(trace)]
    constants_used = ", ".join([f"{name_of(trace)}-text" for trace in worked] + [f"{name_of(trace)}-report" for trace in reported])
    return f"""-- Some recordings with gaps, by computing.
{WRITTEN}
use Rattle.std.proofs.Common.{{◌≡◌, refl, Some}}
use Rattle.std.specs.Fmt.{{digits}}
use Rattle.hex.specs.Hex.{{decode_pairs}}
{uses_of_kinds(worked)}
use Rattle.line_model.specs.text.Header.{{header_numbers, interface_with, interface_of}}
use Rattle.line_model.specs.text.RowLine.{{row_words, octets_of, row_kind, row_of}}
use Rattle.line_model.specs.text.Text.{{fault, head, rows, head_of, rows_in, last_number, size_kind, header_kind, contents_kind}}
use Rattle.line_model.specs.traces.Traces.{{IsReported}}
use Rattle.line_model.specs.traces.WorkedGapTraces.{{WorkedGapTraces, {constants_used}}}
{proofs}
pub worked_gaps : WorkedGapTraces
worked_gaps = record {{
{holds};
}}
"""


def files(names: list[str]) -> dict[pathlib.Path, str]:
    """The files that are written, with their contents."""
    return {
        CRATE / "specs/traces/WorkedGapTraces.antt": statement_file(names),
        CRATE / "proofs/WorkedGapTraces.antt": proof_file(names),
    }


if __name__ == "__main__":
    if sys.argv[1:] == ["--all"]:
        every = files([trace.stem for trace in TRACES.glob("*.trace")])
        for path, text in every.items():
            path.write_bytes(text.encode("utf-8"))
    else:
        sys.exit(write_or_check("tools/worked_gap_traces.py", files(NAMES), __doc__))

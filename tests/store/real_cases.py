"""What a stand-in can't show, with the kit: proofs, a program that runs, and the words of the prover in each way."""
import subprocess

from clone_cases import outcome_problems, refused_problems, second_problems, way_problems
from receipt_cases import made, right_problems
from run_cases import KEPT, LOW_BODY
from runner import Case


def program_problems(clone):
    """The program that is built runs."""
    done = subprocess.run([clone.folder / "crates/x25scan/out/x25scan"], capture_output=True, check=False)
    return [] if (done.returncode, done.stdout, done.stderr) == (0, b"", b"") else [str(done)]


def kept_problems(base):
    """A changed body is proved over kept work, which is there afterwards, and gives a program that runs."""
    clone = base.copy("kept", with_store=True)
    clone.change("low/src/lib.rt", LOW_BODY)
    problems = outcome_problems(clone.prove("--incremental"), dict.fromkeys(base.names, "proved")) + way_problems(clone, KEPT)
    problems += [f"no work on {name} is kept" for name in base.names if not any((clone.folder / "out/kept/work" / name).iterdir())]
    return problems + program_problems(clone)


def receipts_problems(base):
    """What is built by receipts is what was proved."""
    _, path = made(base, "receipts")
    return right_problems(base, path)


def cases(base):
    yield Case("the program runs", program_problems, base)
    yield Case("a second clone, with the kit", second_problems, base)
    yield Case("a crate that is not proved", refused_problems, base)
    yield Case("another body and kept work, with the kit", kept_problems, base)
    yield Case("receipts, with the kit", receipts_problems, base)

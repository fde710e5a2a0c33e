"""The ways of a finding and of a block in docs/ARCHITECTURE.md: their functions are in the sources; on that of a finding each is called by one before it."""
import subprocess

from runner import ROOT


def problems():
    """What tools/row_calls finds wrong with the table."""
    run = subprocess.run([ROOT / "tools" / "row_calls"], capture_output=True, text=True, check=False)
    return run.stderr.splitlines() or [f"tools/row_calls ended with status {run.returncode}"] * (run.returncode != 0)

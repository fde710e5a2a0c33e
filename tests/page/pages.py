"""A page as the tests read it: its facts, and the rest of its text."""
import base64
import hashlib
import json
import pathlib
import re
import subprocess

import forked
from x25page_lib.command import program

ROOT = pathlib.Path(__file__).resolve().parent.parent.parent
PROGRAM = ROOT / "bin" / "x25page"
SECONDS = 60
FACTS = re.compile(r'(<script type="application/json" id="facts">)(.*?)(</script>)', re.DOTALL)
POLICY = re.compile(r'<meta http-equiv="Content-Security-Policy" content="([^"]*)">')
# What asks for something from outside, and what makes markup of a text.
OUTSIDE = re.compile(
    r"\b(?:src|action|data)=|\bhref=(?!\"#)|url\(|@import|\bimport\b|\bfetch\b|XMLHttpRequest"
    r"|innerHTML|outerHTML|insertAdjacentHTML|document\.write|eval\("
)


class Page:
    """A page in a file."""

    def __init__(self, path):
        text = pathlib.Path(path).read_text(encoding="ascii")
        self.json = FACTS.search(text)[2]
        self.facts = json.loads(self.json)
        self.rest = FACTS.sub(r"\1\3", text)
        self.size = len(text)

    @property
    def rows(self):
        """The numbers of the rows in all ladders."""
        return [item[0] for ladder in self.facts["ladders"].values() for item in ladder if isinstance(item, list)]

    def markup_complaints(self):
        """What of the page could ask a network, or run what is no script of it."""
        said = [f"its facts have {letter}" for letter in "<>&" if letter in self.json]
        policy = POLICY.search(self.rest)[1]
        for tag in ("style", "script"):
            text = re.search(rf"<{tag}>(.*?)</{tag}>", self.rest, re.DOTALL)[1]
            digest = base64.b64encode(hashlib.sha256(text.encode()).digest()).decode()
            said += [] if f"{tag}-src 'sha256-{digest}'" in policy else [f"its policy does not name its {tag}"]
        said += [] if policy.startswith("default-src 'none';") else [f"its policy is {policy}"]
        return said + [f"it has {it}" for it in OUTSIDE.findall(self.rest)]


def run(*words, cwd=".", input=b""):
    """Runs x25page in a copy of this process, and returns what subprocess says of a run."""
    return forked.run(program, list(map(str, words)), cwd, input)


def report_of(scanner, trace):
    """The lines of a report, each in its words, by their letters."""
    with open(trace, "rb") as file:
        done = subprocess.run([scanner], stdin=file, capture_output=True, text=True, timeout=SECONDS, check=False)
    lines = {letter: [] for letter in "FCSAPGZ"}
    for line in done.stdout.splitlines():
        letter, *words = line.split(" ")
        lines[letter].append(words)
    return lines


def words_of(values):
    """Values of a page as the words of a report."""
    return ["-" if value is None else str(value) for value in values]


def report_complaints(page, report):
    """Where the page has other numbers than the report."""
    facts, (packets, findings, calls, octets, segments) = page.facts, map(int, report["Z"][0])
    wanted = {"packets": packets, "findings": findings, "calls": calls, "octets": octets, "segments": segments}
    pairs = [(words[1], words[3]) for words in report["F"]]
    counts = [[pairs.count((side, code)) for side in "TN"] for code, *_ in facts["codes"]]
    # Where connections ended without a clear, fewer calls may have been up at once than the report has.
    peak = facts["peak"]
    marks = [[str(packet), "TN"[side], code] for packet, side, _, code, *_ in facts["marks"]]
    compared = {
        "sums": (facts["sums"], wanted),
        "peak": (words_of(peak[:2]), words_of(peak[:2]) if peak[2:] and peak[0] <= int(report["P"][0][0]) else report["P"][0]),
        "calls": ([words_of(call[:15]) for call in facts["calls"]], report["C"]),
        "settings": ([words_of(it) for it in facts["settings"]], report["S"]),
        "accounts": ([words_of(it) for it in facts["accounts"]], report["A"]),
        "findings": (marks, [[it[0], it[1], it[3]] for it in report["F"]]),
        "counts": ([it[3] for it in facts["codes"]], counts),
    }
    return [f"{name}: got {got}, expected {want}" for name, (got, want) in compared.items() if got != want]


def row_complaints(page, trace):
    """Whether the page has each packet of the trace once."""
    with open(trace, "rb") as file:
        lines = [line for line in file.read().splitlines() if not line.startswith(b"#")]
    words = [line.split(b" ") for line in lines[1:]]
    wanted = [int(number) for number, side, *_ in words if side != b"?"]
    return [] if sorted(page.rows) == wanted else ["it has other packets than the trace"]

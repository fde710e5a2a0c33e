"""Captures with planted faults, and what x25trace and x25page make of them where no option gives the header."""
import contextlib
import functools
import io
import json
import pathlib
import re
import sys
import tempfile

ROOT = pathlib.Path(__file__).resolve().parents[2]
sys.path[:0] = [str(ROOT / folder) for folder in ("tools", "tests/page", "tests/captures")]

import runner
from forms import Talk, enhanced, ethernet, interface, pcap, section
from pages import Page
from planted import line_of
from x25page_lib import command as page_command
from x25tools_lib.streams import Waiting
from x25trace_lib import command

# Other interfaces than those of the traces; how many captures there are, and how many have to get the true window and size.
SEEDS, ENOUGH = range(100, 148), 44
# Every eighth capture becomes a page.
EVERY = 8
HEADER = re.compile(r"^X25 .* WIN (\d+) SIZE (\d+) ", re.MULTILINE)


def captured(line):
    """The octets of a capture of a line, a TCP connection of XOT for each channel; and the frames with planted faults."""
    talks = {call.channel: Talk(ports=(1024 + call.channel, 1998)) for call in line.calls}
    frames = [frame for talk in talks.values() for frame in talk.open()]
    planted = [len(frames) + row for row in line.planted]
    for side, octets in line.rows:
        talk = talks[octets[1]]
        frames.append(talk.a(octets.hex()) if side == "T" else talk.b(octets.hex()))
    frames += [frame for talk in talks.values() for frame in talk.close()]
    return pcap(1, [ethernet(frame) for frame in frames]), planted


def past_last_channel(line):
    """The same line without TCP, with a call of the DTE past its last channel, which the DCE only reports."""
    rows = [("T", bytes.fromhex("1000FB0700")), ("N", bytes.fromhex("1000FF")), *line.rows]
    rows += [("T", bytes.fromhex("10090B0000")), ("N", bytes.fromhex("1000F12410090B"))]
    blocks = [enhanced(octets, flags=2 if side == "T" else 1) for side, octets in rows]
    return section() + interface(147) + b"".join(blocks), [row + 2 for row in line.planted], len(rows) - 1


def traced(program, words, octets):
    """The trace of a capture, and what x25trace says."""
    with tempfile.NamedTemporaryFile() as file:
        file.write(octets)
        file.flush()
        out, errors = io.StringIO(), io.StringIO()
        with contextlib.redirect_stdout(out), contextlib.redirect_stderr(errors):
            status = command.main(["--scanner", program, *words, file.name])
    return status, out.getvalue(), errors.getvalue()


def findings_in(program, trace):
    """The packets with findings."""
    done = runner.run([program, "--rows"], trace.encode())
    objects = map(json.loads, done.output.splitlines())
    return [it["packet"] for it in objects if it["line"] == "row" and it["finding"]]


def is_true(line, trace):
    """Whether a trace has the window and the size of a line."""
    return tuple(map(int, HEADER.search(trace).groups())) == (line.window, line.size)


@functools.cache
def capture_of(seed):
    """A line with its capture and the frames with planted faults."""
    line = line_of(seed)
    return line, *captured(line)


@functools.cache
def trace_of(program, seed):
    """The trace of a line's capture, as x25trace gives it without options."""
    return traced(program, [], capture_of(seed)[1])


def wrong_trace(program, seed):
    """What is wrong with the trace of a capture: each planted fault is a finding, and nothing else; it says what decides."""
    line, _, planted = capture_of(seed)
    status, trace, errors = trace_of(program, seed)
    problems = [] if status == 0 else [f"status {status}: {errors}"]
    if is_true(line, trace):
        many = len(planted)
        says = f"WIN {line.window} and SIZE {line.size}: with them the DCE answers {many} of {many} findings\n"
        problems += [] if f"x25trace: {says}" in errors and f"# {says}" in trace else [f"it says {errors}"]
    found = findings_in(program, trace)
    return problems + ([] if found == planted else [f"found {found}, planted {planted}"])


def wrong_page(program, seed):
    """What is wrong with the numbers of the page of a capture."""
    line, octets, _ = capture_of(seed)
    facts = page_of(program, [], octets)
    many = len(line.planted)
    why = f"with it the DCE answers {many} of {many} findings"
    wanted = [["WIN", str(line.window), why], ["SIZE", str(line.size), why]]
    found = [it for it in facts["numbers"] if it[0] in ("WIN", "SIZE")]
    return [] if found == wanted else [f"the page has {found}, expected {wanted}"]


def page_of(program, words, octets):
    """The facts of the page of a capture."""
    with tempfile.TemporaryDirectory() as folder:
        capture, page = pathlib.Path(folder, "line.pcap"), pathlib.Path(folder, "line.html")
        capture.write_bytes(octets)
        with contextlib.redirect_stderr(io.StringIO()):
            page_command.main(["--scanner", program, *words, "-o", str(page), str(capture)], Waiting())
        return Page(page).facts


def wrong_last_channel(program):
    """What is wrong where a fault is hidden by the estimated last channel, which the page says is an estimate."""
    octets, planted, past = past_last_channel(line_of(SEEDS[0]))
    _, trace, _ = traced(program, ["--as", "147=x25"], octets)
    found = findings_in(program, trace)
    given = findings_in(program, traced(program, ["--as", "147=x25", "--svc", "3"], octets)[1])
    problems = [] if (found, given) == (planted, [*planted, past]) else [f"found {found}, and {given} with --svc 3"]
    numbers = page_of(program, ["--as", "147=x25"], octets)["numbers"]
    return problems + ([] if ["SVC", "9", "the channels used"] in numbers else [f"the page has {numbers}"])


def few_true(program):
    """What is wrong with how many captures get the true window and size."""
    many = sum(is_true(capture_of(seed)[0], trace_of(program, seed)[1]) for seed in SEEDS)
    return [] if many >= ENOUGH else [f"{many} of {len(SEEDS)} captures get the true window and size"]


def cases(program):
    """The cases of all captures."""
    for seed in SEEDS:
        yield runner.Case(f"capture of seed {seed}", wrong_trace, program, seed)
        if seed % EVERY == 0:
            yield runner.Case(f"page of seed {seed}", wrong_page, program, seed)
    yield runner.Case("true windows and sizes of captures", few_true, program)
    yield runner.Case("a fault past the estimated last channel", wrong_last_channel, program)

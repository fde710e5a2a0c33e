#!/usr/bin/env python3
"""hostile.py PROGRAM [FRAMES [WORD]]: has PROGRAM read captures of XOT that are made to take memory or time, of FRAMES (10,000)
and of ten times the frames; those alone that have WORD in their names.

It prints the processor seconds (the least of five runs) and the peak memory (by GNU time) of `PROGRAM --alone --trace` on each,
and how many times as long ten times the frames take.
"""
from __future__ import annotations

import pathlib
import random
import subprocess
import sys
import tempfile
from collections.abc import Callable, Iterator

sys.dont_write_bytecode = True
ROOT = pathlib.Path(__file__).resolve().parent.parent
sys.path[:0] = [str(ROOT / "tests" / "captures"), str(ROOT / "tests" / "recordings")]

import attacks  # noqa: E402
import forms  # noqa: E402

CALL, DATA, FIRST_PORT, PORTS = attacks.CALL, "100100" + "AA" * 20, 2000, 60_000
TIMES, RUNS, FAR = 10, 5, 2**31
Frames = Iterator[bytes]


def talk_of(number: int, **given: object) -> forms.Talk:
    """A connection of its own: hosts have 60,000 ports each."""
    host, port = divmod(number, PORTS)
    return forms.Talk(ends=(f"10.0.{host // 256}.{host % 256}", forms.DCE), ports=(FIRST_PORT + port, 1998), **given)


def half_open(many: int) -> Frames:
    """Connections with a SYN alone, or with octets alone."""
    for number in range(many):
        talk = talk_of(number)
        yield talk.open()[0] if number % 2 else talk.segment(0, forms.xot(CALL)[:-1])


def far_apart(many: int) -> Frames:
    """Segments that are 2^31 apart."""
    talk = forms.Talk()
    yield from attacks.asked(talk)
    for number in range(many):
        yield talk.segment(number % 2, forms.xot(DATA), at=talk.next[number % 2] + FAR - number % 3)


def wrapping(many: int) -> Frames:
    """Connections whose sequence numbers wrap; each four segments come in the reverse order."""
    for number in range(many // 24):
        talk = talk_of(number, first=(2**32 - 300, 2**32 - 20))
        yield from attacks.asked(talk)
        sent = [talk.a(DATA) for _ in range(16)]
        for at in range(0, len(sent), 4):
            yield from sent[at:at + 4][::-1]
        yield talk.b("100101")


def unacknowledged(many: int) -> Frames:
    """Segments after missing octets, which nobody acknowledges."""
    talk = forms.Talk()
    yield from attacks.asked(talk)
    acknowledged = talk.next[0]
    talk.next[0] += 500
    for number in range(many):
        yield talk.segment(1, acknowledged=acknowledged) if number % 10 == 9 else talk.a(DATA)


def waiting_everywhere(many: int) -> Frames:
    """The same in 500 connections by turns, with 1,400 octets a segment."""
    talks = [talk_of(number) for number in range(500)]
    for talk in talks:
        yield from attacks.asked(talk)
        talk.next[0] += 500
    for number in range(many):
        yield talks[number % len(talks)].segment(0, bytes(1400))


def single_octets(many: int) -> Frames:
    """One octet a segment, of which each eight come in the reverse order."""
    talk, octets = forms.Talk(), forms.xot(DATA)
    yield from attacks.asked(talk)
    for number in range(0, many, 8):
        sent = [talk.segment(0, octets[(number + at) % len(octets):][:1]) for at in range(8)]
        yield from sent[::-1]


def repeated(many: int) -> Frames:
    """Parts of segments that wait, again and again."""
    talk, chance = forms.Talk(), random.Random(5)
    yield from attacks.asked(talk)
    begin = talk.next[0] + 1
    for _ in range(many):
        yield talk.segment(0, bytes(chance.randrange(1, 60)), at=begin + 2 * chance.randrange(4000))


def fragments(many: int) -> Frames:
    """Datagrams of which fragments are missing, overlap, or contradict each other."""
    talk = forms.Talk()
    ends = (forms.DTE, forms.DCE)
    yield from attacks.whole()
    segment = forms.tcp(*ends, talk.ports, talk.next[0], talk.next[1], 0, forms.xot("100100" + "AA" * 800))
    for number in range(many):
        place = 8 * (number * 7 % 100)
        yield forms.ipv4(*ends, segment[place:place + 64], place, True, number // 40 % 65_536)


ATTACKS: dict[str, Callable[[int], Frames]] = {
    "half-open connections": half_open,
    "segments 2^31 apart": far_apart,
    "numbers that wrap": wrapping,
    "never acknowledged": unacknowledged,
    "never acknowledged, 500 connections": waiting_everywhere,
    "one octet a segment": single_octets,
    "parts that wait, again": repeated,
    "fragments that overlap": fragments,
}


def measured(program: str, path: pathlib.Path) -> tuple[float, float]:
    """The least processor seconds and the peak memory in MiB of reading a capture."""
    seconds, memory = zip(*(run(program, path) for _ in range(RUNS)))
    return min(seconds), max(memory)


def run(program: str, path: pathlib.Path) -> tuple[float, float]:
    """The same of one run."""
    words = ["/usr/bin/time", "-f", "%U %S %M", program, "--alone", "--trace", path]
    done = subprocess.run(words, stdout=subprocess.DEVNULL, stderr=subprocess.PIPE, text=True, check=False)
    if done.returncode:
        sys.exit(f"status {done.returncode}: {done.stderr}")
    user, system, memory = done.stderr.splitlines()[-1].split()
    return float(user) + float(system), int(memory) / 1024


def main(program: str, frames: int, only: str) -> None:
    """Measures the captures."""
    print(f"{'':38} {'frames':>9} {'seconds':>8} {'MiB':>7}   ten times the frames")
    with tempfile.TemporaryDirectory() as folder:
        path = pathlib.Path(folder) / "day.pcap"
        for name, make in ((name, make) for name, make in ATTACKS.items() if only in name):
            before = 0.0
            for many in (frames, TIMES * frames):
                with path.open("wb") as file:
                    file.write(forms.pcap(1, []))
                    for at, frame in enumerate((*attacks.whole(), *make(many))):
                        file.write(forms.record(forms.ethernet(frame), at))
                seconds, memory = measured(program, path)
                times = f"   {seconds / before:.1f} times as long" if before else ""
                print(f"{name:38} {many:>9,} {seconds:>8.2f} {memory:>7.1f}{times}", flush=True)
                before = seconds


if __name__ == "__main__":
    if len(sys.argv) not in (2, 3, 4):
        sys.exit(__doc__)
    main(sys.argv[1], int(sys.argv[2]) if len(sys.argv) > 2 else 10_000, "".join(sys.argv[3:]))

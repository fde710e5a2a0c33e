"""The output of x25scan: the objects of a trace, and the explanations of words."""
from __future__ import annotations

import os
import re
import subprocess
from collections.abc import Callable, Iterator
from typing import Any, BinaryIO

from x25tools_lib import json_text
from x25tools_lib.refusals import PageWhy, Refusal

from .facts import Facts

# The topics whose words are in a page, each with the text in parentheses after its words.
TOPICS = {
    "code": "diagnostic code",
    "message": "code of a PAD message",
    "state": "state",
    "side": "side",
    "direction": "direction of a call",
    "end": "end of a call",
    "setting": "word of a setting",
    "parameter": "PAD parameter",
    "field": "field of the report",
    "header": "word of the header",
    "term": "term",
}
HEADING = re.compile(r"(\S.*?) \(([^()]*)\): (.*)")
PARTS_LEFT_OUT = ("Example: ", "See: ")
REFUSED = 2
# How the line of --version begins that only a program has which is not the proved one.
NOT_PROVED = "NOT PROVED"
# The name and the sentences of each word.
Explained = dict[str, list[Any]]
# A filter that sees the objects of a trace before they are used.
Watch = Callable[[Iterator[dict[str, Any]]], Iterator[dict[str, Any]]]


class Scanner:
    """A program x25scan."""

    def __init__(self, program: str) -> None:
        self.words = [program]
        self.explained_topics: dict[str, Explained] = {}
        self.proof: str | None = None

    def objects(self, trace: BinaryIO) -> Iterator[dict[str, Any]]:
        """The objects of a trace in an open file."""
        os.lseek(trace.fileno(), 0, os.SEEK_SET)
        words = [*self.words, "--rows"]
        with subprocess.Popen(words, stdin=trace, stdout=subprocess.PIPE, stderr=subprocess.PIPE) as running:
            assert running.stdout and running.stderr
            try:
                yield from json_text.objects(running.stdout)  # type: ignore[arg-type]
                said = running.stderr.read().decode(errors="replace")
            except BaseException:
                running.kill()
                raise
        self.judge(running.returncode, said)

    def report(self, facts: Facts, trace: BinaryIO, watch: Watch | None = None) -> None:
        """Passes the objects of a trace through a watch to the facts."""
        try:
            objects = self.objects(trace)
            facts.take(watch(objects) if watch else objects)
        except (ValueError, TypeError, LookupError) as fault:
            raise OSError(f"{self.words[0]} --rows printed what is no object of this x25scan") from fault

    def judge(self, status: int, said: str) -> None:
        """Raises a refusal where the program refused the trace."""
        if status in (0, 1):
            return
        lines = [line.removeprefix("x25scan: ").strip() for line in said.splitlines()]
        if status == REFUSED:
            raise Refusal(PageWhy.TRACE, ": ".join(lines))
        raise OSError(f"{self.words[0]} --rows ended with status {status}: {': '.join(lines)}")

    def explanations(self) -> dict[str, Explained]:
        """The name and the sentences of each word, by its topic."""
        if not self.explained_topics:
            self.explained_topics = {topic: self.explained(topic) for topic in TOPICS}
        return self.explained_topics

    def not_proved(self) -> str:
        """What the program says of itself where it is not the proved one; nothing where it is."""
        if self.proof is None:
            words = [*self.words, "--version"]
            done = subprocess.run(words, stdin=subprocess.DEVNULL, capture_output=True, encoding="utf-8", errors="replace", check=False)
            self.proof = next((line for line in done.stdout.splitlines() if line.startswith(NOT_PROVED)), "")
        return self.proof

    def explained(self, topic: str) -> Explained:
        """The words of a topic. Where the program has to be built first, standard error says so."""
        words = [*self.words, "--explain", topic]
        done = subprocess.run(words, stdin=subprocess.DEVNULL, stdout=subprocess.PIPE, encoding="utf-8", check=False)
        if done.returncode:
            raise OSError(f"{self.words[0]} --explain ended with status {done.returncode}")
        found: Explained = {}
        sentences: list[str] = []
        for line in done.stdout.splitlines():
            if match := HEADING.fullmatch(line):
                sentences = []
                if match[2] == TOPICS[topic]:
                    found[match[1]] = [match[3], sentences]
            elif line.startswith("  ") and not line.strip().startswith(PARTS_LEFT_OUT):
                sentences.append(line.strip())
        return found

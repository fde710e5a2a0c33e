"""Comments of a trace that have a form: their values, how they are written, and how they are read again.

x25trace writes them, and x25page reads them in a trace; for a capture it gets the values themselves.
"""
from __future__ import annotations

from collections.abc import Iterable, Iterator, Sequence
from dataclasses import dataclass, field

# The nanoseconds of a second.
SECOND = 1_000_000_000
LONGEST_COMMENT = 8_000
# The most circuits that are kept.
MOST_CIRCUITS = 2000
ESTIMATED = "estimated from what was seen: "
# How the comment with the time and the frame of the next row begins, and that on a circuit.
RECORDED_AT = "#@ "
CIRCUIT = f"{RECORDED_AT}circuit "
# How a comment ends that says what speaks for the sides exchanged.
SWAP = ": --swap exchanges them"
RECORDED = {"T": "only the DTE was recorded", "N": "only the DCE was recorded"}
# The most ranges of connections in a sentence.
MOST_RUNS = 20


@dataclass(frozen=True)
class Estimate:
    """An estimated number of the header, and what it is estimated from."""

    name: str
    value: int
    source: str

    @property
    def text(self) -> str:
        return f"{self.name} {self.value} ({self.source})"


@dataclass(frozen=True)
class Circuit:
    """An XOT connection in a trace: the number of its first row, its channel, and its comment."""

    row: int
    channel: int
    words: str

    @property
    def connection(self) -> int:
        """The number of the connection."""
        return int(self.words.split(" ")[1])


@dataclass(frozen=True)
class Half:
    """The only recorded side, T or N, of some XOT connections, of a LAPB link, or of the whole line."""

    side: str
    connections: tuple[int, ...] = ()
    is_link: bool = False

    @property
    def text(self) -> str:
        return f"{RECORDED[self.side]}{self.place}"

    @property
    def place(self) -> str:
        """Where it was recorded, in words that continue a sentence."""
        if self.connections:
            return f" on connection{'s' if len(self.connections) > 1 else ''} {ranges_text(self.connections)}"
        return " on the link" if self.is_link else ""


@dataclass
class Head:
    """What a trace has before and between its rows: its header, the comments before it, and its circuits."""

    header: str = ""
    comments: list[str] = field(default_factory=list)
    estimates: list[Estimate] = field(default_factory=list)
    circuits: list[Circuit] = field(default_factory=list)
    halves: list[Half] = field(default_factory=list)

    @property
    def numbers(self) -> dict[str, str]:
        """The words of the header, each with its value; a word without one has none."""
        words = self.header.split(" ")
        found = {}
        for word, value in zip(words[2:], [*words[3:], ""]):
            if word.isalpha():
                found[word] = value if value.isdigit() else ""
        return found

    @property
    def sources(self) -> dict[str, str]:
        """What each estimated number is estimated from."""
        return {it.name: it.source for it in self.estimates}


def comment(words: str) -> str:
    """A comment line, of printable ASCII and far shorter than the longest line allowed."""
    words = words[:LONGEST_COMMENT]
    if not (words.isascii() and words.isprintable()):
        words = "".join(letter if " " <= letter <= "~" else "?" for letter in words)
    return f"# {words}\n"


def time_text(time: int | None) -> str:
    """A time in seconds, with as many decimals as it needs; - where there is none."""
    if time is None:
        return "-"
    seconds, part = divmod(abs(time), SECOND)
    decimals = f".{part:09}".rstrip("0") if part else ""
    return f"{'-' if time < 0 else ''}{seconds}{decimals}"


def recorded_line(time: str, frame: int, connection: str = "") -> str:
    """The comment before a row: its time, the frame that has its last octet, and of a circuit the number of its connection."""
    return f"{RECORDED_AT}{time} {frame} {connection}\n" if connection else f"{RECORDED_AT}{time} {frame}\n"


def frame_of(line: str) -> int | None:
    """The frame that a comment names for the next row; None where it names none."""
    words = line.removeprefix(RECORDED_AT).split()
    is_one = line.startswith(RECORDED_AT) and not line.startswith(CIRCUIT) and len(words) in (2, 3)
    return int(words[1]) if is_one and all(word.isdecimal() for word in words[1:]) else None


def circuit_line(connection: int, channel: int | None, ends: Iterable[tuple[str, int]]) -> str:
    """The comment on a circuit that programs read: its connection, its channel, and the addresses and ports of the DTE and the DCE."""
    words = " ".join(f"{address} {port}" for address, port in ends)
    return f"{CIRCUIT}{connection} {channel or '-'} {words}\n"


def estimates_text(estimates: Iterable[Estimate]) -> str:
    """The comment on estimated numbers."""
    return ESTIMATED + ", ".join(it.text for it in estimates)


def estimates_of(words: str) -> list[Estimate]:
    """The estimated numbers that a comment names; none where it is another comment."""
    if not words.startswith(ESTIMATED):
        return []
    found = []
    for part in words.removeprefix(ESTIMATED).split("), "):
        number, _, source = part.partition(" (")
        name, _, value = number.partition(" ")
        if value.isdecimal():
            found.append(Estimate(name, int(value), source.removesuffix(")")))
    return found


def ends_text(dte: Sequence[str], dce: Sequence[str], basis: str = "") -> str:
    """The comment on the ends of an interface: the host of each side, or the number of its hosts, and on what that rests."""
    names = [side[0] if len(side) == 1 else f"{len(side):,} hosts" for side in (dte, dce)]
    words = f"{names[0]} {'is' if len(dte) == 1 else 'are'} taken for the DTE and {names[1]} for the DCE"
    return f"{words}: {basis}" if basis else words


def circuit_text(connection: int, channel: int | None, rest: str) -> str:
    """The comment on the circuit of a connection."""
    return f"connection {connection} is channel {channel}{rest}"


def cut_off_text(frame: int) -> str:
    """The end of the comment on a circuit whose connection ended before its call was cleared."""
    return f"it ends in frame {frame} without a clear"


def channel_of_circuit(words: str) -> int | None:
    """The channel of the circuit that a comment introduces; None where it is another comment."""
    connection, is_circuit, rest = words.partition(" is channel ")
    kind, _, number = connection.partition(" ")
    channel = rest.split(":")[0].split(",")[0]
    if not is_circuit or kind != "connection" or not number.isdecimal() or not channel.isdecimal():
        return None
    return int(channel)


def ranges_text(numbers: Sequence[int]) -> str:
    """Ascending numbers in words: '1 to 6, 8 and 9'."""
    runs: list[list[int]] = []
    for number in numbers:
        if runs and runs[-1][-1] == number - 1:
            runs[-1][1:] = [number]
        else:
            runs.append([number])
    words = [" to ".join(map(str, run)) if run[-1] - run[0] > 1 else " and ".join(map(str, run)) for run in runs]
    if len(words) > MOST_RUNS:
        return f"{', '.join(words[:MOST_RUNS])} and others, {len(numbers)} in all"
    return " and ".join(filter(None, (", ".join(words[:-1]), words[-1])))


def numbers_of(words: str) -> Iterator[int]:
    """The numbers of such words."""
    for part in words.replace(" and ", ", ").split(", "):
        first, _, last = part.partition(" to ")
        if first.isdecimal():
            yield from range(int(first), int(last if last.isdecimal() else first) + 1)


def half_of(words: str) -> Half | None:
    """What a comment names as recorded in one direction only; None where it is another comment."""
    for side, start in RECORDED.items():
        if words.startswith(start):
            place = words.removeprefix(start).partition(" on connection")[2]
            return Half(side, tuple(numbers_of(place.removeprefix("s").strip())), words.endswith(" on the link"))
    return None

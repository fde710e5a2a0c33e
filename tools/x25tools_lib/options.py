"""The options that x25trace and x25page share, and the exit status of both."""
from __future__ import annotations

import argparse
import enum
import ipaddress
import re
from collections.abc import Callable, Collection
from typing import NoReturn

from .choices import KINDS, KINDS_TEXT, XOT_PORT, Carrier, Choices, SideBy
from .header import LARGEST_SIZE, LAST_CHANNEL, SMALLEST_SIZE, Wishes
from .sides import Side
from .version import version

# A link address as people write it, and how many octets it has.
LINK_ADDRESS = re.compile(r"[0-9A-Fa-f]{2}(?:([:-])[0-9A-Fa-f]{2})(?:\1[0-9A-Fa-f]{2}){4}")
LINK_LENGTH = 6


class Status(enum.IntEnum):
    """The exit status."""

    WHOLE = 0
    DAMAGED = 1
    REFUSED = 2
    FAILED = 3
    WORDS = 64
    INTERRUPTED = 130


class Words(argparse.ArgumentParser):
    """Refuses a command line as x25scan does."""

    def error(self, message: str) -> NoReturn:
        self.exit(Status.WORDS, f"{self.prog}: {message}\n{self.format_usage()}")


class Version(argparse.Action):
    """Prints the version, and ends the program."""

    def __call__(self, parser: argparse.ArgumentParser, *_: object) -> NoReturn:
        print(f"{parser.prog} {version()}")
        parser.exit(Status.WHOLE)


def version_word(words: argparse.ArgumentParser) -> None:
    """The option --version, which needs no file."""
    words.add_argument("--version", action=Version, nargs=0, help="print the version, and end")


def number(first: int, last: int) -> Callable[[str], int]:
    """Returns a parser of an option's number."""
    def parse(word: str) -> int:
        if not word.isascii() or not word.isdigit() or not first <= int(word) <= last:
            raise argparse.ArgumentTypeError(f"{word!r} is not a number from {first} to {last}")
        return int(word)

    return parse


def size(word: str) -> int:
    """A packet size."""
    value = number(SMALLEST_SIZE, LARGEST_SIZE)(word)
    if value & value - 1:
        raise argparse.ArgumentTypeError(f"{word!r} is not a power of two")
    return value


def address(word: str) -> bytes:
    """The octets of an address: 4 of IPv4, 16 of IPv6, 6 of a link."""
    if LINK_ADDRESS.fullmatch(word):
        return bytes.fromhex(word.replace("-", ":").replace(":", ""))
    try:
        return ipaddress.ip_address(word).packed
    except ValueError as fault:
        raise argparse.ArgumentTypeError(f"{word!r} is not an address of IPv4 or IPv6, nor of a link") from fault


def kind(word: str) -> tuple[int | None, str]:
    """A link type, None for unknown ones, and what its frames hold."""
    link, parted, name = word.rpartition("=")
    if name not in KINDS:
        raise argparse.ArgumentTypeError(f"{name!r} is no kind: it is {KINDS_TEXT}")
    return number(0, 65_535)(link) if parted else None, name


def sender(word: str) -> tuple[int | bytes, Side]:
    """An interface or a link address, and the side that sends on it."""
    place, _, name = word.partition("=")
    sides = {"dte": Side.T, "dce": Side.N}
    if name not in sides:
        raise argparse.ArgumentTypeError(f"{word!r} is not of the form INTERFACE=dte or INTERFACE=dce")
    return address(place) if LINK_ADDRESS.fullmatch(place) else number(0, 65_535)(place), sides[name]


def stations_of(words: argparse.Namespace) -> dict[bytes, Side]:
    """The sides of the link addresses that --dte and --sender name."""
    stations = {place: side for place, side in words.sender if isinstance(place, bytes)}
    if words.dte is not None and len(words.dte) == LINK_LENGTH:
        stations[words.dte] = Side.T
    return stations


def reading_words(group: argparse._ArgumentGroup) -> None:
    """The options of how a capture is read."""
    group.add_argument("--as", dest="kinds", metavar="[LINKTYPE=]KIND", type=kind, action="append", default=[],
                       help="what the frames of a link type hold, or those of a hex dump and of all unknown link types: "
                       f"{KINDS_TEXT}; by default LAPB is tried for the link types 147 to 162 of users")
    group.add_argument("--only", choices=[one.value for one in Carrier], help="read only what this carrier carries")
    group.add_argument("--interface", metavar="N", type=number(0, 65_535), action="append", default=[],
                       help="read only this interface of a pcapng file, from 0, or this device of cooked frames of version 2; may be "
                       "repeated")
    group.add_argument("--port", metavar="N", type=number(1, 65_535), action="append", default=[],
                       help=f"a TCP port of XOT, instead of {XOT_PORT}; may be repeated")
    group.add_argument("--lapb-modulo", dest="link_modulus", type=int, choices=(8, 128),
                       help="how LAPB counts its frames; by default as SABM and SABME say, and modulo 8 before them")


def side_words(group: argparse._ArgumentGroup) -> None:
    """The options of which side is the DTE."""
    group.add_argument("--dte", metavar="ADDRESS", type=address,
                       help="the XOT host that is the DTE, by default the one that opens each connection; or the link "
                       "address of the DTE of a LAPB link")
    group.add_argument("--side", choices=[one.value for one in SideBy],
                       help="what decides the side of a LAPB frame: its address octet, its direction, or the source address "
                       "of its Ethernet or cooked header; by default the address octet, as long as the ends have two, and "
                       "then the direction, or else the source address")
    group.add_argument("--sender", metavar="N=dte|dce", type=sender, action="append", default=[],
                       help="the side that sends the packets recorded by an interface, or from a link address; may be "
                       "repeated")
    group.add_argument("--swap", action="store_true",
                       help="exchange the sides: the recording host, or the end that opened the link or the connection, is "
                       "the DCE")


def header_words(group: argparse._ArgumentGroup) -> None:
    """The options of the numbers of the header."""
    channel = number(0, LAST_CHANNEL)
    last = number(1, LAST_CHANNEL)
    group.add_argument("--mod", dest="modulus", type=int, choices=(8, 128), help="the modulus of packets")
    group.add_argument("--win", dest="window", metavar="N", type=number(1, 127),
                       help="the default window; if it is left out, x25scan tries which one explains the packets best")
    group.add_argument("--size", metavar="N", type=size,
                       help="the default packet size, in octets; if it is left out, it is tried in the same way")
    group.add_argument("--pvc", dest="permanent", metavar="N", type=channel, help="the last permanent channel")
    group.add_argument("--svc", dest="calls", metavar="N", type=last, help="the last channel")
    group.add_argument("--in", dest="incoming", metavar="N", type=channel, help="the last channel for incoming calls")
    group.add_argument("--two", dest="two_way", metavar="N", type=channel, help="the last two-way channel")
    group.add_argument("--out", dest="outgoing", metavar="N", type=last, help="the last channel for outgoing calls")
    join = group.add_mutually_exclusive_group()
    join.add_argument("--join", action="store_true", default=None, help="the recording began in the middle, so no channel is known; by default a "
                      "first packet that is no restart says so of a line, and of XOT each connection without its opening")
    join.add_argument("--no-join", dest="join", action="store_false", help="all channels were fresh when it began")


def chosen(words: argparse.Namespace) -> tuple[Choices, Wishes]:
    """How a capture is read and the numbers of the header, from the parsed command line."""
    given = vars(words)
    wishes = Wishes(**{name: given[name] for name in Wishes.__dataclass_fields__})
    choices = Choices(
        kinds=dict(words.kinds),
        ports=words.port or [XOT_PORT],
        dte=words.dte,
        only=words.only and Carrier(words.only),
        interfaces=frozenset(words.interface),
        senders={place: side for place, side in words.sender if isinstance(place, int)},
        stations=stations_of(words),
        swapped=words.swap,
        side_by=words.side and SideBy(words.side),
        link_modulus=words.link_modulus,
    )
    return choices, wishes


def option_among(words: argparse.Namespace, parser: argparse.ArgumentParser, others: Collection[str]) -> str | None:
    """An option of the parsed command line that is not among these; None where there is none."""
    given, bare = vars(words), vars(parser.parse_args(["-"]))
    for action in parser._actions:
        if action.option_strings and action.dest in given and action.dest not in others:
            if given[action.dest] != bare[action.dest]:
                return action.option_strings[0]
    return None


def check(words: argparse.Namespace, parser: argparse.ArgumentParser) -> None:
    """Refuses options for a capture that contradict each other."""
    if words.calls is not None and (words.incoming, words.two_way, words.outgoing) != (None, None, None):
        parser.error("--svc does not go with --in, --two and --out")
    if words.captures.count("-") > 1:
        parser.error("standard input (-) can be read once")

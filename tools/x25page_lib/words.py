"""The command line of x25page: its options, and which of them are for captures only."""
from __future__ import annotations

import argparse
import functools
import shlex
from collections.abc import Sequence

from x25tools_lib.options import Words, check, option_among, header_words, reading_words, side_words, version_word
from x25tools_lib.refusals import PageWhy, Why

REASONS = ", ".join(why.value for why in (*Why, *PageWhy))
NAMES_OF_PAGES = """\
Without -o the page is NAME.html in the current folder, for a file NAME, NAME.pcap or NAME.pcap.gz, and nothing else is
written. It is one file: a browser shows it from the disk, and it asks no network for anything. It replaces a page of
that name, also where -o names it, but no other file: that needs --force."""
EPILOG = f"""
examples:
  x25page day.pcap                      writes day.html, of XOT, LAPB or X.25 in a pcap, pcapng or snoop file
  x25page --win 2 --size 128 day.pcap   the same under a header with these numbers
  x25page -o friday.html day.trace      a page of a trace, under another name
  x25page day.pcap0 day.pcap1           the files of a rotated capture, in their order
  x25page --summary day.pcap            prints text: findings, waits, windows, acknowledgements and use
  x25page --each captures -o pages      a page for each file in a folder, and pages/index.html
  x25page --compare mon.pcap tue.pcap   writes mon-to-tue.html: what differs

{NAMES_OF_PAGES}

exit status:
  0   the page is written, and no packet may be missing
  1   the page is written, but the capture is damaged or packets are missing: standard error and the page say which
  2   there is no page, or with --each none of one of the files: the reason has a name ({REASONS})
  3   reading or writing failed
  64  the command line was refused
  130 it was interrupted (SIGINT): the page, if there is one, is of what was read before
"""


# The options that are not about captures.
OF_PAGES = ("page", "scanner", "summary", "is_each", "is_comparison", "is_forced", "is_quiet")
# Those that a command which reads the same again does not need.
FLAGS = ("--summary", "--force", "--quiet")


@functools.cache
def parser() -> Words:
    """The parser of the command line."""
    words = Words(
        prog="x25page",
        description="Writes a page of HTML of a trace, or of the X.25 packets in a capture: who broke the protocol, "
        "the calls and what they cost, and a ladder of the packets of each. Standard error has the header and what of "
        "it is estimated.",
        epilog=EPILOG,
        formatter_class=argparse.RawDescriptionHelpFormatter,
        allow_abbrev=False,
    )
    words.add_argument("captures", metavar="CAPTURE", nargs="+",
                       help="a trace; or a capture, or files of a rotated one in their order; - for standard input. Each may be "
                       "packed by gzip")
    words.add_argument("-o", dest="page", metavar="OUT", help="the file of the page, by default NAME.html")
    words.add_argument("--each", dest="is_each", action="store_true",
                       help="write a page for each file, also for those in folders that are named, and an index of them, "
                       "into the folder of -o")
    words.add_argument("--compare", dest="is_comparison", action="store_true",
                       help="write a page of what differs between two captures or traces, BEFORE and AFTER")
    words.add_argument("--summary", action="store_true",
                       help="print the facts, or with --compare what differs, as text on standard output, and write a page "
                       "only where -o names one")
    words.add_argument("--force", dest="is_forced", action="store_true", help="write also over a file that is no page")
    words.add_argument("--quiet", dest="is_quiet", action="store_true",
                       help="print on standard error only why there is no page")
    version_word(words)
    words.add_argument("--scanner", metavar="PROGRAM",
                       help="the x25scan to run, by default the proved one of this folder, else the one that bin/x25try runs")
    reading_words(words.add_argument_group("reading of a capture"))
    side_words(words.add_argument_group("sides of a capture"))
    header_words(words.add_argument_group("header of a capture, by default estimated from what was seen"))
    return words


def parsed(arguments: Sequence[str]) -> argparse.Namespace:
    """The parsed command line; exits the program where it is refused."""
    words = parser().parse_args(arguments)
    check(words, parser())
    words.has_several = words.is_each or words.is_comparison
    if words.page == "-":
        parser().error("the page is a file: -o names it")
    if words.has_several:
        check_several(words)
    elif words.page is None and words.captures[0] == "-" and not words.summary:
        parser().error("standard input has no name for the page: -o gives one")
    return words


def check_several(words: argparse.Namespace) -> None:
    """Refuses options for several pages that contradict each other."""
    if words.is_each and words.is_comparison:
        parser().error("--each and --compare do not go together")
    if "-" in words.captures:
        parser().error("--each and --compare read files, not standard input")
    if words.is_each and words.page is None:
        parser().error("--each writes into a folder: -o names it")
    if words.is_each and words.summary:
        parser().error("--each writes pages, not text: --summary reads one capture or trace, or two with --compare")
    if words.is_comparison and len(words.captures) != 2:
        parser().error(f"--compare takes two files, before and after, not {len(words.captures)}")


def of_captures(words: argparse.Namespace) -> str | None:
    """An option of the command line that is for captures only, or None."""
    return option_among(words, parser(), OF_PAGES)


def line_with(arguments: Sequence[str], *options: str, flags: Sequence[str] = ()) -> str:
    """The command line that reads the same captures again, without the options of a page and without these others."""
    left_out = ("-o", "--scanner", *options)
    rest, words = [], iter(arguments)
    for word in words:
        if word in (*FLAGS, *flags):
            continue
        if word in left_out:
            next(words, None)
        elif not word.startswith((*(f"{option}=" for option in left_out), "-o")):
            rest.append(word)
    return shlex.join(rest)

"""The command line of x25trace."""
from __future__ import annotations

import argparse
import functools
from collections.abc import Sequence

from x25tools_lib.options import Words, check, option_among, header_words, reading_words, side_words, version_word
from x25tools_lib.refusals import Why
from x25tools_lib.streams import is_pipe, is_same, shown_name

GAPS = """\
Where packets may not have been recorded, the trace has gap rows: NUMBER ? CHANNEL, or NUMBER ? * where they may be of any
channel. What a missing packet could explain is no finding of x25scan. Such a trace, and one that begins in the middle or
is written while frames come, has the third form of the header."""
FOLLOWING = """\
With --follow, x25scan prints findings while rows are written, and the rest of the report at the end. Ctrl-C
(SIGINT) and SIGTERM end the reading, and the report of what was read follows. A second one ends both at once. Findings of
a pipe come at once where options give all numbers of the header, or where the pipe has a trace. The exit status is that
of x25scan where there is a trace: 0 without findings, 1 with findings."""
EPILOG = f"""
examples:
  x25trace xot.pcapng > xot.trace && x25scan < xot.trace
  x25trace --dte 192.0.2.7 --win 2 --size 128 xot.pcap | x25scan
  x25trace --as 147=x25 line.pcap       a user link type that holds packets; without --as LAPB is tried
  x25trace --as x25 debug.txt           a hex dump of packets, with a line I or O before each
  tcpdump -U -w - | x25trace --follow --mod 8 --win 2 --size 128 --pvc 0 --svc 64 -
  tail -n +1 -F line.trace | x25trace --follow -
  tail -n +1 -F line.trace | x25trace --follow --json - | jq .
  x25trace day.pcap0 day.pcap1          the files of a rotated capture, in their order

{GAPS}

{FOLLOWING}

exit status:
  0   the trace is written, and no packet may be missing
  1   the trace is written, but the capture is damaged or packets are missing: standard error says which
  2   there is no trace: the reason has a name ({', '.join(why.value for why in Why)})
  3   reading or writing failed
  64  the command line was refused
  130 it was interrupted (SIGINT): the trace has what was read before
"""
# The options that a trace may have.
OF_TRACES = ("is_followed", "is_json", "has_rows", "is_quiet", "scanner")


@functools.cache
def parser() -> Words:
    """The parser of the command line."""
    words = Words(
        prog="x25trace",
        description="Writes the trace, as x25scan reads it, of the X.25 packets in a capture: pcap, pcapng, snoop or a "
        "hex dump; XOT, LAPB or packets. With --follow it prints the report of x25scan in place of the trace. Messages and "
        "counts go to standard error, and into the trace as comments. Files may be packed by gzip.",
        epilog=EPILOG,
        formatter_class=argparse.RawDescriptionHelpFormatter,
        allow_abbrev=False,
    )
    words.add_argument("captures", metavar="CAPTURE", nargs="+",
                       help="the file, or files of a rotated capture in their order; - for standard input; or a trace, "
                       "which is passed on unchanged")
    words.add_argument("--follow", dest="is_followed", action="store_true",
                       help="have x25scan read the trace while it is written: print its findings as they come, and after "
                       "Ctrl-C the whole report")
    words.add_argument("--json", dest="is_json", action="store_true",
                       help="with --follow, print the report as JSON lines: an object for each line")
    words.add_argument("--rows", dest="has_rows", action="store_true",
                       help="with --follow, print a JSON object for each row as it comes, and at the end those of the report")
    words.add_argument("--no-times", dest="has_comments", action="store_false",
                       help="leave out the comment '#@ SECONDS FRAME' before each row, which has the time of its frame since "
                       "1970 (UTC), or -, the number of the frame and that of its circuit; and those that name circuits")
    words.add_argument("--comments", metavar="OUT",
                       help="write this pcapng file in place of the trace: the capture, with what x25scan finds as "
                       "comments of its frames")
    words.add_argument("--scanner", metavar="PROGRAM",
                       help="the x25scan that tries headers, and that --follow and --comments run, by default the proved "
                       "one of this folder, else the one that bin/x25try runs")
    words.add_argument("--force", dest="is_forced", action="store_true",
                       help="let --comments write over a file that it did not write")
    words.add_argument("--quiet", dest="is_quiet", action="store_true",
                       help="print no messages, except why there is no trace; the trace has them as comments")
    version_word(words)
    reading_words(words.add_argument_group("reading"))
    side_words(words.add_argument_group("sides"))
    header_words(words.add_argument_group("header, by default estimated from what was seen"))
    return words


def forms_of(words: argparse.Namespace) -> list[str]:
    """The options of x25scan for the form of the report that is followed."""
    given = {"--json": words.is_json, "--rows": words.has_rows}
    return [option for option, is_given in given.items() if is_given]


def parsed(arguments: Sequence[str]) -> argparse.Namespace:
    """The parsed command line; exits the program where it is refused."""
    words = parser().parse_args(arguments)
    check(words, parser())
    if (forms := forms_of(words)) and not words.is_followed:
        parser().error(f"{forms[0]} is a form of the report, which --follow prints")
    if words.comments is not None and words.is_followed:
        parser().error("--follow prints a report, and --comments writes a capture: they do not go together")
    if words.comments is not None and any(map(is_pipe, words.captures)):
        parser().error("--comments reads the capture twice: it needs a file, not a pipe")
    if words.is_forced and words.comments is None:
        parser().error("--force is of --comments, which writes a file")
    if words.comments is not None and any(is_same(words.comments, name) for name in words.captures):
        parser().error("--comments would write over the capture: name another file")
    return words


def check_trace(words: argparse.Namespace) -> None:
    """Refuses options for captures where the input is a trace."""
    if option := option_among(words, parser(), OF_TRACES):
        name = shown_name(words.captures[0])
        parser().error(f"{option} is of captures, and {name} is a trace, which has its header and its sides")

"""Captures of tests/captures and traces, and what their pages say first."""
from __future__ import annotations

from dataclasses import dataclass, field

HEADER = "X25 1 MOD 8 WIN 2 SIZE 128 PVC 0 SVC 4\n"
GAPS = "X25 3 MOD 8 WIN 2 SIZE 128 PVC 0 IN 0 TWO 4 OUT 4\n"
CALL = "1 T 10010B0000\n2 N 10010F\n"
GIVEN = ("--win", "2", "--size", "128")
LAPB = ("--as", "147=lapb", *GIVEN)
PROTOCOL = "it is not known who broke the protocol."


@dataclass
class Case:
    """A capture by its name, or a trace, and what its page has: the verdict, and what it says of halves."""

    name: str
    verdict: tuple[str, str]
    words: tuple[str, ...] = ()
    trace: str | None = None
    status: int = 0
    half_counts: list[int] | None = None
    # The calls that a packet which was not recorded ended.
    unrecorded_ends: list[int] = field(default_factory=list)
    # Lines of standard error, what the screen shows, and what it does not.
    said: tuple[str, ...] = ()
    shown: tuple[str, ...] = ()
    hidden: tuple[str, ...] = ()
    # Whether parts of it were recorded in both directions.
    is_mixed: bool = False


def half(name: str, sentence: str, said: str, **more) -> Case:
    """A capture of which something was recorded in one direction alone."""
    given = {"words": GIVEN, "status": 1, **more}
    return Case(name, ("unknown", sentence), said=(said,), **given)


HALVES = (
    half("half-dte-on-all-connections", f"Only the DTE was recorded on connections 1 to 3: {PROTOCOL}",
         "only the DTE was recorded on connections 1 to 3", half_counts=[0, 0],
         shown=("None of its packets was recorded.", "may be missing here"),
         hidden=("The DTE broke the protocol", "cleared by the DCE", "None of its packets breaks")),
    half("half-dce-on-one-connection", f"Only the DCE was recorded on connection 1: {PROTOCOL}",
         "only the DCE was recorded on connection 1", half_counts=[0, 0],
         hidden=("The DCE broke the protocol",)),
    half("half-connections-among-whole-ones",
         "Only the DTE was recorded on connection 2, and only the DCE was recorded on connection 3. "
         "On the other connections no packet breaks the protocol.",
         "only the DCE was recorded on connection 3", half_counts=[0, 0], is_mixed=True,
         shown=("cleared by the DTE",)),
    half("half-dce-acknowledged-and-not-recorded", f"Only the DTE was recorded on connection 1: {PROTOCOL}",
         "only the DTE was recorded on connection 1", half_counts=[0, 0]),
    half("half-dte-on-a-link", f"Only the DTE was recorded on the link: {PROTOCOL}",
         "only the DTE was recorded on the link", half_counts=[1, 0], words=LAPB),
    half("half-dte-without-a-link-header", f"Only the DTE was recorded: {PROTOCOL}", "only the DTE was recorded",
         half_counts=[1, 0], words=("--as", "147=x25-dir", *GIVEN)),
    Case("half-not-where-the-other-side-is-silent", ("good", "No packet breaks the protocol."), GIVEN),
    Case("half-not-where-the-dce-acknowledges", ("bad", "The DTE broke the protocol once."), LAPB),
)
LATE = "No packet breaks the protocol, but"
WHOLE = (
    Case("no-packets", ("unknown", "The trace has no packets."), trace=HEADER,
         shown=("0\npackets", "The trace has no packet of it."), hidden=("breaks the protocol",)),
    Case("no-packet-of-the-dce", ("good", "No packet breaks the protocol."), trace=HEADER + "1 T 10010B0000\n",
         shown=("The trace has no packet of it.",)),
    Case("answered-after-its-timer", ("unknown", f"{LATE} 1 request stayed open longer than its timer."),
         trace=HEADER + "#@ 1000\n1 T 10010B0000\n#@ 1201\n2 N 10010F\n", hidden=("Nobody",), shown=("T21",)),
    Case("answered-just-before-its-timer", ("good", "No packet breaks the protocol."),
         trace=HEADER + "#@ 1000\n1 T 10010B0000\n#@ 1199.5\n2 N 10010F\n"),
    Case("two-requests-without-an-answer", ("unknown", f"{LATE} 2 requests stayed open longer than their timers."),
         trace=HEADER + "#@ 1000\n1 T 10010B0000\n#@ 1001\n2 N 10020B0000\n#@ 1300\n3 T 10030B0000\n4 N 10030F\n"),
    Case("late-without-times", ("good", "No packet breaks the protocol."), trace=HEADER + "1 T 10010B0000\n2 N 10010F\n"),
    Case("late-and-broken", ("bad", "The DTE broke the protocol once."),
         trace=HEADER + "#@ 1000\n1 T 10010B0000\n#@ 1201\n2 N 10010F\n3 T 100102AA\n"),
    Case("no-findings", ("good", "No packet breaks the protocol."), trace=HEADER + CALL,
         shown=("DTE", "DCE", "None of its packets breaks the protocol.", "all data was accepted"), hidden=("Nobody",)),
    Case("no-findings-beside-a-gap", ("good", "No packet breaks the protocol, in what was recorded: 1 gap."),
         trace=GAPS + CALL + "3 ? 1\n4 T 100102AA\n5 N 100121\n",
         shown=("No recorded packet of it breaks the protocol.", "all data that was recorded was accepted"),
         hidden=("Nobody", "None of its packets breaks", "all data was accepted")),
    Case("dte-once", ("bad", "The DTE broke the protocol once."), trace=HEADER + CALL + "3 T 100102AA\n"),
    Case("dce-twice", ("bad", "The DCE broke the protocol twice."), trace=HEADER + CALL + "3 N 100221\n4 N 100321\n"),
    Case("both-sides", ("bad", "The DTE broke the protocol once, the DCE twice."), trace=HEADER + CALL + "3 N 100221\n4 N 100321\n5 T 100421\n"),
    Case("one-that-follows", ("bad", "The DCE broke the protocol once; one finding of the DCE may follow from that."), trace=HEADER + CALL + "3 N 100102AA\n4 N 100104AA\n"),
    Case("both-sides-follow", ("bad", "The DCE broke the protocol once; one finding of the DTE and 2 of the DCE may follow from that."),
         trace=HEADER + CALL + "3 N 100102AA\n4 N 100104AA\n5 N 100106AA\n6 T 100102AA\n"),
)
CASES = (*HALVES, *WHOLE)

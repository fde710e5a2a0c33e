"""Words that --explain is asked for, and what it has to print."""
import re

from runner import RunCase

# Words that have one meaning, and its heading.
HEADINGS = (
    ("C", "C (line of the report): call"),
    ("out", "out (direction of a call): outgoing call"),
    ("collision", "collision (end of a call): call collision"),
    ("said", "said (word of a setting): said"),
    ("p7", "p7 (state): DCE clear indication"),
    ("83", "83 (diagnostic code): Inconsistent Q-bit setting"),
    ("XL", "XL (code of a PAD message): too long a message"),
    ("write", "write (refusal): write failed"),
    ("64", "64 (exit status): usage"),
    ("16", "16 (PAD parameter): character delete"),
    ("kind 22", "22 (kind of faulty line): HeaderForm"),
    ("parameter 2", "2 (PAD parameter): echo"),
    ("code 22", "22 (diagnostic code): Packet type invalid for state p3"),
    ("state -", "- (state): no state"),
    ("echo", "2 (PAD parameter): echo"),
    ("page wait", "22 (PAD parameter): page wait"),
    ("Invalid P(S)", "1 (diagnostic code): Invalid P(S)"),
    ("LineForm", "24 (kind of faulty line): LineForm"),
    ("segments", "segments (field of the report): segments of 64 octets"),
    ("data_t", "data_t (field of the report): dataT"),
    ("octN", "octets_n (field of the report): octN"),
    ("field side", "side (field of the report): side of the interface"),
    ("X25", "X25 (word of the header): beginning of the header"),
    ("MOD", "MOD (word of the header): modulus"),
    ("WIN", "WIN (word of the header): default window"),
    ("SIZE", "SIZE (word of the header): default packet size"),
    ("SVC", "SVC (word of the header): virtual calls"),
    ("IN", "IN (word of the header): incoming calls only"),
    ("TWO", "TWO (word of the header): two-way channels"),
    ("OUT", "OUT (word of the header): outgoing calls only"),
    ("JOIN", "JOIN (word of the header): recording that begins in the middle"),
    ("cause 19", "19 (cause of a clear): local procedure error"),
    ("cause 29", "29 (cause of a reset): network out of order"),
    ("cause 127", "127 (cause of a restart): registration or cancellation confirmed"),
    ("ship absent", "57 (cause of a clear): ship absent"),
    ("window", "window (term): window"),
    ("frame", "frame (term): frame"),
    ("segment", "segment (term): segment"),
    ("virtual call", "call (term): virtual call"),
    ("permanent virtual circuit", "PVC (term): permanent virtual circuit"),
    ("P(S)", "P(S) (term): packet send sequence number"),
    ("P(R)", "P(R) (term): packet receive sequence number"),
    ("M bit", "M (term): M bit"),
    ("Q", "Q (term): Q bit"),
    ("RR", "RR (term): receive ready"),
    ("reset", "reset (term): reset"),
    ("clear", "clear (term): clear"),
    ("diagnostic", "diagnostic (term): diagnostic code of a packet"),
    ("facilities", "facility (term): facilities"),
    ("fast select", "fast select (term): fast select"),
    ("PAD", "PAD (term): packet assembly/disassembly facility"),
    ("LAPB", "LAPB (term): link access procedure, balanced"),
    ("X.25 over TCP", "XOT (term): X.25 over TCP"),
    ("G", "G (line of the report): gaps"),
    ("end gap", "gap (end of a call): hidden by a gap"),
    ("term gap", "gap (term): gap"),
    ("adrift", "adrift (term): state after a gap"),
    ("T21", "T21 (term): time-out of a call request"),
    ("term restart", "restart (term): restart of the interface"),
    ("out of memory", "memory (refusal): out of memory"),
    ("write failed", "write (refusal): write failed"),
    ("x25scan: read failed", "read (refusal): read failed"),
    ("x25scan: arguments are no text", "arguments (refusal): arguments are no text"),
    ("line 3: kind 24", "24 (kind of faulty line): LineForm"),
    ("x25scan: line 20001: kind 25", "25 (kind of faulty line): Number"),
    ("x25scan: cannot open day.trace: no such file", "open (refusal): cannot open FILE"),
    ("x25scan: no such word: d4 (x25scan --explain lists them)", "word (refusal): no such word"),
)

# Lines that the program prints, with the headings of what they are explained by.
LINES = (
    ("F 5 T d1 1", ("F (line of the report): finding", "packet (field of the report): number of a row", "T (side): DTE", "d1 (state): flow control ready", "1 (diagnostic code): Invalid P(S)")),
    ("F 3 N d1 X2", ("F (line of the report): finding", "packet (field of the report): number of a row", "N (side): DCE", "d1 (state): flow control ready", "X2 (code of a PAD message): badly formed message")),
    ("F 1 T - 38", ("F (line of the report): finding", "packet (field of the report): number of a row", "T (side): DTE", "- (state): no state", "38 (diagnostic code): Packet too short")),
    ("F 5 T", ("F (line of the report): finding", "packet (field of the report): number of a row", "T (side): DTE")),
    ("S 1 T 2 said 1", ("S (line of the report): PAD setting", "call (field of the report): number of a call", "T (side): DTE", "2 (PAD parameter): echo", "said (word of a setting): said", "value (field of the report): value of a parameter")),
    ("A - 1 2", ("A (line of the report): account", "address (field of the report): address that pays", "calls (field of the report): number of calls", "segments (field of the report): segments of 64 octets")),
    ("G 1", ("G (line of the report): gaps", "gaps (field of the report): number of gap rows")),
    ("P 1 2", ("P (line of the report): peak", "count (field of the report): calls at once", "packet (field of the report): number of a row")),
    ("Z 5 1 1 2 2", ("Z (line of the report): sums", "packets (field of the report): number of rows", "findings (field of the report): number of findings", "calls (field of the report): number of calls", "octets (field of the report): octets of user data", "segments (field of the report): segments of 64 octets")),
    (
        "C 1 1 1 out - - 1 2 - open 2 2 0 0 2",
        (
            "C (line of the report): call", "call (field of the report): number of a call", "epoch (field of the report): part between two restarts",
            "channel (field of the report): logical channel", "out (direction of a call): outgoing call", "called (field of the report): called address",
            "calling (field of the report): calling address", "opened (field of the report): row that opened the call", "up (field of the report): row that brought the call up",
            "ended (field of the report): row that ended the call", "open (end of a call): still open", "data_t (field of the report): dataT", "octets_t (field of the report): octT",
            "data_n (field of the report): dataN", "octets_n (field of the report): octN", "segments (field of the report): segments of 64 octets",
        ),
    ),
)

# Words with several meanings: how many, and the name of the first.
SEVERAL = (
    ("22", 3, "Packet type invalid for state p3"),
    ("-", 2, "absent"),
    ("parameter", 23, "parameter of a PAD"),
    ("status", 5, "no finding"),
    ("header", 10, "beginning of the header"),
    ("field", 29, "number of a row"),
    ("call", 3, "call"),
    ("packet", 2, "number of a row"),
    ("PVC", 2, "permanent virtual circuits"),
    ("cause", 28, "DTE originated"),
    ("cause 9", 2, "out of order"),
    ("cause 1", 3, "number busy"),
    ("local procedure error", 3, "local procedure error"),
    ("term", 39, "window"),
    ("restart", 2, "restart"),
    ("gap", 2, "hidden by a gap"),
    ("x25scan: piece 3 posted twice", 3, "piece I posted twice"),
)

# Words that have none.
UNKNOWN = ("d4", "42", "cause 2", "cause 128", "x1", "Invalid", "kind 30", "22 kind", "kind  22", "line 3", "Q 1 2", "f 5 T d1 1", "x25scan:", "no" + " word" * 60)

TWENTY_SIX = b"""26 (diagnostic code): Packet type invalid for state p7
  The DCE sent its clear indication and then another packet on the channel, in place of waiting for the DTE.
  When: On side N alone, once its indication has come. It changes nothing.
  Clause: X.25 4.1.8, Annex B; profile
  See: /usr/share/doc/x25scan/RULES.md
  Example: F 3 N p7 26 in /usr/share/doc/x25scan/tests/traces/worked/dce-faults.trace
26 (kind of faulty line): Side
  The side is neither T nor N.
  When: On a row, after 28, 24 and 25. In the third form a ? in its place makes the row a gap row. The trace is refused with status 2 and nothing is reported; findings that --follow printed before remain.
  Clause: profile
  See: /usr/share/doc/x25scan/TRACE.md
  Example: x25scan: line 2: kind 26 in /usr/share/doc/x25scan/tests/traces/worked/refused-side.trace
"""


def meanings(count, first):
    """A number of meanings, of which the first has this name."""
    heading = rb"[^\n ][^\n]* \([^\n]*\): "
    rest = rb"(?:  [^\n]*\n)+"
    return re.compile(heading + re.escape(first.encode()) + rb"\n" + rest + (rb"(?:" + heading + rb"[^\n]*\n" + rest + rb")") * (count - 1))


def headed(headings):
    """Explanations with these headings."""
    return re.compile(b"".join(re.escape(it.encode()) + rb"\n(?:  [^\n]+\n){5}" for it in headings))


def explain_cases():
    """Words with one meaning, with several and with none, lines that are printed, and all words."""
    yield RunCase("both meanings of a number are explained", ("--explain", "26"), output=TWENTY_SIX)
    for word, heading in HEADINGS:
        explanation = re.compile(re.escape(heading.encode()) + rb"\n(?:  [^\n]+\n){4,6}")
        yield RunCase(f"{word} has one meaning", ("--explain", word), output=explanation)
    for line, headings in LINES:
        yield RunCase(f"{line} is explained word by word", ("--explain", line), output=headed(headings))
    for word, count, first in SEVERAL:
        yield RunCase(f"{word} has {count} meanings", ("--explain", word), output=meanings(count, first))
    for word in UNKNOWN:
        errors = f"x25scan: no such word: {word} (x25scan --explain lists them)\n".encode()
        yield RunCase(f"{word!r} is not explained", ("--explain", word), status=64, errors=errors)
    first = rb"F \(line of the report\): finding\nC \(line of the report\): call\n"
    listed = re.compile(first + rb"(?:[^\n]+\n){221}22 \(PAD parameter\): page wait\n")
    yield RunCase("all words are listed", ("--explain",), output=listed)

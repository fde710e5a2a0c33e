"""Words of the command line, each with the outcome that it has to have."""
import re

from explain_cases import explain_cases

from runner import RunCase

HEADER = b"X25 1 MOD 8 WIN 2 SIZE 128 PVC 0 SVC 4\n"
CLEAN = HEADER
CLEAN_REPORT = b"P 0 -\nZ 0 0 0 0 0\n"
FOUND = HEADER + b"1 T -\n"
CALL = HEADER + b"1 T 10010B0000\n2 N 10010F\n"
FOUND_REPORT = b"F 1 T - 38\nP 0 -\nZ 1 1 0 0 0\n"
GUESSED = b"X25 1 MOD 8 WIN 1 SIZE 128 PVC 1 SVC 1\n1 T 10010048\n2 T 10010249\n3 N 100141\n4 T 1001044A\n5 N 100161\n"
GUESSED_REPORT = b"F 2 T d1 1\nP 0 -\nZ 5 1 0 1 1\n"
NOTE = b"x25scan: 2 data packets with 2 octets were not counted: 1 (1 octet) with a finding, 1 (1 octet) while the DCE owes its indication; --annotate shows where\n"
ANY = re.compile(rb".*", re.DOTALL)
FULL = b"x25scan: write failed\n  No space left on device (os error 28)\n"
NUMBERS = rb"x25scan: \d+ bytes read, \d+ lines, \d+ lines a second\n"


def pattern(text):
    return re.compile(text, re.DOTALL)


def refused(line, kind, sentence, name=None):
    """The two lines that refuse a trace. The second begins with the name of the trace and the line where it has a name."""
    place = f"{name}:{line}: " if name else "  "
    return f"x25scan: line {line}: kind {kind}\n{place}{sentence}\n".encode()


def file_cases():
    """A trace by its name, and names of no trace."""
    day = {"day.trace": FOUND}
    yield RunCase("a file is read in place of standard input", ("day.trace",), CLEAN, 1, FOUND_REPORT, files=day)
    yield RunCase("a file is read in one thread", ("--alone", "day.trace"), CLEAN, 1, FOUND_REPORT, files=day)
    yield RunCase("a file is followed", ("--follow", "day.trace"), CLEAN, 1, FOUND_REPORT, files=day)
    yield RunCase("words come after the file", ("day.trace", "--workers", "2"), CLEAN, 1, FOUND_REPORT, files=day)
    yield RunCase("a dash is standard input", ("-",), FOUND, 1, FOUND_REPORT, files=day)
    yield RunCase("no file is standard input", (), FOUND, 1, FOUND_REPORT, files=day)
    yield RunCase("a name begins with a dash, after two dashes", ("--", "-day.trace"), b"", 1, FOUND_REPORT, files={"-day.trace": FOUND})
    faulty = {"day.trace": HEADER + b"1 t -\n"}
    for words in ((), ("--alone",), ("--follow",), ("--json",)):
        yield RunCase(f"a named trace is refused by its name {words}", (*words, "day.trace"), b"", 2, b"", refused(2, 26, "The side t is written T.", "day.trace"), files=faulty)
    yield RunCase("a named trace is refused as it is annotated", ("--annotate", "day.trace"), b"", 2, HEADER, refused(2, 26, "The side t is written T.", "day.trace"), files=faulty)
    missing = b"x25scan: cannot open night.trace: no such file\n  No such file or directory (os error 2)\n"
    yield RunCase("a file that is not there", ("night.trace",), FOUND, 3, b"", missing)
    yield RunCase("a file that is not there is not followed", ("--follow", "night.trace"), FOUND, 3, b"", missing)
    yield RunCase("a name below a file", ("day.trace/x",), b"", 3, b"", b"x25scan: cannot open day.trace/x: no such file\n  Not a directory (os error 20)\n", files=day)
    yield RunCase("a folder", ("days",), FOUND, 3, b"", b"x25scan: cannot open days: it is a directory\n  Is a directory (os error 21)\n", files={"days": None})
    yield RunCase("the empty name", ("",), FOUND, 3, b"", b"x25scan: cannot open : no such file\n  No such file or directory (os error 2)\n")
    denied = b"x25scan: cannot open day.trace: permission denied\n  Permission denied (os error 13)\n"
    yield RunCase("a file that may not be read", ("day.trace",), b"", 3, b"", denied, files=day, modes={"day.trace": 0})
    long = "x" * 300
    yield RunCase("a name that is too long", (long,), FOUND, 3, b"", f"x25scan: cannot open {long}: the system refuses it\n  File name too long (os error 36)\n".encode())
    alone = b"x25scan: day.trace: no pcap or pcapng file\nx25scan: cannot open day.trace: the files after it don't continue it\n  the parts of one trace: awk '!/^X25 / || !n++' FILE.. | x25scan\n"
    yield RunCase("two traces", ("day.trace", "day.trace"), b"", 3, b"", alone, files=day)


def word_cases():
    """Words that ask for no scan, and wrong words."""
    helped = pattern(rb"Reports what .*Usage: x25scan \[OPTIONS\] \[FILE\].*--workers.*--alone.*--follow.*--json.*--annotate.*--rows.*--channel.*--call.*--progress.*--notes.*--explain.*Options of captures:\n.*--mod.*--svc.*--join.*--as.*--swap.*Examples:\n.*Exit status:\n  0 .*\n  64 .*TRACE.md.*\n")
    yield RunCase("help", ("--help",), output=helped)
    yield RunCase("help by its letter", ("-h",), output=helped)
    yield RunCase("an explanation reads no file", ("--explain", "22", "day.trace"), output=pattern(rb"22 \(.*"))
    yield RunCase("a word that is not explained", ("--explain", "d4"), status=64, errors=b"x25scan: no such word: d4 (x25scan --explain lists them)\n")
    yield RunCase("no workers", ("--workers", "0"), status=64, errors=pattern(rb"error: .*0.*1\.\.=64.*"))
    yield RunCase("an unknown word", ("--fast",), status=64, errors=re.compile(rb"error: unexpected argument '--fast' found(?:(?!one trace).)*", re.DOTALL))
    no_text = b"x25scan: arguments are no text\n  A word of the command line is not UTF-8. A file of such a name can be read as standard input: x25scan < FILE\n"
    yield RunCase("a word that is no text", (b"\xff",), status=64, errors=no_text)


def progress_cases():
    """How far the reading is."""
    yield RunCase("progress is shown at the end", ("--progress",), FOUND, 1, FOUND_REPORT, pattern(NUMBERS))
    counts = b"x25scan: %d bytes read, 2 lines, " % len(FOUND)
    yield RunCase("progress counts bytes and lines", ("--alone", "--progress"), FOUND, 1, FOUND_REPORT, pattern(re.escape(counts) + rb"\d+ lines a second\n"))
    yield RunCase("progress is not shown without a terminal", ("--alone",), FOUND, 1, FOUND_REPORT, b"")


def note_cases():
    """The data that was not counted."""
    for words in (("--notes",), ("--notes", "--alone"), ("--follow", "--notes"), ("--workers", "2", "--alone", "--notes"), ("--notes", "--follow", "--workers", "64")):
        yield RunCase(f"a note is printed {words}", words, GUESSED, 1, GUESSED_REPORT, NOTE)
    yield RunCase("a note after objects", ("--notes", "--json"), GUESSED, 1, pattern(rb'\{"line":"finding".*\{"line":"sums".*\}\n'), NOTE)
    yield RunCase("no note is printed without a terminal", ("--alone",), GUESSED, 1, GUESSED_REPORT, b"")
    one = CALL + b"3 T 100102414243\n"
    yield RunCase("a note of one packet", ("--notes",), one, 1, ANY, b"x25scan: 1 data packet with 3 octets was not counted: 1 (3 octets) with a finding; --annotate shows where\n")
    yield RunCase("no note where all data was counted", ("--notes",), CALL + b"3 T 10010041\n", 0, ANY, b"")
    yield RunCase("a refused trace has no note", ("--notes",), GUESSED + b"1 T -\n", 2, b"", pattern(rb"x25scan: line 7: kind 25\n  .*"))
    workers = b"error: --notes needs a scan of one thread: name --alone in place of --workers\n"
    yield RunCase("workers make no note", ("--notes", "--workers", "2"), GUESSED, 64, b"", workers)
    yield RunCase("an explanation needs no note", ("--notes", "--workers", "2", "--explain", "22"), output=pattern(rb"22 \(.*"))
    rows = b"error: --notes is for a report, and --annotate, --rows, --channel and --call print why at each row: leave it out\n"
    for words in (("--rows",), ("--annotate",), ("--call", "1"), ("--channel", "1"), ("--rows", "--workers", "2")):
        yield RunCase(f"rows have no note {words}", ("--notes", *words), GUESSED, 64, b"", rows)


def object_cases():
    """The report as JSON lines."""
    finding = b'{"line":"finding","packet":1,"side":"T","state":null,"code":"38"}\n'
    objects = finding + b'{"line":"peak","count":0,"packet":null}\n{"line":"sums","packets":1,"findings":1,"calls":0,"octets":0,"segments":0}\n'
    for words in (("--json",), ("--json", "--alone"), ("--json", "--follow"), ("--workers", "64", "--json")):
        yield RunCase(f"the report as JSON lines {words}", words, FOUND, 1, objects)
    yield RunCase("a file as JSON lines", ("--json", "day.trace"), b"", 1, objects, files={"day.trace": FOUND})
    order = "The row's number is 1, and that of the row before is 1: numbers rise."
    twice = FOUND + FOUND.splitlines(keepends=True)[-1]
    yield RunCase("a refused trace has no objects", ("--json",), twice, 2, b"", refused(3, 25, order))
    yield RunCase("a refused trace that is followed has the objects before", ("--json", "--follow"), twice, 2, finding, refused(3, 25, order))
    yield RunCase("a full device as JSON lines", ("--json",), FOUND, 3, b"", FULL, device="/dev/full")


def annotation_cases():
    """The trace once more, in words."""
    noted = b"# DTE: cut packet\n# stays r1\n#! F 1 T - 38: Packet too short: 0 octets where a packet has at least 3. Nothing changes. (X.25 5; the code by Annex E)\n"
    closing = b"# Report: 1 packet, 1 finding, 0 calls; counted: 0 octets in 0 segments\n# Peak: 0 calls in data transfer at once\n"
    for words in (("--annotate",), ("--annotate", "--alone"), ("--follow", "--annotate"), ("--workers", "64", "--annotate", "-")):
        yield RunCase(f"an annotated trace {words}", words, FOUND, 1, FOUND + noted + closing)
    yield RunCase("a file is annotated", ("--annotate", "day.trace"), b"", 1, FOUND + noted + closing, files={"day.trace": FOUND})
    for words in (("--channel", "1"), ("--annotate", "--channel", "4")):
        yield RunCase(f"rows that are not chosen have no comments {words}", words, FOUND, 1, FOUND + closing)
    no_channel = b"x25scan: --channel %d: the header has logical channels 1 to %d\n"
    yield RunCase("a channel that is not there", ("--channel", "5"), FOUND, 1, FOUND + closing, no_channel % (5, 4))
    second = b"# first\nX25 2 MOD 8 WIN 2 SIZE 128 PVC 0 IN 0 TWO 8 OUT 9 JOIN\n"
    yield RunCase("a channel that the second form of the header has not", ("--channel", "4095"), second, 0, ANY, no_channel % (4095, 9))
    yield RunCase("the last channel of the second form", ("--channel", "9"), second, 0, ANY)
    no_call = b"x25scan: --call %d chose no row: the report has %s\n"
    yield RunCase("a call that is not there", ("--call", "7"), FOUND, 1, FOUND + closing, no_call % (7, b"0 calls"))
    both = no_channel % (4095, 4) + no_call % (999999999, b"0 calls")
    yield RunCase("neither a channel nor a call that is there", ("--annotate", "--channel", "4095", "--call", "999999999"), FOUND, 1, FOUND + closing, both)
    yield RunCase("a call after the last one", ("--call", "2"), CALL, 0, ANY, no_call % (2, b"1 call"))
    yield RunCase("the last call", ("--call", "1"), CALL, 0, ANY)
    yield RunCase("an annotated trace is a trace", ("--annotate",), FOUND + noted + closing, 1, ANY)
    order = "The row's number is 1, and that of the row before is 1: numbers rise."
    twice = FOUND + FOUND.splitlines(keepends=True)[-1]
    yield RunCase("the lines before a faulty one are annotated", ("--annotate",), twice, 2, FOUND + noted, refused(3, 25, order))
    both = b"error: --json writes the report, and --annotate, --channel and --call write a trace instead\n"
    for words in (("--annotate", "--json"), ("--json", "--call", "7")):
        yield RunCase(f"JSON of a trace {words}", words, FOUND, 64, b"", both)
    neither = b"error: --annotate prints the trace again, and --rows an object for each row: name one of them\n"
    for words in (("--annotate", "--rows"), ("--rows", "--annotate", "--call", "7")):
        yield RunCase(f"two forms of the rows {words}", words, FOUND, 64, b"", neither)
    for words in (("--channel", "0"), ("--channel", "4096"), ("--call", "0"), ("--call", "x")):
        yield RunCase(f"a choice that is none {words}", words, FOUND, 64, b"", pattern(rb"error: invalid value.*"))
    yield RunCase("a full device at an annotation", ("--annotate",), FOUND, 3, b"", FULL, device="/dev/full")


def full_device_cases():
    """Standard output that accepts nothing."""
    for words in ((), ("--alone",), ("--follow",)):
        yield RunCase(f"the report goes to a full device {words}", words, FOUND, 3, b"", FULL, device="/dev/full")
    for words in (("--help",), ("--version",)):
        yield RunCase(f"a full device at {words[0]}", words, b"", 0, b"", b"", device="/dev/full")
    yield RunCase("a full device at an explanation", ("--explain",), b"", 3, b"", FULL, device="/dev/full")


FAMILIES = (file_cases, word_cases, object_cases, annotation_cases, progress_cases, note_cases, explain_cases, full_device_cases)


def run_cases():
    """All cases that are one run."""
    for family in FAMILIES:
        yield from family()

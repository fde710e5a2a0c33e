"""Texts that are refused or accepted, with what the program has to print."""
import pathlib
import sys
from dataclasses import dataclass
from typing import Optional

sys.path.insert(0, str(pathlib.Path(__file__).resolve().parents[2] / "tools"))

from x25trace_lib import captures, pcap, pcapng, snoop  # noqa: E402

HEADER = b"X25 1 MOD 8 WIN 2 SIZE 128 PVC 0 SVC 4\n"
TEXT_LIMIT = 1 << 30
LINE_LIMIT = 8500
MISSING, HEADER_FORM, HEADER_RANGE, LINE_FORM, NUMBER, SIDE, HEX, LINE_LONG, TEXT_LARGE = range(21, 30)
CARRIAGE_RETURN = "The line ends in a carriage return, and a line feed alone ends a line: tr -d '\\r' < FILE | x25scan reads the trace."
LONG_LINE = "The line has more than 8,500 bytes without its line feed, comments too."
EMPTY = "The line is empty: sed '/^$/d' FILE | x25scan reads the trace without its empty lines."
NO_TRACE = 'This is no trace: it begins with "{}"; x25trace reads captures.'
LAST_EMPTY = "The last line that was read is empty: sed '/^$/d' FILE | x25scan reads the trace without its empty lines."
SECOND_HEADER = "This is a second header, as in joined traces. Where the row numbers go on, awk '!/^X25 / || !n++' FILE.. | x25scan reads them as one trace."
CAPTURE = "This is a capture: x25scan FILE prints its report, and x25page FILE shows it."
TURNED = "This is {} {} file: editcap -F pcapng FILE OUT.pcapng, of Wireshark, turns it into one that x25page reads."
TOO_LARGE = "The text has more than 2^30 bytes: cut it after a restart confirmation, and begin each part with the header (/usr/share/doc/x25scan/GUIDE.md has the command)."
# More rows, and more comments, than one read gives.
MANY = b"".join(b"%d T 1000FB0000\n" % number for number in range(1, 20000))
COMMENTS = b"# no row\n" * 20000
# As many rows after them, which workers may have read by then.
MORE = b"".join(b"%d N 1001E10000\n" % number for number in range(20001, 90000))
# Rows after a row, so that it doesn't end with the text.
BEHIND = b"".join(b"%d N %s\n" % (number, b"1001" * 8) for number in range(999999990, 1000000000))
DIGITS = b"0123456789abcdefABCDEF9876543210fedcbaFEDCBA" * 2


@dataclass
class Text:
    """A text, and the line and the kind by which it is refused, with the sentence that says why; or none, and its rows."""

    text: bytes
    line: int = 0
    kind: int = 0
    # None where only the first line of the refusal is compared.
    said: Optional[str] = None
    rows: int = 0
    # What comes first: rows, and then how many bytes of comments.
    first: bytes = b""
    comments: int = 0


# Rows after a header: the line of the text that is faulty, its kind, and what is said of it.
ROWS = [
    (b"5 T -\n5 T -\n", 3, NUMBER, "The row's number is 5, and that of the row before is 5: numbers rise."),
    (b"1 T -\n# a comment\n1 T -\n", 4, NUMBER, "The row's number is 1, and that of the row before is 1: numbers rise."),
    (b"9 T 1000FB0000\n# a comment\n7 N 1000FF\n", 4, NUMBER, "The row's number is 7, and that of the row before is 9: numbers rise."),
    (MANY + b"19999 T -\n1 N -\n", 20001, NUMBER, "The row's number is 19999, and that of the row before is 19999: numbers rise."),
    (MANY + b"19999 T -\n" + MORE, 20001, NUMBER, "The row's number is 19999, and that of the row before is 19999: numbers rise."),
    (MANY + COMMENTS + b"19999 T -\n" + MORE, 40001, NUMBER, "The row's number is 19999, and that of the row before is 19999: numbers rise."),
    (MANY + b"20000 T 1G\n" + MORE, 20001, HEX, 'Column 10 has "G", which is not a hex digit.'),
    (MANY + MORE + b"90000 X 10\n" + MANY, 90000, SIDE, 'The side is "X": T for the DTE or N for the DCE belongs there.'),
    (b"\n", 2, LINE_FORM, LAST_EMPTY),
    (b"1 T 10\n\n", 3, LINE_FORM, LAST_EMPTY),
    (b"1 T 10\n\n\n", 3, LINE_FORM, LAST_EMPTY),
    (b"1 T 10\n\n2 T 10\n", 3, LINE_FORM, EMPTY),
    (MANY + b"\n", 20001, LINE_FORM, LAST_EMPTY),
    (MANY + b"\n20000 T 10\n", 20001, LINE_FORM, EMPTY),
    (b"1 T 10\n" + HEADER + b"2 T 10\n", 3, LINE_FORM, SECOND_HEADER),
    (HEADER, 2, LINE_FORM, SECOND_HEADER),
    (MANY + HEADER + b"1 T 10\n", 20001, LINE_FORM, SECOND_HEADER),
    (MANY + b"# the next day\n" + HEADER + MANY, 20002, LINE_FORM, SECOND_HEADER),
    (MANY + b"20000 T\n" + MORE, 20001, LINE_FORM, "The line has 2 words, and a row has three: its number, its side and its octets."),
    (MANY + b"20000 T\n" + HEADER + b"1 T 10\n", 20001, LINE_FORM, "The line has 2 words, and a row has three: its number, its side and its octets."),
    (b"1 T 10\n" + COMMENTS + HEADER + b"1 T 10\n", 20003, LINE_FORM, SECOND_HEADER),
    (b"1 T\n", 2, LINE_FORM, "The line has 2 words, and a row has three: its number, its side and its octets."),
    (b"1 10\n", 2, LINE_FORM, "The line has 2 words, and a row has three: its number, its side and its octets."),
    (b"1 T  10\n", 2, LINE_FORM, "There are two spaces at column 4: single spaces part the words."),
    (b"1  T -\n", 2, LINE_FORM, "There are two spaces at column 2: single spaces part the words."),
    (b"1\tT 10\n", 2, LINE_FORM, "There is a tab at column 2: single spaces part the words."),
    (b" 1 T 10\n", 2, LINE_FORM, "The line begins with a space."),
    (b"1 T 10 \n", 2, LINE_FORM, "The line ends in a space."),
    (b"1 T - \n", 2, LINE_FORM, "The line ends in a space."),
    (b"0 T -", 2, NUMBER, "The row's number is 0: rows are numbered from 1."),
    (b"01 T -", 2, NUMBER, 'The row\'s number is "01": 1 to 999999999 without a leading zero belongs there.'),
    (b"07 T -\n", 2, NUMBER, 'The row\'s number is "07": 1 to 999999999 without a leading zero belongs there.'),
    (b"1000000000 T -", 2, NUMBER, None),
    (b"1 T -\n# a comment\n2 X 100\n3 T 1", 4, SIDE, 'The side is "X": T for the DTE or N for the DCE belongs there.'),
    (b"1 T -\n2 t -\n", 3, SIDE, "The side t is written T."),
    (b"1 n -\n", 2, SIDE, "The side n is written N."),
    (b"1 DTE -\n", 2, SIDE, 'The side is "DTE": T for the DTE or N for the DCE belongs there.'),
    (b"1 X\x01 -\n", 2, SIDE, 'The side is "X\\x01": T for the DTE or N for the DCE belongs there.'),
    (b"1 T 100\n", 2, HEX, "The octets have 3 hex digits, an odd number: the last one, at column 7, has no second digit."),
    (b"1 T 100", 2, HEX, "The octets have 3 hex digits, an odd number: the last one, at column 7, has no second digit."),
    (b"12 T 100\n", 2, HEX, "The octets have 3 hex digits, an odd number: the last one, at column 8, has no second digit."),
    (b"1 T 10x0\n", 2, HEX, 'Column 7 has "x", which is not a hex digit.'),
    (b"1 T 1g\n", 2, HEX, 'Column 6 has "g", which is not a hex digit.'),
    (b"12 T 10g0\n", 2, HEX, 'Column 8 has "g", which is not a hex digit.'),
    (b"1 T 10\r\n", 2, HEX, CARRIAGE_RETURN),
    (b"1 T " + DIGITS + b"\n1 N " + DIGITS + b"\n" + BEHIND, 3, NUMBER, "The row's number is 1, and that of the row before is 1: numbers rise."),
    (b"07 T " + DIGITS + b"\n" + BEHIND, 2, NUMBER, 'The row\'s number is "07": 1 to 999999999 without a leading zero belongs there.'),
    (b"1234567890 T " + DIGITS + b"\n" + BEHIND, 2, NUMBER, None),
    (b"1 t " + DIGITS + b"\n" + BEHIND, 2, SIDE, "The side t is written T."),
    (b"1 T " + DIGITS[:33] + b"\n" + BEHIND, 2, HEX, "The octets have 33 hex digits, an odd number: the last one, at column 37, has no second digit."),
    (b"1 T " + DIGITS + b"\r\n" + BEHIND, 2, HEX, CARRIAGE_RETURN),
    (b"1 T " + DIGITS + b" \n" + BEHIND, 2, LINE_FORM, "The line ends in a space."),
    (b"1 T \n" + BEHIND, 2, LINE_FORM, "The line ends in a space."),
    (b"1 T " + b"00" * 4201 + b"\n" + BEHIND, 2, HEX, None),
]

# Bytes that are not a hex digit, most of them next to one in ASCII.
WRONG = b"/:@G`g\0\x1f\x80\xbf\xff"


def wrong_digits():
    """Rows with each byte that is not a hex digit at each place of the digits that are read at once, and beyond."""
    for place in range(33):
        for byte in WRONG:
            digits = DIGITS[:place] + bytes([byte]) + DIGITS[place + 1:]
            yield Text(HEADER + b"1 T " + DIGITS + b"\n2 N " + digits + b"\n" + BEHIND, 3, HEX, None)


# Whole texts whose header is missing or faulty.
HEADERS = [
    (b"", 1, MISSING, "The text is empty."),
    (b"# a\n# b\n", 3, MISSING, "The trace has no line that is not a comment."),
    (b"#", 2, MISSING, "The trace has no line that is not a comment."),
    (b"# no header\n", 2, MISSING, "The trace has no line that is not a comment."),
    (b"\n", 1, HEADER_FORM, EMPTY),
    (COMMENTS + HEADER + b"1 T\n", 20002, LINE_FORM, "The line has 2 words, and a row has three: its number, its side and its octets."),
    (b"X25 1 mod 8 WIN 2 SIZE 128 PVC 0 SVC 4", 1, HEADER_FORM, 'The header\'s words are in capitals: "mod" is written MOD.'),
    (b"X25 1 MOD 8 SIZE 128 PVC 0 SVC 4", 1, HEADER_FORM, 'The header has "SIZE" where WIN belongs.'),
    (b"X25 1 MOD 8 WIN 02 SIZE 128 PVC 0 SVC 4", 1, HEADER_FORM, '"02" comes after WIN, where a number of 1 to 9 digits without a leading zero belongs.'),
    (b"X25 1 MOD 08 WIN 2 SIZE 128 PVC 0 SVC 4", 1, HEADER_FORM, '"08" comes after MOD, where a number of 1 to 9 digits without a leading zero belongs.'),
    (b"X25 1 MOD 1000000000 WIN 2 SIZE 128 PVC 0 SVC 4", 1, HEADER_FORM, None),
    (b"X25 1 MOD 8 WIN 2 SIZE 128 PVC 0", 1, HEADER_FORM, "The header ends where SVC belongs."),
    (b"X25 1 MOD 8 WIN 2 SIZE 128 PVC", 1, HEADER_FORM, "The header ends where the number of PVC belongs."),
    (b"X25 2 MOD 8 WIN 2 SIZE 128 PVC 0 SVC 4", 1, HEADER_FORM, 'The header has "SVC" where IN belongs.'),
    (b"X25 3 MOD 8", 1, HEADER_FORM, "The header ends where WIN belongs."),
    (b"X25 3 MOD 8 WIN 2 SIZE 128 PVC 0 SVC 4", 1, HEADER_FORM, 'The header has "SVC" where IN belongs.'),
    (b"X25 4 MOD 8", 1, HEADER_FORM, "After X25 comes the form of the header: 1, 2 or 3."),
    (b"X25 1 MOD 8 WIN 2 SIZE 128 PVC 0 SVC 4 JOIN", 1, HEADER_FORM, '"JOIN" comes after the header\'s last number.'),
    (b"X25 2 MOD 8 WIN 2 SIZE 128 PVC 0 IN 0 TWO 4 OUT 4 join", 1, HEADER_FORM, 'The header\'s words are in capitals: "join" is written JOIN.'),
    (b"1 T 10\n", 1, HEADER_FORM, "A row comes before the header, which has to come first, as X25 1 MOD 8 WIN 2 SIZE 128 PVC 0 SVC 4."),
    (b"X25 1 MOD 8 WIN 2 SIZE 128 PVC 0 SVC 4\r\n", 1, HEADER_FORM, CARRIAGE_RETURN),
    (b"#\nX25 1 MOD 9 WIN 2 SIZE 128 PVC 0 SVC 4", 2, HEADER_RANGE, "The header's MOD is 9: 8 or 128 belongs there."),
    (b"X25 1 MOD 8 WIN 8 SIZE 128 PVC 0 SVC 4", 1, HEADER_RANGE, "The header's WIN is 8: 1 to 7 belongs there."),
    (b"X25 1 MOD 8 WIN 2 SIZE 100 PVC 0 SVC 4", 1, HEADER_RANGE, "The header's SIZE is 100: a power of two from 16 to 4096 belongs there."),
    (b"X25 1 MOD 8 WIN 2 SIZE 128 PVC 5 SVC 4", 1, HEADER_RANGE, "The header's PVC is 5: 0 to 4 belongs there."),
    (b"X25 2 MOD 8 WIN 2 SIZE 128 PVC 0 IN 5 TWO 4 OUT 4", 1, HEADER_RANGE, "The header's IN is 5: 0 to 4 belongs there."),
    (b"X25 2 MOD 8 WIN 2 SIZE 128 PVC 1 IN 0 TWO 4 OUT 4", 1, HEADER_RANGE, None),
    (b"\xef\xbb\xbfX25 1", 1, HEADER_FORM, "The text begins with a byte order mark: tail -c +4 FILE | x25scan reads it."),
    (b"\x04\x22\x4d\x18\x64", 1, HEADER_FORM, "This is an lz4 file: lz4 -dc FILE | x25scan reads what is in it."),
    (b"\x1f\x8b\x08\x00", 1, HEADER_FORM, "This is a gzip file: gzip -dc FILE | x25scan reads what is in it."),
    (b"# x25scan\n\n`x25scan` reads a recording of one X.25 interface.\n" + HEADER, 2, HEADER_FORM, NO_TRACE.format("# x25scan")),
    (b"\nText.\n", 1, HEADER_FORM, NO_TRACE.format("Text.")),
    (b"\xff\xd8\xff\xe0\x00\x10JFIF\n" + HEADER, 1, HEADER_FORM, NO_TRACE.format("\\xff\\xd8\\xff\\xe0\\x00\\x10JFIF")),
    (b"%PDF-1.4\n1 T 10\n", 1, HEADER_FORM, NO_TRACE.format("%PDF-1.4")),
    (b"\n" + HEADER, 1, HEADER_FORM, EMPTY),
    (b"  \n  x25 1\n", 1, HEADER_FORM, "The line begins with a space."),
    (b" X25 1 MOD 8\n", 1, HEADER_FORM, "The line begins with a space."),
    (b"x25 1 MOD 8\n", 1, HEADER_FORM, 'The header\'s words are in capitals: "x25" is written X25.'),
    (b"MOD 8 WIN 2\n", 1, HEADER_FORM, 'The header has "MOD" where X25 belongs.'),
    (b"\xd4\xc3\xb2\xa1\x02\x00\x04\x00\n", 1, HEADER_FORM, CAPTURE),
    (b"\x0a\x0d\x0d\x0a\x1c\x00\x00\x00", 1, HEADER_FORM, CAPTURE),
]

# A header of the third form, and rows after it that are gap rows.
THIRD_HEADER = b"X25 3 MOD 8 WIN 2 SIZE 128 PVC 0 IN 0 TWO 4 OUT 4\n"
MANY_GAPS = THIRD_HEADER + b"".join(b"%d ? %d\n" % (number, number % 4 + 1) for number in range(1, 30000))
NO_SIDE = 'The side is "{}": T for the DTE or N for the DCE belongs there.'
NO_CHANNEL = 'The gap\'s logical channel is "{}": 1 to 4 without a leading zero belongs there, or * for all.'

# Whole texts with gap rows, or with rows like them.
GAPS = [
    (HEADER + b"1 T -\n2 ? 1\n", 3, SIDE, NO_SIDE.format("?")),
    (HEADER + b"1 ? *\n2 X -\n", 2, SIDE, NO_SIDE.format("?")),
    (THIRD_HEADER + b"1 ? 1\n2 ? *\n3 X -\n", 4, SIDE, NO_SIDE.format("X")),
    (THIRD_HEADER + b"1 ? 4\n2 ? 5\n", 3, HEX, NO_CHANNEL.format("5")),
    (THIRD_HEADER + b"1 ? 0\n", 2, HEX, NO_CHANNEL.format("0")),
    (THIRD_HEADER + b"1 ? 01\n", 2, HEX, NO_CHANNEL.format("01")),
    (THIRD_HEADER + b"1 ? **\n", 2, HEX, NO_CHANNEL.format("**")),
    (THIRD_HEADER + b"1 ? 1\n2 T 0z\n", 3, HEX, 'Column 6 has "z", which is not a hex digit.'),
    (THIRD_HEADER + b"5 ? 1\n5 ? 2\n", 3, NUMBER, "The row's number is 5, and that of the row before is 5: numbers rise."),
    (THIRD_HEADER + b"1 ? 1 2\n", 2, LINE_FORM, "The line has 4 words, and a row has three: its number, its side and its octets."),
    (MANY_GAPS + b"30000 X -\n", 30001, SIDE, NO_SIDE.format("X")),
    (MANY_GAPS + b"30000 ? 5\n", 30001, HEX, NO_CHANNEL.format("5")),
    (HEADER + MANY + b"20000 ? 1\n", 20001, SIDE, NO_SIDE.format("?")),
]

# Texts that are accepted, with the number of their rows.
TAKEN = [
    (HEADER, 0),
    (HEADER + b"1 T -\n", 1),
    (HEADER + b"1 T -", 1),
    (HEADER + b"# both sides\n7 T 1000F101\n8 N 1000F101\n9 T 1000F3\n12 N 10\n", 4),
    (b"# first\n" + HEADER + b"1 T 10010b0000\n# last\n7 N -", 2),
    (b"X25 1 MOD 128 WIN 7 SIZE 4096 PVC 1 SVC 9", 0),
    (b"X25 2 MOD 8 WIN 2 SIZE 16 PVC 1 IN 2 TWO 3 OUT 4 JOIN\n", 0),
    (HEADER + b"#" + b"a" * 8499 + b"\n", 0),
    (HEADER + b"1 T " + b"00" * 4200, 1),
    (HEADER + b"1 T " + b"00" * 4200 + b"\n" + BEHIND, 11),
    (HEADER + b"".join(b"%d T %s\n" % (number, DIGITS) for number in (1, 20, 301, 4023, 50067, 600890, 7001234, 80056789)) + BEHIND, 18),
    (HEADER + b"".join(b"%d T %s\n" % (count + 1, DIGITS[:2 * count] or b"-") for count in range(44)) + BEHIND, 54),
]

# Lines at the limits of a line.
LONG = [
    (HEADER + b"#" + b"a" * 8500, 2, LINE_LONG, LONG_LINE),
    (HEADER + b"1 T " + b"00" * 4201, 2, HEX, None),
    (b"x" * 9000, 1, LINE_LONG, NO_TRACE.format("x" * 24 + "..")),
    (b"\xff\xd8\xff\xe0" + bytes(9000), 1, LINE_LONG, NO_TRACE.format("\\xff\\xd8\\xff\\xe0" + "\\x00" * 20 + "..")),
    (b"1" * 8500 + b"\n", 1, HEADER_FORM, None),
    (b"1" * 8501 + b"\n", 1, LINE_LONG, LONG_LINE),
]

# How many bytes of the text's limit are left after the header and comments; the last line; its kind, or 0 where it is accepted.
LAST_LINES = [
    (6, b"1 X 1\n", SIDE),
    (5, b"1 X 1\n", TEXT_LARGE),
    (5, b"1 T -", 0),
    (4, b"1 T 1", TEXT_LARGE),
    (8501, b"1" * 8501 + b"\n", LINE_LONG),
    (8500, b"1" * 8501 + b"\n", TEXT_LARGE),
]


def recordings():
    """Captures that x25trace reads, and files that it names, by their first bytes."""
    for magic in (*pcap.MAGICS, pcapng.MAGIC, snoop.MAGIC):
        yield Text(magic + b"\2\0", 1, HEADER_FORM, CAPTURE)
    for magic, form in captures.OTHER_FORMS.items():
        yield Text(magic + b"\2\0", 1, HEADER_FORM, TURNED.format("an" if form[0] in "AEIOU" else "a", form))


def texts():
    """All texts."""
    for rows, line, kind, said in ROWS:
        yield Text(HEADER + rows, line, kind, said)
    for text, line, kind, said in [*HEADERS, *LONG, *GAPS]:
        yield Text(text, line, kind, said)
    yield from wrong_digits()
    for text, rows in TAKEN:
        yield Text(text, rows=rows)
    yield from recordings()


def texts_at_the_limit(rows):
    """Texts with these rows first, whose last line begins shortly before byte 2^30."""
    count = rows.count(b"\n")
    for left, line, kind in LAST_LINES:
        comments = TEXT_LIMIT - len(HEADER) - len(rows) - left
        whole, rest = divmod(comments, LINE_LIMIT + 1)
        lines = 1 + count + whole + (1 if rest else 0)
        last = line.replace(b"1 ", b"%d " % (count + 1), 1)
        said = TOO_LARGE if kind == TEXT_LARGE else None
        yield Text(last, lines + 1 if kind else 0, kind, said, 0 if kind else count + 1, rows, comments)

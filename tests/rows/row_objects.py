"""The objects of rows, and the rows of a trace."""
import json

import runner


def members(pairs):
    """The members of an object, whose names are different."""
    found = dict(pairs)
    assert len(found) == len(pairs), f"a name stands twice: {[name for name, _ in pairs]}"
    return found


def objects(program, words, text):
    """The objects that `--rows` prints of a trace with these options."""
    lines = runner.run([program, "--rows", *words], text).output.splitlines()
    return [json.loads(line, object_pairs_hook=members) for line in lines]


def is_printed_row(item):
    """Whether an object is one of a row: of a packet, or of a gap."""
    return item["line"] in ("row", "gap")


def is_near(gap, channel):
    """Whether packets on a channel may be missing in a gap."""
    return gap["channel"] in (None, channel)


def words_of(item):
    """The number, the side and the octets of a row by its object; of a gap row its words."""
    if item["line"] == "gap":
        return item["packet"], "?", str(item["channel"] or "*")
    return item["packet"], item["side"], item["hex"].upper()


def rows_of(text):
    """The number, the side and the octets of each row of a trace, as far as its lines are rows."""
    lines = [line for line in text.split(b"\n") if line and not line.startswith(b"#")]
    for line in lines[1:]:
        words = line.rstrip(b"\r").split(b" ")
        if len(words) != 3 or not words[0].isdigit():
            return
        number, side, octets = (word.decode("ascii", "replace") for word in words)
        yield int(number), side, "" if octets == "-" else octets.upper()


def wrong_rows(text, found, is_refused):
    """What is wrong with the rows among objects: they are those of the trace, or the first ones where it is refused."""
    rows = [words_of(item) for item in found if is_printed_row(item)]
    expected = list(rows_of(text))
    if is_refused:
        expected = expected[:len(rows)]
    return [] if rows == expected else [f"the rows are {rows[:3]}.., expected {expected[:3]}.."]

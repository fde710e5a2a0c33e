"""The note on standard error, read back."""
import re

import runner

NOTE = re.compile(rb"x25scan: (\d+) data packets? with (\d+) octets? (?:was|were) not counted: (.*); --annotate shows where\n")
PART = re.compile(rb"(\d+) \((\d+) octets?\) (.*)")
REASONS = {
    b"with a finding": "finding",
    b"while the DCE owes its indication": "indication_owed",
    b"outside data transfer": "not_in_data_transfer",
    b"in a state that discards data": "discarded",
    b"before the state of the channel is known": "unknown",
    b"during a restart": "restart",
}


def noted(errors):
    """The packets and octets of a note by their reason, and their sums; none of an empty note."""
    if not errors:
        return {}, (0, 0)
    packets, octets, parts = NOTE.fullmatch(errors).groups()
    amounts = {}
    for part in parts.split(b", "):
        some, theirs, words = PART.fullmatch(part).groups()
        amounts[REASONS[words]] = (int(some), int(theirs))
    return amounts, (int(packets), int(octets))


def problems(program, text, objects):
    """What is wrong with the note of a trace that is not refused: it has the sums of what its rows say."""
    expected = {}
    for row in objects:
        if row["line"] == "row" and row["not_counted"]:
            packets, octets = expected.get(row["not_counted"], (0, 0))
            expected[row["not_counted"]] = (packets + 1, octets + row.get("octets", 0))
    said = []
    for words in (["--alone"], ["--follow"]):
        errors = runner.run([program, "--notes", *words], text).errors
        amounts, sums = noted(errors)
        right = tuple(sum(amount[place] for amount in expected.values()) for place in (0, 1))
        if (amounts, sums) != (expected, right):
            said.append(f"the note with {words[0]} is {errors!r}, expected {expected}")
    return said

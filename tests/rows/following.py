"""Which finding of `--rows` another one may follow from, worked out once more from what the rows say.

A finding whose code says that its packet does not fit what came before it may follow from the first finding of its
channel, until each side has sent a clear, a reset or a confirmation of one since the last finding, while the DCE owes no
indication after it, and the channel is in p1 or d1; or until the epoch ends.
"""

# The codes that say so: of P(S), P(R), a state, an interrupt, a Q bit; those of PAD messages have letters.
OF_COURSE = {1, 2, *range(17, 30), 43, 44, 83}
RENEWING = {
    "clear_request", "clear_indication", "clear_confirmation",
    "reset_request", "reset_indication", "reset_confirmation",
}


class Origin:
    """The first finding of a channel, and the sides that have cleared or reset the channel since the last one."""

    def __init__(self, first):
        self.first, self.sides = first, set()


def expected_follows(code, origin):
    """The finding that one with a code may follow from."""
    is_of_course = not code.isdigit() or int(code) in OF_COURSE
    return origin.first if origin and is_of_course else None


def is_over(row, origin):
    """Notes a row without a finding; whether nothing follows from the first finding any more."""
    if row["type"] in RENEWING and not row["owed"]:
        origin.sides.add(row["side"])
        # Adrift, the channel is in p1 or d1 but for a reset.
        is_at_rest = row["after"] in ("p1", "d1") or row["after"] == "adrift" and row["type"] not in ("reset_request", "reset_indication")
        return len(origin.sides) == 2 and is_at_rest
    return False


def problems(objects):
    """What is wrong with the findings of the objects of a trace."""
    origins, wrong = {}, []
    for row in (item for item in objects if item["line"] == "row"):
        key, finding = (row["epoch"], row["channel"]), row["finding"]
        is_on_channel = row["before"][0] != "r" and row["channel"]
        origin = origins.get(key) if is_on_channel else None
        if finding:
            if finding["follows"] != expected_follows(finding["code"], origin):
                wrong.append(f"packet {row['packet']} follows from {finding['follows']}, expected {expected_follows(finding['code'], origin)}")
            if is_on_channel and finding["code"].isdigit():
                origins[key] = Origin(origin.first if origin else row["packet"])
        elif origin and is_over(row, origin):
            del origins[key]
    return wrong

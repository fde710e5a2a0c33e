"""What the objects of rows add up to, worked out from these objects alone."""
import collections

from row_objects import is_near, is_printed_row

REPORT = {"finding", "call", "setting", "account", "peak", "gaps", "sums"}


def is_of_call(row, call):
    """Whether a row is one of a call's: the call is open on its channel before the row or after it."""
    return row["call"] == call or (row["channel"] is not None and any(end["call"] == call for end in row["ends"]))


def is_in_call(gap, call):
    """Whether a gap row is in a call: the call is open, and packets on its channel may be missing."""
    return call["opened"] < gap["packet"] and (call["ended"] is None or gap["packet"] < call["ended"]) and is_near(gap, call["channel"])


def findings(rows):
    """The findings of rows, as the report has them."""
    found = [row for row in rows if row["finding"]]
    return [(row["packet"], row["side"], row["finding"]["code"]) for row in found]


def counted(rows, side=None):
    """The data packets, octets and segments that rows counted, of one side or of both."""
    amounts = [row["counted"] for row in rows if row["counted"] and side in (None, row["side"])]
    return len(amounts), sum(item["octets"] for item in amounts), sum(item["segments"] for item in amounts)


def wrong_call(rows, call):
    """What is wrong with a call by its rows."""
    own = [row for row in rows if is_of_call(row, call["call"])]
    begins = [row["packet"] for row in own if row["begins"] and row["call"] == call["call"]]
    ups = [row["packet"] for row in own if row["up"] and row["call"] == call["call"]]
    ends = [(row["packet"], end["how"]) for row in rows for end in row["ends"] if end["call"] == call["call"]]
    sides = [counted([row for row in own if row["call"] == call["call"]], side) for side in "TN"]
    expected = {
        "begins": ([call["opened"]], begins),
        "up": ([call["up"]] if call["up"] else [], ups),
        "ends": ([(call["ended"], call["how"])] if call["ended"] else [], ends),
        "data": ([(call["data_t"], call["octets_t"]), (call["data_n"], call["octets_n"])], [side[:2] for side in sides]),
        "segments": (call["segments"], sum(side[2] for side in sides)),
        "channel": ({call["channel"]}, {row["channel"] for row in own}),
        "epoch": ({call["epoch"]}, {row["epoch"] for row in own}),
    }
    return [f"call {call['call']}: {name} is {found}, expected {right}" for name, (right, found) in expected.items() if right != found]


def wrong_facts(rows, facts, call):
    """What is wrong with the facts of a call that its line does not have."""
    codes = collections.Counter(row["finding"]["code"] for row in rows if row["finding"] and row["call"] == call["call"])
    said = {item["code"]: item["count"] for item in facts["findings"]}
    problems = [] if said == codes else [f"call {call['call']}: findings {said}, expected {dict(codes)}"]
    if facts["payer"] != call[facts["pays"]]:
        problems.append(f"call {call['call']}: payer {facts['payer']}")
    if facts["cleared_by"] != (call["how"] if call["how"] in ("T", "N") else None):
        problems.append(f"call {call['call']}: cleared by {facts['cleared_by']}")
    return problems


def wrong_reasons(rows, objects):
    """What is wrong with the sums of what was not counted."""
    packets, reasons = collections.Counter(), {}
    for row in rows:
        if row["not_counted"]:
            packets[row["not_counted"]] += 1
    for item in objects:
        if item["line"] == "not_counted":
            reasons[item["reason"]] = item["packets"]
    return [] if reasons == packets else [f"not counted {reasons}, expected {dict(packets)}"]


def wrong_payers(objects):
    """What is wrong with the accounts by what the calls say of who pays."""
    calls = {item["call"]: item for item in objects if item["line"] == "call"}
    paid = collections.Counter()
    for item in objects:
        if item["line"] == "call_facts":
            paid[item["payer"]] += calls[item["call"]]["segments"]
    accounts = {item["address"]: item["segments"] for item in objects if item["line"] == "account"}
    return [] if accounts == dict(paid) else [f"accounts {accounts}, expected {dict(paid)}"]


def wrong_gaps(gaps, facts, report):
    """What is wrong with the counts of gap rows, which only some traces have."""
    wrong = []
    for item in report:
        if item["line"] == "gaps" and item["gaps"] != len(gaps):
            wrong.append(f"{item['gaps']} gaps, expected {len(gaps)}")
        inside = sum(is_in_call(gap, item) for gap in gaps) if item["line"] == "call" else 0
        if item["line"] == "call" and facts[item["call"]].get("gaps", 0) != inside:
            wrong.append(f"call {item['call']}: other gaps than {inside}")
    return wrong


def problems(objects, report):
    """What is wrong with the objects of a trace without a fault, whose report has these objects."""
    objects = [item for item in objects if item["line"] != "circuit"]
    printed = [item for item in objects if is_printed_row(item)]
    rows = [item for item in printed if item["line"] == "row"]
    gaps = [item for item in printed if item["line"] == "gap"]
    rest = objects[len(printed):]
    found = [item for item in rest if item["line"] in REPORT]
    wrong = []
    if objects[:len(printed)] != printed or rest[:len(found)] != found or found != report:
        wrong.append("the objects after the rows are not those of --json")
    reported = [(item["packet"], item["side"], item["code"]) for item in report if item["line"] == "finding"]
    if findings(rows) != reported:
        wrong.append(f"findings {findings(rows)[:3]}.., expected {reported[:3]}..")
    sums = report[-1]
    if counted(rows)[1:] != (sums["octets"], sums["segments"]):
        wrong.append(f"counted {counted(rows)}, expected {sums}")
    facts = {item["call"]: item for item in rest if item["line"] == "call_facts"}
    for call in (item for item in report if item["line"] == "call"):
        wrong += wrong_call(rows, call)
        wrong += wrong_facts(rows, facts[call["call"]], call)
    return wrong + wrong_gaps(gaps, facts, report) + wrong_reasons(rows, rest) + wrong_payers(rest)

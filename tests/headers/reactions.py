"""How the DCE reacts under a header, by what `--rows` says of each row: a model apart from the program's own counts."""
from dataclasses import dataclass, field

# The indication that is owed in a state, and the cause of a local procedure error.
AWAITED = {"d1": "reset_indication", "d2": "reset_indication", "d3": "reset_indication"}
LOCAL_ERROR = {"reset_indication": 5, "clear_indication": 19, "restart_indication": 1}
PASSING = 8


@dataclass
class Reactions:
    """Counts of errors of the DTE and of indications that were not owed; the errors that are not decided, by channel."""

    answered: int = 0
    unanswered: int = 0
    unexplained: int = 0
    # The packets of the DCE since, by channel; 0 is the restart machine.
    waits: dict = field(default_factory=dict)
    owed: dict = field(default_factory=dict)
    # Whether a gap of all channels left open if the interface restarts.
    adrift: bool = False

    def see(self, item, later):
        """The next object, and the one after it, if there is one."""
        if item["line"] == "gap":
            self.see_gap(item["channel"])
        elif self.adrift and item["before"] == "r1":
            self.see_restart(item, later)
        elif item["before"].startswith("r"):
            self.see_line(item)
        else:
            self.see_channel(item, item["channel"])

    def see_gap(self, channel):
        """What was awaited may have come in the gap."""
        for at in [channel] if channel else [*self.waits]:
            self.waits.pop(at, None)
        for at in [channel] if channel else [*self.owed]:
            self.owed.pop(at, None)
        self.adrift = self.adrift or channel is None

    def see_restart(self, row, later):
        """A row of the interface adrift says nothing of a header; a packet of a restart without a fault of format ends the epoch."""
        if later["epoch"] == row["epoch"] if later and "epoch" in later else restart_fault(row):
            return
        self.end_epoch()
        self.adrift = row["type"] != "restart_confirmation"

    def end_epoch(self):
        self.unanswered += len(self.waits)
        self.waits.clear()
        self.owed.clear()

    def see_channel(self, row, channel):
        before, after = self.owed.get(channel, False), row["owed"]
        self.owed[channel] = after
        if row["before"] == "adrift":
            return
        is_awaited = row["type"] == AWAITED.get(row["before"], "clear_indication")
        self.decide(row, channel, before, after, is_awaited and row["before"] != "unknown")

    def see_line(self, row):
        if row["before"] == "r1" and row["after"] != "r1":
            self.end_epoch()
        was_r3, is_r3 = row["before"] == "r3", row["after"] == "r3"
        if row["side"] == "N" and not was_r3:
            self.blame(row)
        elif row["side"] == "T" and is_r3 and not was_r3:
            self.waits[0] = 0
        elif was_r3:
            self.settle(row, 0, not is_r3, row["type"] == "restart_indication")

    def decide(self, row, channel, before, after, is_awaited):
        if after and not before:
            self.waits[channel] = 0
        elif before:
            self.settle(row, channel, not after, is_awaited)
        else:
            self.blame(row)

    def settle(self, row, channel, has_ended, is_awaited):
        """An indication was owed: it came, it ended in another way, or a packet of the DCE passed."""
        if channel not in self.waits:
            return
        is_answer = is_awaited and row["side"] == "N"
        if is_answer and (has_ended or channel == 0):
            self.answered += 1
            del self.waits[channel]
        elif has_ended:
            self.unanswered += 1
            del self.waits[channel]
        elif row["side"] == "N":
            self.waits[channel] += 1
            if self.waits[channel] == PASSING:
                self.unanswered += 1
                del self.waits[channel]

    def blame(self, row):
        cause = LOCAL_ERROR.get(row["type"])
        if row["side"] == "N" and cause and (row.get("cause") or {}).get("value") == cause:
            self.unexplained += 1


def restart_fault(row):
    """Whether a row is no packet of a restart, or has a fault of format."""
    octets = len(row["hex"]) // 2
    if row["type"] in ("restart_request", "restart_indication"):
        return not 4 <= octets <= 5
    return row["type"] != "restart_confirmation" or octets > 3


def reactions_of(objects, header):
    """The three counts of the rows and gaps of a trace with a header, as `--rows` prints them."""
    reactions = Reactions(adrift=header.startswith("X25 3") and header.endswith(" JOIN"))
    items = [item for item in objects if item["line"] in ("row", "gap")]
    for item, later in zip(items, [*items[1:], None]):
        reactions.see(item, later)
    return reactions.answered, reactions.unanswered, reactions.unexplained

"""Where each code of a finding is given and proved: its rule, the function, the file of its proof, and a must-fail edit.

`tools/codes_document.py` writes them into docs/CODES.md, and checks that each of them is there.
"""
from __future__ import annotations

from dataclasses import dataclass
from typing import Optional


@dataclass
class Proof:
    """Where a code is returned, and what is proved and tried of it."""

    # The heading of docs/RULES.md.
    rule: str
    # The file of the function, and its name.
    source: str
    function: str
    # The edit of the function, or of what it builds on, that the prover has to refuse.
    edit: str
    # None where the prover needs no written proof of the contract.
    proof: Optional[str] = None
    # The file and the name of the comparison that the function calls, where that is a function of its own.
    comparison: Optional[tuple[str, str]] = None


def table(rule: str, edit: str) -> Proof:
    """A code that is an entry of the state tables."""
    return Proof(rule, "crates/line_model/src/table.rt", "table_t", f"crates/line_model/must-fail-more/{edit}_of_the_dte_passes.edit")


def owed(rule: str) -> Proof:
    """A code of a DCE that sends another packet in place of its indication, though it does not owe one."""
    edit = "crates/line_model/must-fail-more/owed_indication_is_an_error.edit"
    return Proof(rule, "crates/line_model/src/table.rt", "table_n", edit, comparison=("crates/line_model/src/table.rt", "owed_or"))


def number(function: str, edit: str) -> Proof:
    """A code of interrupts."""
    return Proof("Windows and interrupts", "crates/data_transfer/src/flow.rt", function, f"crates/data_transfer/{edit}.edit")


def compared_number(function: str, comparison: str, edit: str) -> Proof:
    """A code of sequence numbers, by a comparison of those of one direction."""
    proof = f"crates/data_transfer/proofs/direction/Direction/{comparison}/Answers.antt"
    edit = f"crates/data_transfer/must-fail/{edit}.edit"
    return Proof("Windows and interrupts", "crates/data_transfer/src/flow.rt", function, edit, proof, ("crates/data_transfer/src/direction.rt", comparison))


def field(function: str, edit: str) -> Proof:
    """A code of a call packet's fields."""
    return Proof("Call packets", "crates/packet_decode/src/fields.rt", function, f"crates/packet_decode/must-fail/{edit}.edit", f"crates/packet_decode/proofs/fields/{function}/Answers.antt")


def length(comparison: str, edit: str) -> Proof:
    """A code of a packet's length: the bounds of its class, and the comparison with them."""
    source = "crates/channel_machine/src/format.rt"
    edit = f"crates/channel_machine/{edit}.edit"
    return Proof("Faults of format", source, "length_fault", edit, comparison=(source, comparison))


def packet_class(edit: str) -> Proof:
    """A code that a packet's class gives."""
    return Proof("Packets", "crates/packet_decode/src/decode.rt", "decode", f"crates/packet_decode/{edit}.edit", "crates/packet_decode/proofs/decode/decode/Answers.antt")


def message(edit: str) -> Proof:
    """A code of a PAD message's form."""
    return Proof("Sequences and PAD messages", "crates/pad/src/message.rt", "read_message", f"crates/pad/{edit}.edit", "crates/pad/proofs/message/read_message/Answers.antt")


def setting(edit: str) -> Proof:
    """A code of what a PAD message asks or says."""
    return Proof("Sequences and PAD messages", "crates/pad/src/settings.rt", "apply", f"crates/pad/must-fail/{edit}.edit", "crates/pad/proofs/Applied.antt")


RESTART, CALL, TRANSFER = "The restart tables", "The call tables", "The data transfer tables"
PROOFS = {
    "1": compared_number("data_within", "is_next", "window_is_not_judged"),
    "2": compared_number("ack", "acknowledges", "any_residue_is_acknowledged"),
    **{code: table(RESTART, "restart_confirmation") for code in ("17", "18")},
    "19": owed(RESTART),
    **{code: table(CALL, "clear_confirmation") for code in ("20", "21", "22", "23", "24", "25")},
    "26": owed(CALL),
    **{code: table(TRANSFER, "reset_confirmation") for code in ("27", "28")},
    "29": owed(TRANSFER),
    "33": packet_class("must-fail-more/restart_confirmation_on_a_channel_is_undefined"),
    "34": Proof(
        "Epochs, one-way channels, joining", "crates/channel_machine/src/format.rt", "direction_fault",
        "crates/channel_machine/must-fail/call_against_its_channel_passes.edit", "crates/channel_machine/proofs/FirstFault.antt"),
    "35": table(TRANSFER, "clear_confirmation"),
    "36": packet_class("must-fail/unassigned_channel_before_wrong_format"),
    "37": table(TRANSFER, "reject"),
    "38": length("at_least", "must-fail-more/clear_of_three_octets_passes"),
    "39": length("between", "must-fail/interrupt_of_36_octets_passes"),
    "40": packet_class("must-fail/unassigned_channel_before_wrong_format"),
    "41": packet_class("must-fail-more/restart_confirmation_on_a_channel_is_undefined"),
    "43": number("confirm", "must-fail/confirmation_leaves_interrupt"),
    "44": number("interrupt", "must-fail/second_interrupt_passes"),
    "66": field("read_tail", "window_of_the_modulus_passes"),
    "67": field("read_addresses", "calling_digits_are_judged_first"),
    "68": field("read_addresses", "calling_digits_are_judged_first"),
    "69": field("read_tail", "facility_field_of_110_octets_passes"),
    "83": Proof(
        "Sequences and PAD messages", "crates/data_transfer/src/assembler.rt", "put",
        "crates/data_transfer/must-fail/mixed_qualifier_passes.edit", "crates/data_transfer/proofs/SequenceLemmas.antt"),
    "X1": message("must-fail-more/high_bits_of_the_code_are_ignored"),
    "X2": message("must-fail/break_with_any_pair_passes"),
    "X3": setting("value_127_is_refused"),
    "X4": setting("indication_before_any_request_passes"),
    "XL": message("must-fail/message_of_1025_octets_is_read"),
}

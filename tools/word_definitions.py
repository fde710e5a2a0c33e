"""The file of the repository that decides what each word of the explanations means.

`tools/codes_document.py` writes them into docs/CODES.md, and checks that each of them is there.
"""
from __future__ import annotations

SPECS = "crates/line_model/specs"
# The file that decides most words of a section of the table.
OF_SECTION = {
    **dict.fromkeys(["lines", "directions", "endings", "settings"], f"{SPECS}/observer/Report.antt"),
    **dict.fromkeys(["finding_fields", "call_fields", "call_sums", "setting_fields", "sum_fields"], f"{SPECS}/observer/Report.antt"),
    "interface_states": f"{SPECS}/channels/RestartMachine.antt",
    "call_states": f"{SPECS}/channels/ChannelStep.antt",
    "data_states": f"{SPECS}/channels/ChannelStep.antt",
    "flow_codes": f"{SPECS}/channels/Tables.antt",
    "packet_codes": f"{SPECS}/channels/Tables.antt",
    "messages": f"{SPECS}/channels/Pad.antt",
    "header_words": f"{SPECS}/text/Header.antt",
    "kinds": f"{SPECS}/text/RowLine.antt",
    "refusals": f"{SPECS}/basics/Faults.antt",
    "statuses": "crates/command_line/specs/Program.antt",
    "clearing_causes": "crates/explanations/src/clearing_causes.rt",
    "resetting_causes": "crates/explanations/src/resetting_causes.rt",
    "restarting_causes": "crates/explanations/src/restarting_causes.rt",
    "terms": f"{SPECS}/channels/FlowControl.antt",
    "packet_terms": f"{SPECS}/channels/FlowControl.antt",
    "call_terms": f"{SPECS}/channels/Tables.antt",
    "time_outs": "tools/x25page_lib/waits.py",
    "parameters": f"{SPECS}/channels/Pad.antt",
}
# The other words of a section, by the file that decides them.
OTHERS = {
    "endings": {f"{SPECS}/channels/GapStep.antt": ["gap"]},
    "flow_codes": {f"{SPECS}/channels/FlowControl.antt": ["1", "2"]},
    "packet_codes": {
        f"{SPECS}/packets/Formats.antt": ["34", "38", "39"],
        f"{SPECS}/packets/Classes.antt": ["36", "40"],
        f"{SPECS}/channels/FlowControl.antt": ["43", "44"],
        f"{SPECS}/packets/Facilities.antt": ["66", "67", "68", "69"],
        f"{SPECS}/channels/ChannelStep.antt": ["83"],
    },
    "kinds": {f"{SPECS}/text/Text.antt": ["21", "28", "29"], f"{SPECS}/text/Header.antt": ["22", "23"]},
    "refusals": {
        "crates/x25scan/src/main.rt": ["arguments"],
        "crates/command_line/specs/Explaining.antt": ["word"],
        "crates/streams/src/input.rt": ["open"],
    },
    "terms": {
        "crates/descriptions/src/times.rt": ["frame"],
        f"{SPECS}/text/Text.antt": ["trace"],
        f"{SPECS}/text/RowLine.antt": ["row"],
        f"{SPECS}/basics/Octets.antt": ["octet"],
        f"{SPECS}/observer/Calls.antt": ["segment"],
        "crates/line_model/src/interface.rt": ["interface"],
        f"{SPECS}/channels/Gaps.antt": ["gap"],
        f"{SPECS}/channels/GapStep.antt": ["adrift"],
        "tools/x25trace_lib/lapb.py": ["LAPB"],
        "tools/x25trace_lib/xot.py": ["XOT"],
    },
    "packet_terms": {
        "crates/line_model/src/packet.rt": ["packet"],
        f"{SPECS}/channels/Sequences.antt": ["M", "D", "Q"],
        f"{SPECS}/channels/Tables.antt": ["REJ"],
        "crates/line_model/src/diagnostic.rt": ["diagnostic"],
    },
    "call_terms": {
        f"{SPECS}/observer/Calls.antt": ["call"],
        f"{SPECS}/channels/Channels.antt": ["PVC"],
        f"{SPECS}/channels/RestartMachine.antt": ["restart"],
        f"{SPECS}/packets/Facilities.antt": ["facility"],
        f"{SPECS}/observer/Accounts.antt": ["reverse charging"],
        f"{SPECS}/packets/Formats.antt": ["fast select"],
        f"{SPECS}/channels/Pad.antt": ["PAD"],
    },
}


def definition_of(section: str, word: str) -> str:
    """The file that decides what a word of a section means."""
    others = OTHERS.get(section, {})
    return next((path for path, words in others.items() if word in words), OF_SECTION[section])

"""PAD messages: their faults, and the settings that they make."""
from __future__ import annotations

from model.events import Event, InitialSettings, Setting
from model.packets import Side

MOST_OCTETS = 1024
PARAMETERS = range(1, 23)
PARAMETER_INDICATION = 0
SET = 2
INDICATION_OF_BREAK = 3
READ = 4
SET_AND_READ = 6

Pair = tuple[int, int]


def code_of(message: bytes) -> int:
    """The code of a message."""
    return message[0] & 15


def form_fault(message: bytes) -> str | None:
    """The fault of a message's form: no known code, too long, or a length that its code does not have."""
    if not message or message[0] >> 4 or code_of(message) > 8:
        return "X1"
    if len(message) > MOST_OCTETS:
        return "XL"
    rest = message[1:]
    if code_of(message) == INDICATION_OF_BREAK:
        is_bad = rest not in (b"", b"\x08\x01")
    else:
        is_bad = code_of(message) in (PARAMETER_INDICATION, SET, READ, SET_AND_READ) and len(rest) % 2 == 1
    return "X2" if is_bad else None


def standard_pairs(message: bytes) -> list[Pair]:
    """The parameters and values of a message up to the first marker."""
    found = []
    for position in range(1, len(message) - 1, 2):
        pair = (message[position], message[position + 1])
        if pair == (0, 0) or (code_of(message) == PARAMETER_INDICATION and pair[0] == 0x80):
            break
        found.append(pair)
    return found


def is_refusable(pair: Pair) -> bool:
    """Whether a parameter can't be set, or not to this value."""
    parameter, value = pair
    if parameter in (2, 8, 12, 15):
        return value > 1
    if parameter in (16, 17, 18):
        return value > 127
    return parameter == 11


def is_asking(message: bytes) -> bool:
    """Whether a message without fault of form asks for a parameter indication."""
    return form_fault(message) is None and code_of(message) in (SET, READ, SET_AND_READ)


def message_fault(side: Side, earlier: tuple[tuple[Side, bytes], ...], message: bytes) -> str | None:
    """The fault of a message of a side, after the earlier ones of the call."""
    fault = form_fault(message)
    if fault:
        return fault
    if code_of(message) == PARAMETER_INDICATION:
        was_asked = any(sender is not side and is_asking(each) for sender, each in earlier)
        return None if was_asked else "X4"
    if code_of(message) in (SET, SET_AND_READ) and any(map(is_refusable, standard_pairs(message))):
        return "X3"
    return None


def settings_of(side: Side, message: bytes) -> list[Event]:
    """The settings that a message of a side makes."""
    pairs = standard_pairs(message)
    if code_of(message) == PARAMETER_INDICATION:
        return [
            Setting(side, parameter & 127, "refused" if parameter >> 7 else "said", value)
            for parameter, value in pairs
            if parameter & 127 in PARAMETERS
        ]
    if code_of(message) not in (SET, SET_AND_READ):
        return []
    if len(message) == 1:
        return [InitialSettings(side.other())]
    return [Setting(side.other(), parameter, "asked", value) for parameter, value in pairs if parameter in PARAMETERS]

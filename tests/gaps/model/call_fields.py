"""The fields of calls and their acceptances: addresses, facilities and user data."""
from __future__ import annotations

import functools
from dataclasses import dataclass

from model.packets import octet

FAST_SELECT_AND_REVERSE_CHARGING = 0x01
PACKET_SIZES = 0x42
WINDOW_SIZES = 0x43

Facility = tuple[int, bytes]


@dataclass(frozen=True)
class Addresses:
    """The address block: the lengths in digits, how many octets it has, and its digits."""

    called: int
    calling: int
    octets: int
    digits: list[int]


@dataclass(frozen=True)
class Blocks:
    """What follows the addresses: all of it, the length of the facilities, the facilities and the user data."""

    whole: bytes
    facility_length: int
    facilities: bytes
    user_data: bytes


@dataclass(frozen=True)
class CallFields:
    """What a call or an acceptance says. Sizes and windows are a pair: from the called side, and from the calling one."""

    called: str = ""
    calling: str = ""
    is_reverse_charged: bool = False
    is_fast_select: bool = False
    sizes: tuple[int, int] | None = None
    windows: tuple[int, int] | None = None
    user_data: bytes = b""


def addresses(octets: bytes) -> Addresses:
    """Reads the address block."""
    calling = octet(4, octets) >> 4
    called = octet(4, octets) & 15
    count = (calling + called + 1) // 2
    digits = []
    for each in octets[4:4 + count]:
        digits += [each >> 4, each & 15]
    return Addresses(called, calling, count, digits)


def blocks(octets: bytes) -> Blocks:
    """Reads what follows the addresses."""
    whole = octets[4 + addresses(octets).octets:]
    length = octet(1, whole)
    return Blocks(whole, length, whole[1:1 + length], whole[1 + length:])


def split_facilities(octets: bytes) -> list[Facility] | None:
    """The facilities of a block, or None where the last one is cut."""
    found = []
    while octets:
        code, rest = octets[0], octets[1:]
        skipped, size = (1, octet(1, rest)) if code >> 6 == 3 else (0, (code >> 6) + 1)
        if len(rest) < skipped + size:
            return None
        found.append((code, rest[skipped:skipped + size]))
        octets = rest[skipped + size:]
    return found


def x25_facilities(octets: bytes) -> list[Facility]:
    """The facilities of a block up to the first marker."""
    found = []
    for facility in split_facilities(octets) or []:
        if facility[0] == 0:
            break
        found.append(facility)
    return found


def last_parameter(code: int, facilities: list[Facility]) -> bytes | None:
    """The parameter of the last facility of a code."""
    for each, parameter in reversed(facilities):
        if each == code:
            return parameter
    return None


def text_of(digits: list[int]) -> str:
    """The digits of an address."""
    return "".join(map(str, digits))


@functools.lru_cache
def fields_of(octets: bytes) -> CallFields:
    """Reads the fields of a call or an acceptance; of one with its first bit set (long addresses) it reads none."""
    if octet(1, octets) >> 7:
        return CallFields()
    address = addresses(octets)
    block = blocks(octets)
    facilities = x25_facilities(block.facilities)
    charging = octet(1, last_parameter(FAST_SELECT_AND_REVERSE_CHARGING, facilities) or b"")
    sizes = last_parameter(PACKET_SIZES, facilities)
    windows = last_parameter(WINDOW_SIZES, facilities)
    return CallFields(
        called=text_of(address.digits[:address.called]),
        calling=text_of(address.digits[address.called:address.called + address.calling]),
        is_reverse_charged=charging & 1 == 1,
        is_fast_select=charging >> 7 == 1,
        sizes=None if sizes is None else (2 ** octet(1, sizes), 2 ** octet(2, sizes)),
        windows=None if windows is None else (octet(1, windows), octet(2, windows)),
        user_data=bytes(block.user_data),
    )

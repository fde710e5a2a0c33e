"""Faults of format and of direction."""
from __future__ import annotations

from model import codes
from model.call_fields import FAST_SELECT_AND_REVERSE_CHARGING, PACKET_SIZES, WINDOW_SIZES
from model.call_fields import Facility, addresses, blocks, last_parameter, split_facilities, x25_facilities
from model.packets import Interface, Kind, Side, octet

MOST_FACILITY_OCTETS = 109
USER_DATA_OCTETS = 16
FAST_SELECT_OCTETS = 128
# The least and the most octets of packets whose length is fixed by their kind.
LENGTHS = {
    Kind.RESTART: (4, 5),
    Kind.RESTART_CONFIRMATION: (0, 3),
    Kind.CLEAR: (4, None),
    Kind.RESET: (4, 5),
    Kind.RESET_CONFIRMATION: (0, 3),
    Kind.INTERRUPT: (4, 35),
    Kind.INTERRUPT_CONFIRMATION: (0, 3),
}


def length_fault(least: int, most: int | None, length: int) -> int | None:
    """The fault of a packet that is too short or too long."""
    if length < least:
        return codes.TOO_SHORT
    if most is not None and length > most:
        return codes.TOO_LONG
    return None


def kind_length_fault(kind: Kind, length: int) -> int | None:
    """The fault of a packet whose length is fixed by its kind."""
    return length_fault(*LENGTHS[kind], length) if kind in LENGTHS else None


def has_parameter_fault(interface: Interface, facility: Facility) -> bool:
    """Whether a facility asks for a packet size or a window that does not exist."""
    code, parameter = facility
    if code == PACKET_SIZES:
        return any(size < 4 or size > 12 for size in parameter)
    if code == WINDOW_SIZES:
        return any(window == 0 or window >= interface.modulus for window in parameter)
    return False


def block_fault(interface: Interface, is_fast_select: bool, octets: bytes) -> int | None:
    """The first fault of the addresses, facilities and user data."""
    address = addresses(octets)
    block = blocks(octets)
    facilities = x25_facilities(block.facilities)
    if len(octets) < 4 + address.octets:
        return codes.TOO_SHORT
    if any(digit > 9 for digit in address.digits[:address.called]):
        return codes.INVALID_CALLED_ADDRESS
    if any(digit > 9 for digit in address.digits[address.called:address.called + address.calling]):
        return codes.INVALID_CALLING_ADDRESS
    is_cut = 0 < len(block.whole) < 1 + block.facility_length
    if block.facility_length > MOST_FACILITY_OCTETS or is_cut or split_facilities(block.facilities) is None:
        return codes.INVALID_FACILITY_LENGTH
    if any(has_parameter_fault(interface, facility) for facility in facilities):
        return codes.INVALID_FACILITY_PARAMETER
    charging = last_parameter(FAST_SELECT_AND_REVERSE_CHARGING, facilities) or b""
    has_room = is_fast_select or octet(1, charging) >> 7 == 1
    return codes.TOO_LONG if len(block.user_data) > (FAST_SELECT_OCTETS if has_room else USER_DATA_OCTETS) else None


def call_fault(interface: Interface, octets: bytes) -> int | None:
    """The fault of a call."""
    if octet(1, octets) >> 7:
        return None
    if len(octets) < 4 or len(octets) < 5 + addresses(octets).octets:
        return codes.TOO_SHORT
    return block_fault(interface, False, octets)


def acceptance_fault(interface: Interface, is_fast_select: bool, octets: bytes) -> int | None:
    """The fault of an acceptance, which may end after its type."""
    if octet(1, octets) >> 7 or len(octets) <= 3:
        return None
    return block_fault(interface, is_fast_select, octets)


def format_fault(interface: Interface, kind: Kind, octets: bytes, size: int, is_fast_select: bool) -> int | None:
    """The fault of a packet's format where packets hold up to `size` octets of data."""
    if kind is Kind.CALL:
        return call_fault(interface, octets)
    if kind is Kind.ACCEPTED:
        return acceptance_fault(interface, is_fast_select, octets)
    if kind in (Kind.RECEIVE_READY, Kind.RECEIVE_NOT_READY):
        return length_fault(interface.header, interface.header, len(octets))
    if kind is Kind.DATA:
        return length_fault(interface.header, interface.header + size, len(octets))
    return kind_length_fault(kind, len(octets))


def direction_fault(interface: Interface, channel: int, side: Side, kind: Kind) -> int | None:
    """The fault of a call against the direction of a one-way logical channel."""
    if kind is not Kind.CALL:
        return None
    if side is Side.DTE and interface.permanent < channel <= interface.incoming:
        return codes.CALL_ON_ONE_WAY_CHANNEL
    if side is Side.DCE and interface.two_way < channel <= interface.channels:
        return codes.CALL_ON_ONE_WAY_CHANNEL
    return None

"""Draws right traces: packets are drawn, and those that would be a finding are left out."""
from __future__ import annotations

import random
from collections.abc import Iterator

from model.channel import Channel, sent
from model.events import has_finding
from model.observer import Observer
from model.packets import Interface, Kind, PacketRow, Side, decode
from model.tables import SET_UP
from model.traces import GAPS_FORM, Trace

MOST_TRIES = 2000
RESTART_SHARE = 0.015
# How often a packet that changes nothing is kept.
IDLE_SHARE = 0.2
SIZE = 16
SET_UP_SHARE = 0.7
TYPES = {
    Kind.CALL: 0x0B,
    Kind.ACCEPTED: 0x0F,
    Kind.CLEAR: 0x13,
    Kind.CLEAR_CONFIRMATION: 0x17,
    Kind.INTERRUPT: 0x23,
    Kind.INTERRUPT_CONFIRMATION: 0x27,
    Kind.RESET: 0x1B,
    Kind.RESET_CONFIRMATION: 0x1F,
    Kind.RECEIVE_READY: 1,
    Kind.RECEIVE_NOT_READY: 5,
}
# How often each kind is drawn, of 100.
SHARES = {
    Kind.DATA: 48,
    Kind.RECEIVE_READY: 16,
    Kind.RECEIVE_NOT_READY: 3,
    Kind.INTERRUPT: 5,
    Kind.INTERRUPT_CONFIRMATION: 5,
    Kind.RESET: 6,
    Kind.RESET_CONFIRMATION: 4,
    Kind.CALL: 4,
    Kind.ACCEPTED: 4,
    Kind.CLEAR: 3,
    Kind.CLEAR_CONFIRMATION: 2,
}
FACILITIES = (b"", b"", b"\x42\x05\x04", b"\x43\x02\x03")
USER_DATA = (b"", b"\x01\x00\x00\x00")
PAD_MESSAGES = (b"\x02", b"\x02\x01\x01", b"\x00\x02\x01", b"\x06\x0c\x02", b"\x04", b"\x00\x82\x01\x03\x04")


def identifier(interface: Interface) -> int:
    """The general format identifier of packets, as their first octet."""
    return 0x10 if interface.modulus == 8 else 0x20


def data_octets(source: random.Random, interface: Interface, number: int, send: int, receive: int) -> bytes:
    """A data packet, some of them with M, D or Q set, and those with Q set with a PAD message."""
    more, delivery, qualified = source.random() < 0.3, source.random() < 0.1, source.random() < 0.4
    body = source.choice(PAD_MESSAGES) if qualified else bytes(source.choice((1, 5, SIZE, SIZE)))
    first = identifier(interface) | qualified << 7 | delivery << 6
    if interface.modulus == 8:
        return bytes([first, number, receive << 5 | more << 4 | send << 1]) + body
    return bytes([first, number, send << 1, receive << 1 | more]) + body


def body_of(source: random.Random, kind: Kind) -> bytes:
    """What follows the type of a packet that is neither data, RR nor RNR."""
    facilities = source.choice(FACILITIES)
    if kind is Kind.CALL:
        return bytes([0, len(facilities)]) + facilities + source.choice(USER_DATA)
    if kind is Kind.ACCEPTED:
        return source.choice((b"", bytes([0, len(facilities)]) + facilities))
    if kind in (Kind.CLEAR, Kind.RESET):
        return b"\x00\x00"
    return b"\x01" if kind is Kind.INTERRUPT else b""


def channel_octets(source: random.Random, interface: Interface, number: int, channel: Channel, side: Side) -> bytes:
    """A packet of a side on a logical channel, mostly one that is right."""
    kind = source.choices(list(SHARES), list(SHARES.values()))[0]
    if channel.state.is_set_up() and source.random() < SET_UP_SHARE:
        kind = source.choice(SET_UP)
    send, receive = sent(side, channel) % interface.modulus, sent(side.other(), channel) % interface.modulus
    if source.random() < 0.3:
        receive = channel.acknowledged[side.other()] % interface.modulus
    if kind is Kind.DATA:
        return data_octets(source, interface, number, send, receive)
    first = bytes([identifier(interface), number])
    if kind not in (Kind.RECEIVE_READY, Kind.RECEIVE_NOT_READY):
        return first + bytes([TYPES[kind]]) + body_of(source, kind)
    if interface.modulus == 8:
        return first + bytes([receive << 5 | TYPES[kind]])
    return first + bytes([TYPES[kind], receive << 1])


def drawn_row(source: random.Random, observer: Observer, row: int) -> PacketRow:
    """A row with a packet of either side."""
    interface, side = observer.interface, source.choice(list(Side))
    octets = bytes([identifier(interface), 0]) + source.choice((b"\xfb\x00\x00", b"\xff"))
    if source.random() >= RESTART_SHARE:
        number = source.randint(1, interface.channels)
        octets = channel_octets(source, interface, number, observer.channel(number).channel, side)
    return PacketRow(row, side, octets, decode(interface, octets))


def right_rows(source: random.Random, interface: Interface, count: int) -> Iterator[PacketRow]:
    """Up to `count` rows that have no finding."""
    observer, taken = Observer(interface), 0
    for _ in range(MOST_TRIES):
        row = drawn_row(source, observer, taken + 1)
        after = observer.copy()
        after.read(row)
        if has_finding([shown.event for shown in after.shown]):
            continue
        if after.is_like(observer) and source.random() >= IDLE_SHARE:
            continue
        observer, taken = after, taken + 1
        yield row
        if taken == count:
            return


def right_trace(source: random.Random) -> Trace:
    """A right trace of three logical channels, the first of them a permanent circuit."""
    modulus, window = source.choice((8, 8, 128)), source.choice((1, 2, 3, 7))
    interface = Interface(GAPS_FORM, modulus, window, SIZE, 1, 1, 3, 3, False)
    return Trace(interface, tuple(right_rows(source, interface, source.randint(20, 70))))

"""Whether a recording of a line begins with a restart that both sides go through, so that all channels are known."""
from __future__ import annotations

import enum

from x25tools_lib.sides import Side

from .packets import Packet, Type, channel_of

RESTARTS = frozenset((Type.RESTART, Type.RESTART_CONFIRM))


class State(enum.Enum):
    """What the first packets show."""

    EMPTY = enum.auto()
    # One side has restarted, and the other one has not answered.
    RESTARTING = enum.auto()
    WHOLE = enum.auto()
    JOINED = enum.auto()


class Beginning:
    """The first packets of a line.

    The other side answers a restart by a restart of its own or by a confirmation. Where both sides send on channels and
    no answer came, the one that restarted has had it: it was not recorded, so the recording began inside of the restart.
    """

    def __init__(self) -> None:
        self.state = State.EMPTY
        self.restarted: Side | None = None
        # The sides that have sent on a channel since then.
        self.sending: set[Side] = set()

    @property
    def is_open(self) -> bool:
        """Whether more packets decide."""
        return self.state in (State.EMPTY, State.RESTARTING)

    @property
    def is_joined(self) -> bool:
        """Whether the recording began in the middle."""
        return self.state is State.JOINED

    def see(self, packet: Packet) -> str | None:
        """Reads a packet; returns the message where it shows that the recording began inside of a restart."""
        octets, side = packet.octets, packet.side
        channel, kind = (channel_of(octets), octets[2]) if len(octets) >= 3 else (0, None)
        if self.state is State.EMPTY:
            is_restart = kind == Type.RESTART and not channel
            self.state = State.RESTARTING if is_restart else State.JOINED
            self.restarted = side
        elif channel:
            self.sending.add(side)
        elif side is not self.restarted and kind in RESTARTS:
            self.state = State.WHOLE
        if len(self.sending) < 2 or self.restarted is None:
            return None
        self.state = State.JOINED
        words = f"frame {packet.frame}: both sides send on channels after the restart of the {self.restarted.title}"
        return f"{words}, and no answer of the {self.restarted.other.title} was recorded: the recording began inside of it"

    def miss(self) -> None:
        """Reads a gap, in which the answer may be."""
        if self.state is State.RESTARTING:
            self.state = State.WHOLE

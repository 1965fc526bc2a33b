"""The parts that make up the state of a system."""

from __future__ import annotations

from dataclasses import dataclass, field
from enum import IntEnum

from events import Time

ALL_ONES = 0xFFFF_FFFF

MESSAGE_BIT = 8
FAULT_BIT = 9
FIRST_LINE_BIT = 16

MEM_PROTECTION = 6  # the event of an access outside the area
PARTITION_ERROR = 7  # the event that a partition raises by a call of its own


class State(IntEnum):
    READY = 1
    IDLE = 2
    SUSPENDED = 3
    HALTED = 4


class Mode(IntEnum):
    """How a partition or the system is reset."""

    WARM = 0
    COLD = 1


class Action(IntEnum):
    """What the health monitor can do."""

    IGNORE = 0
    SIGNAL = 1
    SUSPEND = 2
    HALT = 3
    WARM_RESET = 4
    COLD_RESET = 5


@dataclass
class Partition:
    state: State = State.READY
    pending: int = 0
    mask: int = ALL_ONES  # a one hides the pending bit of the same number
    open_ports: set[int] = field(default_factory=set)

    def clear(self) -> None:
        self.pending = 0
        self.mask = ALL_ONES
        self.open_ports = set()

    def start_slot(self) -> None:
        """What the start of its slot does to a partition: an IDLE one becomes READY."""
        if self.state == State.IDLE:
            self.state = State.READY

    def has_unmasked_bit(self) -> bool:
        return self.pending & ~self.mask != 0


@dataclass(frozen=True)
class Message:
    data: bytes
    time: Time


@dataclass(frozen=True)
class LogEntry:
    time: Time
    partition: int  # or the scope of the system
    event: int
    action: int

    def packed(self) -> int:
        return self.partition + 256 * self.event + 65_536 * self.action

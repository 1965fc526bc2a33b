"""The seven sorts of events, and the answers to them."""

from __future__ import annotations

from dataclasses import dataclass
from enum import IntEnum
from typing import NamedTuple, Union


Time = int  # a time or a length of time, in microseconds


@dataclass(frozen=True)
class Tick:
    time: Time


@dataclass(frozen=True)
class Call:
    partition: int
    number: int
    arguments: tuple[int, int, int, int, int] = (0, 0, 0, 0, 0)


@dataclass(frozen=True)
class Load:
    partition: int
    offset: int


@dataclass(frozen=True)
class Store:
    partition: int
    offset: int
    byte: int


@dataclass(frozen=True)
class Fault:
    partition: int
    event: int


@dataclass(frozen=True)
class Line:
    line: int


@dataclass(frozen=True)
class SystemFault:
    event: int


Event = Union[Tick, Call, Load, Store, Fault, Line, SystemFault]


class Refusal(IntEnum):
    """Why an event is refused.  They are tested in the order of ORDER."""

    WRONG_STATE = -1  # or there is nothing to act on
    NO_SUCH_CALL = -2
    NO_SUCH_THING = -3
    NOT_PERMITTED = -4
    DIFFERS = -5  # from the configuration, or from the message's length
    WRONG_DIRECTION = -6
    FULL_OR_EMPTY = -7
    WRONG_TIME = -8
    NOT_ON_PROCESSOR = -9
    SYSTEM_HALTED = -10


ORDER = (-10, -9, -8, -2, -3, -4, -6, -5, -7, -1)


class Refused(Exception):
    """An event was refused: the code, and the cause in words."""

    def __init__(self, code: Refusal, cause: str):
        super().__init__(f"{int(code)}: {cause}")
        self.code = code
        self.cause = cause


class Answer(NamedTuple):
    code: int = 0
    a: int = 0
    b: int = 0

    def __str__(self) -> str:
        return f"{int(self.code)} {self.a} {self.b}"


def in_words(event: Event) -> str:
    """An event as a reader of a report wants it."""
    match event:
        case Tick(time):
            return f"tick to {time}"
        case Call(partition, number, arguments):
            return f"call {number} of partition {partition} with {arguments}"
        case Load(partition, offset):
            return f"load of partition {partition} at {offset}"
        case Store(partition, offset, byte):
            return f"store of partition {partition} at {offset}, byte {byte}"
        case Fault(partition, number):
            return f"fault {number} of partition {partition}"
        case Line(line):
            return f"line {line}"
        case SystemFault(number):
            return f"system fault {number}"
    raise TypeError(event)

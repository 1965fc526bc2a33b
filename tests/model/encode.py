"""Writes vectors, events and scripts as bytes.

The field widths stand here a second time, apart from those that the model reads
with, so that a mistake in one of them shows.
"""

from __future__ import annotations

import struct
from dataclasses import dataclass

from events import Call, Event, Fault, Line, Load, Store, SystemFault, Tick


@dataclass(frozen=True)
class Record:
    """A record of a vector: its numbers, and its name if the kind has one."""

    kind: int
    numbers: tuple[int, ...]
    name: bytes = b""

    def body(self) -> bytes:
        return struct.pack(LAYOUTS[self.kind], *self.numbers) + self.name

    def encoded(self) -> bytes:
        return framed(self.kind, self.body())

    def with_number(self, index: int, value: int) -> Record:
        numbers = list(self.numbers)
        numbers[index] = value
        return Record(self.kind, tuple(numbers), self.name)


LAYOUTS = {1: "<BB", 2: "<BH", 3: "<I", 4: "<BII", 5: "<BHB", 6: "<BB", 7: "<BBB", 8: "<BB",
           9: "<BBBB"}


def framed(kind: int, body: bytes) -> bytes:
    return struct.pack("<HH", len(body), kind) + body


def header(partitions: int, plans: int) -> Record:
    return Record(1, (partitions, plans))


def partition(class_: int, area_size: int, name: bytes) -> Record:
    return Record(2, (class_, area_size), name)


def plan(frame: int) -> Record:
    return Record(3, (frame,))


def slot(partition_: int, start: int, duration: int) -> Record:
    return Record(4, (partition_, start, duration))


def channel(type_: int, longest: int, depth: int) -> Record:
    return Record(5, (type_, longest, depth))


def port(partition_: int, direction: int, name: bytes) -> Record:
    return Record(6, (partition_, direction), name)


def ipvi(number: int, source: int, mask: int) -> Record:
    return Record(7, (number, source, mask))


def line(line_: int, owner: int) -> Record:
    return Record(8, (line_, owner))


def action(scope: int, event: int, action_: int, log: int) -> Record:
    return Record(9, (scope, event, action_, log))


def vector(records: list[Record]) -> bytes:
    return b"".join(record.encoded() for record in records)


def event(sent: Event) -> bytes:
    match sent:
        case Tick(time):
            return framed(32, struct.pack("<I", time))
        case Call(caller, number, arguments):
            return framed(33, struct.pack("<BB5I", caller, number, *arguments))
        case Load(owner, offset):
            return framed(34, struct.pack("<BI", owner, offset))
        case Store(owner, offset, byte):
            return framed(35, struct.pack("<BIB", owner, offset, byte))
        case Fault(owner, number):
            return framed(36, struct.pack("<BB", owner, number))
        case Line(number):
            return framed(37, struct.pack("<B", number))
        case SystemFault(number):
            return framed(38, struct.pack("<B", number))
    raise TypeError(sent)


def script(vector_: bytes, events: list[Event]) -> bytes:
    return (struct.pack("<H", len(vector_)) + vector_
            + b"".join(event(sent) for sent in events))

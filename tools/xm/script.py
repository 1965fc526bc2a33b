"""Scripts, vectors and events as bytes: cut apart and put together."""

from __future__ import annotations

import struct
from dataclasses import dataclass

LONGEST_SCRIPT = 32_768
HEAD = struct.Struct("<HH")  # length of the body, kind
VECTOR_LENGTH = struct.Struct("<H")
LONGEST_NAME = 16

HEADER, PARTITION, PLAN, SLOT, CHANNEL, PORT, IPVI, LINE_OWNER, ACTION = range(1, 10)
TICK, CALL, LOAD, STORE, FAULT, LINE, SYSTEM_FAULT = range(32, 39)

RECORD_LAYOUTS = {
    HEADER: struct.Struct("<BB"),
    PARTITION: struct.Struct("<BH"),
    PLAN: struct.Struct("<I"),
    SLOT: struct.Struct("<BII"),
    CHANNEL: struct.Struct("<BHB"),
    PORT: struct.Struct("<BB"),
    IPVI: struct.Struct("<BBB"),
    LINE_OWNER: struct.Struct("<BB"),
    ACTION: struct.Struct("<BBBB"),
}
NAMED_RECORDS = (PARTITION, PORT)  # a name follows the numbers

EVENT_LAYOUTS = {
    TICK: struct.Struct("<I"),
    CALL: struct.Struct("<BB5I"),
    LOAD: struct.Struct("<BI"),
    STORE: struct.Struct("<BIB"),
    FAULT: struct.Struct("<BB"),
    LINE: struct.Struct("<B"),
    SYSTEM_FAULT: struct.Struct("<B"),
}
GUEST_EVENTS = (CALL, LOAD, STORE, FAULT)  # their first number is the partition


class NoScript(Exception):
    """The bytes are no script; the program would print 'bad'."""


@dataclass(frozen=True)
class Record:
    """A record of a vector: its kind and the bytes of its body."""

    kind: int
    body: bytes

    def encoded(self) -> bytes:
        """The record's bytes, its head included."""
        return HEAD.pack(len(self.body), self.kind) + self.body

    def fields(self) -> tuple[tuple[int, ...], bytes] | None:
        """Numbers and name, or None where kind and length are not those of a record."""
        layout = RECORD_LAYOUTS.get(self.kind)
        if layout is None or len(self.body) < layout.size:
            return None
        name = self.body[layout.size:]
        good_lengths = range(1, LONGEST_NAME + 1) if self.kind in NAMED_RECORDS else range(1)
        if len(name) not in good_lengths:
            return None
        return layout.unpack(self.body[:layout.size]), name


def record(kind: int, *numbers: int, name: bytes = b"") -> Record:
    """A record from its numbers and its name."""
    return Record(kind, RECORD_LAYOUTS[kind].pack(*numbers) + name)


@dataclass(frozen=True)
class Event:
    """An event: its kind and the numbers of its record."""

    kind: int
    numbers: tuple[int, ...]

    def encoded(self) -> bytes:
        """The event's record, its head included."""
        body = EVENT_LAYOUTS[self.kind].pack(*self.numbers)
        return HEAD.pack(len(body), self.kind) + body


def split_vector(vector: bytes) -> tuple[list[Record], bytes]:
    """The whole records of a vector, and what is left behind them: a record that is cut."""
    records = []
    place = 0
    while len(vector) - place >= HEAD.size:
        length, kind = HEAD.unpack_from(vector, place)
        end = place + HEAD.size + length
        if end > len(vector):
            break
        records.append(Record(kind, vector[place + HEAD.size:end]))
        place = end
    return records, vector[place:]


def split_script(data: bytes) -> tuple[bytes, list[Event]]:
    """The vector and the events of a script; raises NoScript for any other bytes."""
    if len(data) > LONGEST_SCRIPT:
        raise NoScript(f"it has {len(data):,} bytes, {LONGEST_SCRIPT:,} are the most")
    if len(data) < VECTOR_LENGTH.size:
        raise NoScript(f"it has {len(data)} of the {VECTOR_LENGTH.size} bytes that say the vector's length")
    length, = VECTOR_LENGTH.unpack_from(data)
    place = VECTOR_LENGTH.size + length
    if place > len(data):
        there = len(data) - VECTOR_LENGTH.size
        raise NoScript(f"it announces a vector of {length:,} bytes and has {there:,} of them")
    events = []
    vector = data[VECTOR_LENGTH.size:place]
    while place < len(data):
        event, place = read_event(data, place)
        events.append(event)
    return vector, events


def read_event(data: bytes, place: int) -> tuple[Event, int]:
    """The event at a place, and the place behind it."""
    start = place + HEAD.size
    if start > len(data):
        raise NoScript(f"the event at byte {place} is cut")
    length, kind = HEAD.unpack_from(data, place)
    end = start + length
    if end > len(data):
        raise NoScript(f"the event at byte {place} is cut")
    if kind not in EVENT_LAYOUTS:
        raise NoScript(f"the event at byte {place} has the kind {kind}")
    layout = EVENT_LAYOUTS[kind]
    if length != layout.size:
        raise NoScript(f"the event at byte {place} has {length} bytes, its kind has {layout.size}")
    return Event(kind, layout.unpack_from(data, start)), end

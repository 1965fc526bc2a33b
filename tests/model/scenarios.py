"""Directed scripts: what a random script would rarely meet.

Each scenario is a function that plays a part on a stage; `directed` puts them all
together with the vectors and malformed scripts that are written by hand.
"""

from __future__ import annotations

import struct
from typing import Iterator

import encode
from dramas import DRAMAS, FOUR
from encode import Record
from events import Call, Event, Fault, Line, Load, Store, SystemFault, Tick
from limits import Limits
from machine import FARTHEST
from script import LONGEST_SCRIPT
from stage import Stage

WORD = 0xFFFF_FFFF

SMALLEST = [
    encode.header(1, 1),
    encode.partition(0, 16, b"A"),
    encode.plan(1_000),
    encode.slot(0, 0, 1_000),
]
SMALLEST_VECTOR = encode.vector(SMALLEST)

SAMPLE_EVENTS: list[Event] = [
    Tick(5), Call(0, 0), Load(0, 3), Store(0, 3, 77), Fault(0, 0), Line(3), SystemFault(8)]


# Vectors

# Two plans with a gap in each, every record kind, in few bytes.
FULL = [
    encode.header(3, 2),
    encode.partition(1, 1_024, b"system"),
    encode.partition(0, 64, b"first"),
    encode.partition(0, 1, b"sixteen letters!"),
    encode.plan(100),
    encode.slot(0, 0, 40),
    encode.slot(1, 50, 20),
    encode.slot(2, 70, 30),
    encode.plan(1_000_000),
    encode.slot(2, 999_999, 1),
    encode.channel(0, 64, 1),
    encode.port(0, 0, b"out"),
    encode.port(1, 1, b"in"),
    encode.port(2, 1, b"in"),
    encode.channel(1, 8, 2),
    encode.port(1, 0, b"queue"),
    encode.port(2, 1, b"queue"),
    encode.ipvi(0, 0, 0b110),
    encode.ipvi(7, 1, 0b101),
    encode.line(0, 1),
    encode.line(15, 2),
    encode.action(0, 0, 5, 1),
    encode.action(2, 7, 0, 0),
    encode.action(255, 8, 4, 1),
    encode.action(255, 11, 0, 0),
]

HIGH_BYTE = 0x0100_0000  # added to a good number, it must not get lost

# Values around the bounds of every field, by record kind and number of the field.
AROUND_BOUNDS = {
    (1, 0): (0, 1, 8, 9, 255),
    (1, 1): (0, 1, 4, 5, 255),
    (2, 0): (0, 1, 2, 255),
    (2, 1): (0, 1, 256, 1_024, 1_025, 32_769, 65_535),
    (3, 0): (0, 1, 99, 100, 1_000_000, 1_000_001, 100 + HIGH_BYTE, WORD),
    (4, 0): (0, 2, 3, 255),
    (4, 1): (0, 39, 40, 49, 50, 51, 69, 70, 71, 999_999, 1_000_000, 50 + HIGH_BYTE, WORD),
    (4, 2): (0, 1, 20, 21, 30, 31, 50, 1_000_000, 1_000_001, 20 + HIGH_BYTE, WORD),
    (5, 0): (0, 1, 2, 255),
    (5, 1): (0, 1, 64, 65, 256, 257, 65_535),
    (5, 2): (0, 1, 2, 8, 9, 255),
    (6, 0): (0, 1, 2, 3, 255),
    (6, 1): (0, 1, 2, 255),
    (7, 0): (0, 7, 8, 255),
    (7, 1): (0, 1, 2, 3, 255),
    (7, 2): (0, 1, 2, 4, 7, 8, 128, 255),
    (8, 0): (0, 15, 16, 255),
    (8, 1): (0, 2, 3, 255),
    (9, 0): (0, 2, 3, 254, 255),
    (9, 1): (0, 7, 8, 11, 12, 255),
    (9, 2): (0, 1, 2, 3, 4, 5, 6, 255),
    (9, 3): (0, 1, 2, 255),
}


def allowed_records(records: list[Record], limits: Limits) -> list[Record]:
    return [record for record in records if record.kind <= limits.kinds]


def vectors_around_bounds(limits: Limits) -> Iterator[bytes]:
    records = allowed_records(FULL, limits)
    for index, record in enumerate(records):
        for place in range(len(record.numbers)):
            for value in AROUND_BOUNDS[record.kind, place]:
                changed = record.with_number(place, value)
                yield encode.vector(records[:index] + [changed] + records[index + 1:])


def vectors_around_frames(limits: Limits) -> Iterator[bytes]:
    """Cuts, kinds, body lengths, and records out of turn."""
    records = allowed_records(FULL, limits)
    whole = encode.vector(records)
    for index in range(len(records)):
        start = len(encode.vector(records[:index]))
        yield from (whole[:start + length] for length in range(6))
    yield from (whole + bytes(extra) for extra in (1, 3, 4))
    for kind in (0, 5, 9, 10, 32, 255, 256, 257, 0x8001, 0xFFFF):
        for length in (0, 2, 4):
            yield whole + encode.framed(kind, bytes(length))
            yield encode.framed(kind, bytes(length))
    for index, record in enumerate(records):
        least = len(record.body()) - max(0, len(record.name) - 1)
        for length in (0, least - 1, least, least + 1, least + 15, least + 16):
            body = (record.body() + b"x" * 20)[:length]
            yield (encode.vector(records[:index]) + encode.framed(record.kind, body)
                   + encode.vector(records[index + 1:]))
        yield encode.vector(records[:index] + records[index + 1:])
    one_of_each_kind = {record.kind: record for record in records}.values()
    for index in range(len(records) + 1):
        for guest in one_of_each_kind:
            yield encode.vector(records[:index] + [guest] + records[index:])


def vectors_around_relations(limits: Limits) -> Iterator[bytes]:
    """Too many of something, something twice, slots that do not fit."""
    start = [encode.header(8, 1)]
    start += [encode.partition(0, 1, b"p%d" % number) for number in range(8)]
    start += [encode.plan(100)]
    for count in (15, 16, 17):
        yield encode.vector(start + [encode.slot(0, place, 1) for place in range(count)])
    yield encode.vector(start + [encode.slot(0, place, 1) for place in range(16)]
                        + [encode.slot(0, 200, 1)])
    start += [encode.slot(0, 10, 20)]
    for first, duration in ((29, 1), (30, 1), (30, 70), (30, 71), (9, 1), (99, 1), (100, 1),
                            (999_999, 1_000_000)):
        yield encode.vector(start + [encode.slot(1, first, duration)])
    for row in range(1, 9):
        twice = encode.partition(1, 5, b"p%d" % (row % 8))
        yield encode.vector(start[:row] + [twice] + start[row + 1:])
    if limits.kinds == 9:
        yield from vectors_around_channels(start)
        yield from vectors_around_the_rest(start)


def vectors_around_channels(start: list[Record]) -> Iterator[bytes]:
    def pair(number: int, type_: int = 1) -> list[Record]:
        return [encode.channel(type_, 1, 1), encode.port(0, 0, b"s%d" % number),
                encode.port(1, 1, b"d%d" % number)]

    def pairs(count: int) -> list[Record]:
        return [record for number in range(count) for record in pair(number)]

    def fan(number: int, readers: int) -> list[Record]:
        return [encode.channel(0, 1, 1), encode.port(0, 0, b"s%d" % number)] + [
            encode.port(reader, 1, b"d%d" % number) for reader in range(1, readers + 1)]

    for count in (7, 8, 9):
        yield encode.vector(start + pairs(count))
    yield encode.vector(start + pairs(8) + [encode.channel(2, 1, 1)])
    yield encode.vector(start + pairs(8) + [encode.channel(1, 1, 1)])
    for direction in (0, 1):
        yield encode.vector(start + pair(0) + [encode.port(2, direction, b"third")])
        yield encode.vector(start + pair(0, 0) + [encode.port(2, direction, b"third")])
    fans = fan(0, 7) + fan(1, 7) + fan(2, 7)  # 24 ports
    yield encode.vector(start + fans + fan(3, 7))
    yield encode.vector(start + fans + fan(3, 5) + pair(4))
    yield encode.vector(start + fans + fan(3, 5) + pair(4) + [encode.port(2, 1, b"33rd")])
    yield encode.vector(start + fans + fan(3, 5) + fan(4, 2))
    yield encode.vector(start + fans + fan(3, 7) + pair(4))
    yield encode.vector(start + pair(0) + pair(0))
    yield encode.vector(start + pair(0) + [encode.channel(0, 1, 1), encode.port(2, 0, b"s0"),
                                           encode.port(1, 1, b"d0")])
    yield encode.vector(start + [encode.channel(0, 1, 1), encode.port(0, 0, b"x"),
                                 encode.port(0, 1, b"y")])
    yield encode.vector(start + fan(0, 2) + [encode.port(1, 1, b"again")])
    yield encode.vector(start + fan(0, 2) + [encode.port(1, 1, b"d0")])
    yield encode.vector(start + [encode.channel(1, 1, 1), encode.port(0, 0, b"x")])
    yield encode.vector(start + [encode.channel(1, 1, 1)])


def vectors_around_the_rest(start: list[Record]) -> Iterator[bytes]:
    ipvi = [encode.ipvi(3, 1, 0b100)]
    yield encode.vector(start + ipvi + [encode.ipvi(3, 1, 0)])
    yield encode.vector(start + ipvi + [encode.ipvi(3, 2, 0), encode.ipvi(4, 1, 0b11111101)])
    line = [encode.line(4, 0)]
    yield encode.vector(start + line + [encode.line(4, 1)])
    yield encode.vector(start + line + [encode.line(5, 0)])
    action = [encode.action(1, 5, 0, 0), encode.action(255, 9, 3, 1)]
    yield encode.vector(start + action + [encode.action(1, 5, 1, 1)])
    yield encode.vector(start + action + [encode.action(255, 9, 3, 1)])
    yield encode.vector(start + action + [encode.action(0, 5, 5, 1)])
    for late in (ipvi, line, action):
        for early in (ipvi, line, action):
            yield encode.vector(start + late + early)


# Scripts that are none


def malformed_scripts() -> Iterator[bytes]:
    good = encode.script(SMALLEST_VECTOR, SAMPLE_EVENTS)
    yield from (good[:length] for length in (0, 1, 2, 3, *range(35, len(good))))
    refused = encode.script(SMALLEST_VECTOR[:34], SAMPLE_EVENTS)
    yield refused
    yield refused[:-1]
    yield encode.script(b"", [])
    yield encode.script(b"", SAMPLE_EVENTS)
    for kind in (0, 1, 4, 31, 32, 33, 34, 35, 36, 37, 38, 39, 255, 32 + 256, 0xFFFF):
        for length in (0, 1, 2, 4, 5, 6, 22):
            yield good + encode.framed(kind, bytes(length))
    # Whoever overlooks the high byte of this length finds nothing but ticks.
    yield good + struct.pack("<HHI", 256 + 4, 32, 0) + encode.event(Tick(0)) * 32
    yield from scripts_around_longest()


def scripts_around_longest() -> Iterator[bytes]:
    """Scripts of just the greatest length, and of a byte more."""
    for length in (LONGEST_SCRIPT, LONGEST_SCRIPT + 1):
        for name in (b"A", b"AB", b"ABC", b"ABCD", b"ABCDE"):
            records = [SMALLEST[0], encode.partition(0, 16, name), *SMALLEST[2:]]
            vector = encode.vector(records)
            lines, rest = divmod(length - 2 - len(vector), 5)
            if rest == 0:
                yield encode.script(vector, [Line(7)] * lines)
    yield encode.script(SMALLEST_VECTOR, []) + bytes(LONGEST_SCRIPT)
    yield struct.pack("<H", 0xFFFF) + bytes(LONGEST_SCRIPT - 2)
    yield struct.pack("<H", LONGEST_SCRIPT - 2) + bytes(LONGEST_SCRIPT - 2)


# Histories that need no call above 0


def worked_example(stage: Stage) -> None:
    for event in (Tick(5), Call(0, 0), Load(0, 16), Call(0, 0)):
        stage.send(event)


def ticks_of_every_length(stage: Stage) -> None:
    for time in (0, 0, 1, 5, 5, 4, 0, 999, 1_000, 1_001, 2_000, 2_000 + FARTHEST + 1,
                 WORD, 0x8000_0000, 2_000 + FARTHEST, 2_000 + FARTHEST - 1,
                 2_001 + 2 * FARTHEST):
        stage.send(Tick(time))
        stage.call(0, 0)


def every_default_fault(stage: Stage) -> None:
    for fault in (0, 1, 2, 3, 4, 5, 6, 7, 8, 255):
        stage.send(Fault(0, fault))
        stage.call(0, 0)
        stage.send(SystemFault(10))
    for fault in (0, 7, 8, 9, 10, 11, 12, 255):
        stage.send(SystemFault(fault))
        stage.call(0, 0)


def loads_and_stores_at_the_edges(stage: Stage) -> None:
    for offset in (0, 15, 16, 17, 255, 256, 272, 65_536, 0x8000_0000, WORD):
        stage.send(Store(0, offset, offset & 0xFF ^ 0x5A))
        stage.send(Load(0, offset))
        stage.send(SystemFault(10))
        stage.send(Load(0, offset))
        stage.send(SystemFault(10))
    for partition in (1, 2, 7, 8, 255):
        stage.send(Load(partition, 0))
        stage.send(Store(partition, 0, 1))
        stage.send(Fault(partition, 0))
        stage.call(partition, 0)
    for offset in range(16):
        stage.send(Load(0, offset))


def every_line_without_owner(stage: Stage) -> None:
    for line in (*range(18), 128, 255):
        stage.send(Line(line))


def every_call_number(stage: Stage) -> None:
    """By a partition on the processor, and by one that does not exist."""
    for number in range(256):
        stage.call(0, number, *([WORD] * 5))
        stage.call(1, number)
        if not stage.system.on_processor(0):
            stage.send(SystemFault(10))


SMALL_HISTORIES = (worked_example, ticks_of_every_length, every_default_fault,
                   loads_and_stores_at_the_edges, every_line_without_owner, every_call_number)

# A frame with gaps at its start, its middle and its end; two slots of one partition
# touch, and a system reset in the middle of a frame moves the slots.
GAPS = [
    encode.header(3, 2),
    encode.partition(0, 4, b"A"),
    encode.partition(1, 1_024, b"B"),
    encode.partition(0, 1, b"C"),
    encode.plan(20),
    encode.slot(0, 2, 5),
    encode.slot(0, 7, 1),
    encode.slot(1, 8, 4),
    encode.slot(2, 15, 3),
    encode.plan(1),
    encode.slot(0, 0, 1),
]


def who_is_on_the_processor(stage: Stage) -> None:
    """Everybody asks for the time in each microsecond of three frames."""
    for moment in range(60):
        stage.send(Tick(moment))
        for partition in range(4):
            stage.call(partition, 0)
        if moment in (27, 51):
            stage.send(SystemFault(10))
            for partition in range(4):
                stage.call(partition, 0)


def areas_are_apart(stage: Stage) -> None:
    """Everybody fills an area of their own; nobody sees another's bytes."""
    for _ in range(2):
        for partition, row in enumerate(stage.tables.partitions):
            stage.seat(partition)
            for offset in {0, 1, 2, 3, 62, 63, 64, 65, 127, 128, 1_022, 1_023, row.area_size - 1}:
                if offset < row.area_size:
                    stage.send(Load(partition, offset))
                    stage.send(Store(partition, offset, 10 * partition + offset & 0xFF))
                    stage.send(Load(partition, offset))


def the_largest_area(stage: Stage) -> None:
    stage.seat(1)
    for offset in range(1_025):
        stage.send(Store(1, offset, offset * 7 & 0xFF))
    stage.send(SystemFault(10))
    stage.seat(1)
    for offset in range(1_024):
        stage.send(Load(1, offset))


def suspended_stays_suspended(stage: Stage) -> None:
    """An access outside suspends; frames pass, and only a reset brings it back."""
    stage.seat(0)
    stage.send(Load(0, 4))
    for _ in range(3):
        stage.seat(1)
        stage.send(Tick(stage.system.now + 15))
        for partition in range(3):
            stage.call(partition, 0)
    stage.send(SystemFault(10))
    stage.seat(0)
    stage.call(0, 0)


GAP_HISTORIES = (who_is_on_the_processor, areas_are_apart, the_largest_area,
                 suspended_stays_suspended)

CASTS = [(SMALLEST, SMALL_HISTORIES), (GAPS, GAP_HISTORIES), (FOUR, DRAMAS)]


def directed(limits: Limits) -> Iterator[tuple[str, bytes]]:
    """Every directed script once, with a name."""
    seen: set[bytes] = set()
    for name, data in all_directed(limits):
        if data not in seen:
            seen.add(data)
            yield name, data


def all_directed(limits: Limits) -> Iterator[tuple[str, bytes]]:
    for records, parts in CASTS:
        if records != allowed_records(records, limits):
            continue
        for part in parts:
            stage = Stage(encode.vector(records), limits)
            part(stage)
            yield part.__name__, encode.script(stage.vector, stage.events)
    for family in (vectors_around_bounds, vectors_around_relations, vectors_around_frames):
        for number, vector in enumerate(family(limits)):
            yield f"{family.__name__}-{number}", encode.script(vector, [Tick(1), Call(0, 0)])
    for number, data in enumerate(malformed_scripts()):
        yield f"malformed_scripts-{number}", data

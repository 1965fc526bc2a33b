#!/usr/bin/env python3
"""The refusals a second time, as a plain list of causes.

Every cause that holds is collected, whatever else holds too; the answer must be the
first of them in the order of refusals, and nothing is refused when none holds.
"""

from __future__ import annotations

import unittest
from random import Random
from typing import Iterator

import encode
from calls import CALL_COUNT
from design import design
from dramas import DRAMAS, FOUR
from events import ORDER, Call, Event, Fault, Line, Load, Store, SystemFault, Tick, in_words
from limits import WHOLE
from machine import FARTHEST, System
from player import Player
from stage import Stage
from state import State
from vector import ChannelType, Direction

COUNT = 300


def causes(system: System, event: Event) -> Iterator[int]:
    """The code of every cause that holds."""
    if system.halted:
        yield -10
    match event:
        case Tick(time):
            if time < system.now or time > system.now + FARTHEST:
                yield -8
        case Line(line):
            if line > 15:
                yield -3
            if line not in system.tables.lines:
                yield -1
        case SystemFault(number):
            if number not in (8, 9, 10, 11):
                yield -3
        case Load() | Store() | Fault() | Call():
            if not runs(system, event.partition):
                yield -9
            if isinstance(event, Fault) and event.event > 6:
                yield -3
            if isinstance(event, Call) and event.number >= CALL_COUNT:
                yield -2
            elif isinstance(event, Call) and event.partition < len(system.partitions):
                yield from call_causes(system, event.partition, event.number, event.arguments)


def runs(system: System, partition: int) -> bool:
    offset = system.now - system.frame_start
    slots = [slot for slot in system.tables.plans[system.plan].slots
             if slot.start <= offset < slot.start + slot.duration]
    return (any(slot.partition == partition for slot in slots)
            and system.partitions[partition].state == State.READY)


def call_causes(system: System, caller: int, number: int, arguments: tuple) -> Iterator[int]:
    first, second = arguments[:2]
    standard = not system.tables.is_system(caller)
    if number in (1, 2, 3, 4, 5):
        yield from target_causes(system, number, first)
        if number == 5 and second > 1:
            yield -3
        if standard and first != caller:
            yield -4
    if number == 7 and first >= len(system.tables.plans):
        yield -3
    if number == 23 and first > 1:
        yield -3
    if number in (7, 22, 23, 24) and standard:
        yield -4
    if number in (9, 12):
        yield from opening_causes(system, caller, number, arguments)
    if number in (10, 11, 13, 14, 15):
        yield from port_causes(system, caller, number, arguments)
    if number == 16 and first > 7:
        yield -3
    if number == 16 and system.tables.ipvis.get((first, caller), 0) == 0:
        yield -1
    if number == 22 and not system.log:
        yield -7


def target_causes(system: System, number: int, target: int) -> Iterator[int]:
    if target >= len(system.partitions):
        yield -3
        return
    state = system.partitions[target].state
    if number == 3 and state in (State.SUSPENDED, State.HALTED):
        yield -1
    if number == 4 and state != State.SUSPENDED:
        yield -1


def opening_causes(system: System, caller: int, number: int, arguments: tuple) -> Iterator[int]:
    tables = system.tables
    address, length, longest, direction, depth = arguments
    if direction > 1:
        yield -3
    if address + length > len(system.areas[caller]):
        yield -3
        return
    type_ = ChannelType.SAMPLING if number == 9 else ChannelType.QUEUING
    name = system.areas[caller][address:address + length]
    ports = [place for place, port in enumerate(tables.ports)
             if (port.partition, port.name) == (caller, name)
             and tables.channels[port.channel].type == type_]
    if not ports:
        yield -3
        return
    port = tables.ports[ports[0]]
    channel = tables.channels[port.channel]
    if (longest, direction) != (channel.longest, port.direction):
        yield -5
    if number == 12 and depth != channel.depth:
        yield -5
    if ports[0] in system.partitions[caller].open_ports:
        yield -1


def port_causes(system: System, caller: int, number: int, arguments: tuple) -> Iterator[int]:
    tables = system.tables
    place, address, length = arguments[:3]
    if number != 15 and address + length > len(system.areas[caller]):
        yield -3
    type_ = ChannelType.SAMPLING if number in (10, 11) else ChannelType.QUEUING
    opened = [tables.ports[port] for port in system.partitions[caller].open_ports if port == place]
    if not opened or tables.channels[opened[0].channel].type != type_:
        yield -3
        return
    port = opened[0]
    channel = tables.channels[port.channel]
    waiting = system.channels[port.channel]
    if number in (10, 13):
        if not 1 <= length <= channel.longest:
            yield -3
        if port.direction != Direction.SOURCE:
            yield -6
        if number == 13 and len(waiting) >= channel.depth:
            yield -7
    if number in (11, 14):
        if port.direction != Direction.DESTINATION:
            yield -6
        if waiting and length < len(waiting[0].data):
            yield -5
        if not waiting:
            yield -1 if number == 11 else -7


class Refusals(unittest.TestCase):

    def replay(self, stage: Stage, areas: list[bytearray], where: str) -> None:
        system = System(stage.tables, areas)
        for event in stage.events:
            found = set(causes(system, event))
            code = system.take(event).code
            expected = min(found, key=ORDER.index) if found else None
            self.assertEqual(code if code < 0 else None, expected, (where, in_words(event)))

    def test_random_histories(self):
        for seed in range(COUNT):
            rng = Random(f"refusals {seed}")
            player = Player(rng, encode.vector(design(rng, WHOLE)))
            player.play(150)
            sizes = player.tables.area_sizes()
            self.replay(player, [bytearray(size) for size in sizes], str(seed))

    def test_directed_histories(self):
        for drama in DRAMAS:
            stage = Stage(encode.vector(FOUR))
            drama(stage)
            sizes = stage.tables.area_sizes()
            self.replay(stage, [bytearray(size) for size in sizes], drama.__name__)


if __name__ == "__main__":
    unittest.main()

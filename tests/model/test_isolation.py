#!/usr/bin/env python3
"""Laws of the rules, tried on the model with random histories.

    python3 test_isolation.py [COUNT]

Nobody outside a standard partition's circle can change what it gets; nobody writes
into another's area; a refused event moves nothing.
"""

from __future__ import annotations

import sys
import unittest
from dataclasses import dataclass
from random import Random

import circle as circles
import encode
from design import design
from events import Call, Event, Fault, Line, Load, Store, in_words
from limits import WHOLE
from machine import System
from player import Player
from vector import Direction, Tables, check

COUNT = 300  # random histories for each law


# Whose event is it?


def owner(tables: Tables, event: Event) -> int | None:
    """The existing partition that an event belongs to; None for the system's events."""
    match event:
        case Call() | Load() | Store() | Fault():
            return event.partition if event.partition < len(tables.partitions) else None
        case Line(line):
            return tables.lines.get(line)
    return None


# What is compared


def sheet(system: System, partition: int) -> dict:
    """Everything about a partition that must not depend on outsiders."""
    row = system.partitions[partition]
    return {
        "area": bytes(system.areas[partition]), "state": row.state, "pending": row.pending,
        "mask": row.mask, "open ports": sorted(row.open_ports), "now": system.now,
        "plan": system.plan, "next plan": system.next_plan, "frame start": system.frame_start,
        "halted": system.halted,
    }


def inner_sheet(system: System, members: set[int]) -> dict:
    """More than is asked for: every member's sheet, and the channels that members write."""
    tables = system.tables
    sheets = {member: sheet(system, member) for member in members}
    written = {port.channel: list(system.channels[port.channel]) for port in tables.ports
               if port.direction == Direction.SOURCE and port.partition in members}
    return {"members": sheets, "channels": written}


def whole_state(system: System) -> dict:
    """All that the system and its board hold."""
    partitions = range(len(system.partitions))
    return {"sheets": [sheet(system, partition) for partition in partitions],
            "channels": [list(messages) for messages in system.channels],
            "log": list(system.log)}


# Two histories that differ in outsiders' events alone


@dataclass
class Case:
    """A vector, a standard partition, its circle, and two boards that agree inside it."""

    vector: bytes
    tables: Tables
    partition: int
    members: set[int]
    boards: list[list[bytearray]]


def random_case(rng: Random) -> Case:
    """A case whose partition has outsiders."""
    while True:
        vector = encode.vector(design(rng, WHOLE))
        tables = check(vector)
        standard = [number for number, row in enumerate(tables.partitions) if not row.is_system]
        rng.shuffle(standard)
        for partition in standard:
            members = circles.circle(tables, partition)
            if len(members) < len(tables.partitions):
                boards = two_boards(rng, tables, members)
                return Case(vector, tables, partition, members, boards)


def two_boards(rng: Random, tables: Tables, members: set[int]) -> list[list[bytearray]]:
    first = [bytearray(rng.randbytes(size)) for size in tables.area_sizes()]
    second = [bytearray(area if number in members else rng.randbytes(len(area)))
              for number, area in enumerate(first)]
    return [first, second]


class Outsider(Player):
    """Goes on with a history by outsiders' events alone."""

    def __init__(self, rng: Random, case: Case, board: list[bytearray]):
        super().__init__(rng, case.vector, WHOLE, board)
        self.outsiders = [number for number in range(len(case.tables.partitions))
                          if number not in case.members]
        self.lines = [line for line, partition in case.tables.lines.items()
                      if partition in self.outsiders]

    def disturb(self) -> None:
        """Some events of outsiders, as the present state allows them."""
        for _ in range(self.rng.choice((0, 0, 1, 2, 5))):
            if self.running() in self.outsiders and self.rng.random() < 0.8:
                self.guest_event(self.running())
            elif self.lines and self.rng.random() < 0.5:
                self.send(Line(self.rng.choice(self.lines)))
            else:
                outsider = self.rng.choice(self.outsiders)
                event = self.stray(outsider)
                if owner(self.tables, event) in self.outsiders:
                    self.send(event)


@dataclass
class Record:
    """What one run shows: sheets at the start, after kept events and at the end."""

    sheets: list[dict]
    inner: list[dict]
    answers: list[str]


def replay(case: Case, board: list[bytearray], events: list[Event]) -> Record:
    system = System(case.tables, [bytearray(area) for area in board])
    record = Record([sheet(system, case.partition)], [inner_sheet(system, case.members)], [])
    for event in events:
        answer = system.take(event)
        whose = owner(case.tables, event)
        if whose == case.partition:
            record.answers.append(f"{in_words(event)}: {answer}")
        if whose is None or whose in case.members:
            record.sheets.append(sheet(system, case.partition))
            record.inner.append(inner_sheet(system, case.members))
    record.sheets.append(sheet(system, case.partition))
    record.inner.append(inner_sheet(system, case.members))
    return record


def kept(case: Case, events: list[Event]) -> list[Event]:
    """The history with the outsiders' events struck out."""
    whose = [owner(case.tables, event) for event in events]
    return [event for event, number in zip(events, whose)
            if number is None or number in case.members]


def twin_histories(rng: Random, case: Case, length: int) -> list[list[Event]]:
    """Two histories that are equal once the outsiders' events are struck out."""
    first = Player(rng, case.vector, WHOLE, [bytearray(area) for area in case.boards[0]])
    first.play(length)
    second = Outsider(rng, case, [bytearray(area) for area in case.boards[1]])
    keep_some = rng.random() < 0.5
    for event in first.events:
        inside = kept(case, [event]) == [event]
        if inside:
            second.disturb()
        if inside or (keep_some and rng.random() < 0.5):
            second.send(event)
    second.disturb()
    assert kept(case, first.events) == kept(case, second.events)
    return [first.events, second.events]


def interference(rng: Random) -> str:
    """Runs one random case twice; says what differs, or nothing."""
    case = random_case(rng)
    histories = twin_histories(rng, case, rng.choice((30, 80, 150)))
    records = [replay(case, board, events) for board, events in zip(case.boards, histories)]
    if records[0].answers != records[1].answers:
        return "answers differ"
    if records[0].sheets != records[1].sheets:
        return "sheets differ"
    if records[0].inner != records[1].inner:
        return "the circle's inner state differs"
    return ""


class Isolation(unittest.TestCase):

    def test_outsiders_change_nothing(self):
        for seed in range(COUNT):
            self.assertEqual(interference(Random(f"isolation {seed}")), "", f"seed {seed}")

    def test_areas_change_by_their_owner_or_a_cold_reset_alone(self):
        for seed in range(COUNT):
            for event, system, before, after in played(Random(f"areas {seed}")):
                whose = owner(system.tables, event)
                if whose is None or cold_reset_by_system(system.tables, event):
                    continue
                for number, area in enumerate(before["sheets"]):
                    if number != whose:
                        self.assertEqual(area["area"], after["sheets"][number]["area"], seed)

    def test_refused_events_move_nothing(self):
        for seed in range(COUNT):
            for event, system, before, after in played(Random(f"refused {seed}")):
                if system.last_code < 0:
                    self.assertEqual(before, after, (seed, in_words(event)))

    def test_idle_means_no_unmasked_bit(self):
        """What makes waking by a signal and by a pending bit the same thing."""
        for seed in range(COUNT):
            for _, system, _, _ in played(Random(f"idle {seed}")):
                for partition in system.partitions:
                    self.assertFalse(partition.state == 2 and partition.has_unmasked_bit())


def cold_reset_by_system(tables: Tables, event: Event) -> bool:
    if not isinstance(event, Call) or not tables.is_system(event.partition):
        return False
    mode = {5: event.arguments[1], 23: event.arguments[0]}.get(event.number)
    return mode == 1


def played(rng: Random):
    """Every event of a random history, with the whole state before and after it."""
    vector = encode.vector(design(rng, WHOLE))
    areas = [bytearray(rng.randbytes(size)) for size in check(vector).area_sizes()]
    player = Player(rng, vector, WHOLE, [bytearray(area) for area in areas])
    player.play(rng.choice((30, 80)))
    system = System(player.tables, areas)
    before = whole_state(system)
    for event in player.events:
        system.last_code = system.take(event).code
        after = whole_state(system)
        yield event, system, before, after
        before = after


if __name__ == "__main__":
    if len(sys.argv) > 1:
        COUNT = int(sys.argv.pop(1))
    unittest.main()

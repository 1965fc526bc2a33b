#!/usr/bin/env python3
"""Tests of the model itself: worked examples, a few rules at a time.

    python3 test_model.py              all tests, those of the other test files too
"""

from __future__ import annotations

import unittest
from random import Random

import encode
import script
from calls import CALL_COUNT
from circle import circle, circle_mask
from design import design
from dramas import FOUR, A, B, S, T
from events import Answer, Call, Fault, Line, Load, Store, SystemFault, Tick
from limits import WHOLE
from machine import System, boot
from stage import Stage
from state import State
from test_isolation import Isolation  # noqa: F401, its tests run with these
from test_refusals import Refusals  # noqa: F401
from vector import ChannelType, Tables, VectorRefused, check

EXAMPLE = bytes.fromhex(
    "020001000101 0400020000100041 04000300E8030000 090004000000000000E8030000")


def refusal(vector: bytes, limits=WHOLE) -> tuple[int, int] | None:
    """Number and place of a vector's refusal; None if it is taken."""
    try:
        check(vector, limits)
    except VectorRefused as refused:
        return int(refused.number), refused.place
    return None


class WorkedExamples(unittest.TestCase):

    def test_script(self):
        events = [Tick(5), Call(0, 0), Load(0, 16), Call(0, 0)]
        lines = "0 0 0\n0 5 0\n1 0 0\n-9 0 0\n"
        run = script.run(encode.script(EXAMPLE, events), WHOLE)
        self.assertEqual(run.text(), f"fenced\n{lines}paged\n{lines}")

    def test_example_vector(self):
        self.assertIsNone(refusal(EXAMPLE))
        self.assertEqual(refusal(EXAMPLE[:34]), (12, 22))
        self.assertEqual(refusal(b""), (16, 0))

    def test_slot_that_does_not_fit(self):
        duration = EXAMPLE[:31] + (1_001).to_bytes(4, "little")
        self.assertEqual(refusal(duration), (33, 22))
        partition = EXAMPLE[:26] + b"\x01" + EXAMPLE[27:]
        self.assertEqual(refusal(partition), (21, 26))

    def test_slots_with_a_gap(self):
        system = boot(check(encode.vector([
            encode.header(2, 1), encode.partition(0, 1, b"A"), encode.partition(0, 1, b"B"),
            encode.plan(20_000), encode.slot(0, 0, 10_000), encode.slot(1, 15_000, 5_000)])))
        for moment, partition in ((9_999, 0), (10_000, None), (14_999, None), (15_000, 1),
                                  (19_999, 1), (20_000, 0)):
            system.take(Tick(moment))
            self.assertEqual(system.slot_partition(), partition)

    def test_circle(self):
        tables = check(encode.vector([
            encode.header(3, 1), *(encode.partition(0, 1, name) for name in (b"A", b"B", b"C")),
            encode.plan(3), *(encode.slot(number, number, 1) for number in range(3)),
            encode.channel(1, 1, 1), encode.port(0, 0, b"out"), encode.port(1, 1, b"in"),
            encode.ipvi(0, 2, 0b001)]))
        self.assertEqual(circle(tables, 1), {0, 1, 2})
        self.assertEqual(circle(tables, 2), {2})
        self.assertEqual(circle_mask(tables, 1), 0b111)
        self.assertEqual(circle_mask(tables, 2), 0b100)
        self.assertIsNone(circle(tables, 3))

    def test_bad_scripts(self):
        for data in (b"", b"\0", b"\1\0", encode.script(EXAMPLE, [Tick(1)])[:-1],
                     encode.script(EXAMPLE, []) + encode.framed(39, b"\0"),
                     encode.script(EXAMPLE, []) + encode.framed(32, bytes(5)), bytes(32_769)):
            self.assertEqual(script.run(data).text(), "bad\n")

    def test_script_without_events(self):
        self.assertEqual(script.run(encode.script(EXAMPLE, [])).text(), "fenced\npaged\n")
        self.assertEqual(script.run(encode.script(b"", [])).text(), "refused 16 0\n")


class Circles(unittest.TestCase):
    """The circle against its meaning: of all closed sets, the one inside every other."""

    def test_least_closed_set(self):
        for seed in range(150):
            tables = check(encode.vector(design(Random(seed), WHOLE)))
            everyone = range(len(tables.partitions))
            sets = [{member for member in everyone if mask >> member & 1}
                    for mask in range(1 << len(tables.partitions))]
            closed = [members for members in sets if is_closed(tables, members)]
            for partition in everyone:
                around = [members for members in closed if partition in members]
                self.assertEqual(circle(tables, partition), set.intersection(*around), seed)


def is_closed(tables: Tables, members: set[int]) -> bool:
    """Holds every system partition, and whoever can reach a member."""
    systems = {number for number, row in enumerate(tables.partitions) if row.is_system}
    if not systems <= members:
        return False
    for channel in tables.channels:
        writer, *readers = (tables.ports[number].partition for number in channel.ports)
        if members & set(readers) and writer not in members:
            return False
        if channel.type == ChannelType.QUEUING and writer in members and readers[0] not in members:
            return False
    return all(source in members for (_, source), mask in tables.ipvis.items()
               if any(mask >> member & 1 for member in members))


class Rules(unittest.TestCase):
    """Single rules, on the vector with four partitions."""

    def setUp(self):
        self.stage = Stage(encode.vector(FOUR))
        self.system = self.stage.system

    def state(self, partition: int) -> State:
        return self.system.partitions[partition].state

    def test_idle_wakes_when_its_slot_starts(self):
        self.stage.call_by(A, 6)
        self.stage.tick_by(5)
        self.assertEqual(self.state(A), State.IDLE)
        self.stage.send(Tick(59))
        self.assertEqual(self.state(A), State.IDLE)
        self.stage.send(Tick(60))
        self.assertEqual(self.state(A), State.READY)

    def test_only_an_unmasked_signal_wakes(self):
        self.stage.call_by(A, 6)
        self.stage.send(Line(0))
        self.assertEqual(self.state(A), State.IDLE)
        self.stage.call_by(A, 20, 0xFFFF_FFFF)
        self.stage.call(A, 19, 1 << 16)
        self.stage.call(A, 6)
        self.stage.send(Line(0))
        self.assertEqual(self.state(A), State.READY)
        self.stage.call(A, 6)
        self.assertEqual(self.state(A), State.READY)

    def test_plan_changes_between_frames(self):
        self.assertEqual(self.stage.call(S, 8), Answer(0, 0, 15))
        self.stage.call(S, 7, 1)
        self.stage.send(Tick(49))
        self.assertEqual((self.system.plan, self.system.next_plan), (0, 1))
        self.stage.send(Tick(50))
        self.assertEqual((self.system.plan, self.system.frame_start), (1, 50))
        self.assertEqual(self.stage.call_by(S, 8), Answer(1, 1, 7))

    def test_full_log_drops_its_oldest(self):
        for moment in range(40):
            self.stage.send(Tick(moment))
            self.stage.send(SystemFault(8))
        self.assertEqual(self.stage.call_by(S, 22), Answer(31, 8, 255 + 256 * 8))

    def test_cold_system_reset_by_a_fault_leaves_no_entry(self):
        self.stage.send(SystemFault(8))
        self.assertEqual(self.stage.send(SystemFault(10)), Answer(5))
        self.assertEqual(self.stage.call(S, 22), Answer(-7))

    def test_resets_and_areas(self):
        self.stage.seat(A)
        self.stage.send(Store(A, 5, 9))
        self.stage.call(A, 5, A, 0)
        self.assertEqual(self.stage.send(Load(A, 5)), Answer(0, 9))
        self.stage.call(A, 5, A, 1)
        self.assertEqual(self.stage.send(Load(A, 5)), Answer())

    def test_fault_actions_and_codes(self):
        self.stage.seat(A)
        for event in (0, 1, 4, 5):
            self.assertEqual(self.stage.send(Fault(A, event)), Answer(event))
        self.assertEqual(self.stage.send(Fault(A, 7)), Answer(-3))
        self.assertEqual(self.stage.call(A, 21), Answer(1))
        self.assertEqual(self.stage.send(Fault(A, 2)), Answer(2))
        self.assertEqual(self.state(A), State.SUSPENDED)

    def test_refusals_keep_their_order(self):
        self.stage.seat(B)
        self.assertEqual(self.stage.call(B, 7, 2), Answer(-3))
        self.assertEqual(self.stage.call(B, 7, 1), Answer(-4))
        self.assertEqual(self.stage.call(B, 4, A), Answer(-4))
        self.assertEqual(self.stage.call(B, 4, B), Answer(-1))
        self.assertEqual(self.stage.call(T, CALL_COUNT), Answer(-9))
        self.assertEqual(self.stage.call(B, CALL_COUNT), Answer(-2))

    def test_halted_system_refuses_everything(self):
        self.stage.call(S, 24)
        for event in (Tick(1), Call(S, 0), Load(A, 0), Line(99), SystemFault(0)):
            self.assertEqual(self.stage.send(event), Answer(-10))

    def test_board_that_does_not_fit(self):
        areas = [bytearray(size) for size in self.stage.tables.area_sizes()]
        areas[2].append(0)
        self.assertTrue(System(self.stage.tables, areas).halted)
        self.assertTrue(System(self.stage.tables, areas[:2]).halted)


class Designs(unittest.TestCase):

    def test_designed_vectors_are_taken(self):
        for seed in range(500):
            vector = encode.vector(design(Random(seed), WHOLE))
            self.assertIsNone(refusal(vector, WHOLE), seed)


if __name__ == "__main__":
    unittest.main()

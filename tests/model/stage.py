"""A history that is written while a model runs along with it.

Whoever writes a history asks the model where things stand: when a partition will
be on the processor, which ports are open, what waits in a queue.
"""

from __future__ import annotations

from events import Answer, Call, Event, Store, Tick
from limits import WHOLE, Limits
from machine import FARTHEST, System, boot
from state import State
from vector import check


class Stage:
    """The events so far, and a system that has taken them."""

    def __init__(self, vector: bytes, limits: Limits = WHOLE,
                 areas: list[bytearray] | None = None):
        self.vector = vector
        self.tables = check(vector, limits)
        self.system = System(self.tables, areas, limits) if areas else boot(self.tables, limits)
        self.events: list[Event] = []

    def send(self, event: Event) -> Answer:
        self.events.append(event)
        return self.system.take(event)

    def call(self, partition: int, number: int, *arguments: int) -> Answer:
        padded = tuple(arguments) + (0,) * (5 - len(arguments))
        return self.send(Call(partition, number, padded))

    def tick_by(self, microseconds: int) -> None:
        """Lets time pass, in several ticks if one cannot reach so far."""
        while microseconds > 0:
            part = min(microseconds, FARTHEST)
            self.send(Tick(self.system.now + part))
            microseconds -= part

    def stretches(self, partition: int) -> list[tuple[int, int]]:
        """First and last moments of the partition's slots, soon to come or running.

        They reach to the end of the next frame.  A slot that runs already does not
        count for an IDLE partition, which only wakes when one starts.
        """
        system = self.system
        frames = [(system.frame_start, self.tables.plans[system.plan])]
        frames.append((system.frame_start + frames[0][1].frame,
                       self.tables.plans[system.next_plan]))
        idle = system.partitions[partition].state == State.IDLE
        found = []
        for start, plan in frames:
            for slot in plan.slots:
                first, last = start + slot.start, start + slot.end - 1
                if slot.partition != partition or last < system.now:
                    continue
                if first <= system.now and idle:
                    continue
                found.append((max(first, system.now), last))
        return found

    def can_run(self, partition: int) -> bool:
        return self.system.partitions[partition].state in (State.READY, State.IDLE)

    def seat(self, partition: int) -> None:
        """Lets time pass until the partition is on the processor."""
        if not self.system.on_processor(partition):
            self.tick_by(self.stretches(partition)[0][0] - self.system.now)
        assert self.system.on_processor(partition)

    def call_by(self, partition: int, number: int, *arguments: int) -> Answer:
        """A call at the next moment when the partition is on the processor."""
        self.seat(partition)
        return self.call(partition, number, *arguments)

    def write(self, partition: int, address: int, data: bytes) -> None:
        """Stores the bytes that are not there yet."""
        area = self.system.areas[partition]
        for offset, byte in enumerate(data, address):
            if offset >= len(area) or area[offset] != byte:
                self.send(Store(partition, offset, byte))

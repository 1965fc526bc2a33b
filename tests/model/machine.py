"""The machine: a booted system that takes events one at a time.

Time passes microsecond by microsecond, even where nothing happens.  An event that
is refused leaves everything as it was: every refusal is raised before the first
change.
"""

from __future__ import annotations

from collections import deque

import calls
from events import (Answer, Call, Event, Fault, Line, Load, Refusal, Refused, Store,
                    SystemFault, Tick, Time)
from limits import WHOLE, Limits
from state import (FAULT_BIT, FIRST_LINE_BIT, MEM_PROTECTION, PARTITION_ERROR, Action,
                   LogEntry, Message, Mode, Partition, State)
from vector import SYSTEM_EVENTS, SYSTEM_SCOPE, Decision, Offset, Tables

FARTHEST: Time = 1_000_000  # ahead of now
LOG_LENGTH = 32
LINES = 16

DEFAULT_DECISIONS = {
    0: Decision(1, False),
    1: Decision(1, True),
    2: Decision(1, False),
    3: Decision(1, True),
    4: Decision(1, False),
    5: Decision(2, True),
    6: Decision(2, True),
    7: Decision(3, True),
    8: Decision(0, True),
    9: Decision(0, True),
    10: Decision(4, True),
    11: Decision(0, True),
}


class System:
    """A booted system.  It owns the areas: one list of bytes for each partition."""

    def __init__(self, tables: Tables, areas: list[bytearray], limits: Limits = WHOLE):
        self.tables = tables
        self.areas = areas
        self.limits = limits
        self.now: Time = 0
        self.plan = 0
        self.next_plan = 0
        self.frame_start: Time = 0
        self.log: deque[LogEntry] = deque(maxlen=LOG_LENGTH)  # a full one drops its oldest
        self.halted = not self.board_fits()
        self.partitions = [Partition() for _ in tables.partitions]
        self.channels: list[deque[Message]] = [deque() for _ in tables.channels]
        # For each plan, the partition whose slot starts at an offset in the frame.
        self.slot_starts: list[dict[Offset, int]] = [
            {slot.start: slot.partition for slot in plan.slots} for plan in tables.plans]

    def board_fits(self) -> bool:
        sizes = self.tables.area_sizes()
        return [len(area) for area in self.areas[:len(sizes)]] == sizes

    # Events

    def take(self, event: Event) -> Answer:
        """Takes one event and answers it, with the code of the refusal if refused."""
        try:
            return self.decide(event)
        except Refused as refused:
            return Answer(refused.code)

    def decide(self, event: Event) -> Answer:
        """Takes one event; raises Refused if it has to be refused."""
        if self.halted:
            raise Refused(Refusal.SYSTEM_HALTED, "system halted")
        match event:
            case Tick(time):
                return self.tick(time)
            case Call(partition, number, arguments):
                return self.call(partition, number, arguments)
            case Load(partition, offset):
                return self.load(partition, offset)
            case Store(partition, offset, byte):
                return self.store(partition, offset, byte)
            case Fault(partition, number):
                return self.guest_fault(partition, number)
            case Line(line):
                return self.line(line)
            case SystemFault(number):
                return self.system_fault(number)
        raise TypeError(event)

    # Time

    def tick(self, time: Time) -> Answer:
        if time < self.now:
            raise Refused(Refusal.WRONG_TIME, "tick before now")
        if time > self.now + FARTHEST:
            raise Refused(Refusal.WRONG_TIME, "tick too far ahead")
        while self.now != time:
            self.pass_microsecond()
        return Answer()

    def pass_microsecond(self) -> None:
        self.now += 1
        if self.now - self.frame_start >= self.tables.plans[self.plan].frame:
            self.plan = self.next_plan
            self.frame_start = self.now
        starting = self.slot_starts[self.plan].get(self.now - self.frame_start)
        if starting is not None:
            self.partitions[starting].start_slot()

    def slot_partition(self) -> int | None:
        """The partition that the present slot names, if there is a slot."""
        offset = self.now - self.frame_start
        for slot in self.tables.plans[self.plan].slots:
            if slot.start <= offset < slot.end:
                return slot.partition
        return None

    def on_processor(self, partition: int) -> bool:
        return (self.slot_partition() == partition
                and self.partitions[partition].state == State.READY)

    def require_on_processor(self, partition: int) -> None:
        if not self.on_processor(partition):
            raise Refused(Refusal.NOT_ON_PROCESSOR, "not on the processor")

    # Guests

    def call(self, caller: int, number: int, arguments: tuple[int, ...]) -> Answer:
        self.require_on_processor(caller)
        if number >= calls.CALL_COUNT:
            raise Refused(Refusal.NO_SUCH_CALL, "no such call")
        return calls.CALLS[number](self, caller, arguments)

    def load(self, partition: int, offset: int) -> Answer:
        self.require_on_processor(partition)
        area = self.areas[partition]
        if offset < len(area):
            return Answer(0, area[offset])
        self.fault(partition, MEM_PROTECTION)
        return Answer(1)

    def store(self, partition: int, offset: int, byte: int) -> Answer:
        self.require_on_processor(partition)
        area = self.areas[partition]
        if offset < len(area):
            area[offset] = byte
            return Answer()
        self.fault(partition, MEM_PROTECTION)
        return Answer(1)

    def guest_fault(self, partition: int, number: int) -> Answer:
        self.require_on_processor(partition)
        if number >= PARTITION_ERROR:
            raise Refused(Refusal.NO_SUCH_THING, "fault number")
        return self.fault(partition, number)

    # Interrupts

    def line(self, line: int) -> Answer:
        if line >= LINES:
            raise Refused(Refusal.NO_SUCH_THING, "line number")
        if line not in self.tables.lines:
            raise Refused(Refusal.WRONG_STATE, "line without owner")
        self.signal(self.tables.lines[line], FIRST_LINE_BIT + line)
        return Answer()

    def signal(self, number: int, bit: int) -> None:
        partition = self.partitions[number]
        if partition.state == State.HALTED:
            return
        partition.pending |= 1 << bit
        if partition.state == State.IDLE and partition.has_unmasked_bit():
            partition.state = State.READY

    # The health monitor

    def decision(self, scope: int, event: int) -> Decision:
        return self.tables.actions.get((scope, event), DEFAULT_DECISIONS[event])

    def decide_and_log(self, scope: int, event: int) -> Action:
        """The action for an event; the log has it before it is carried out."""
        decision = self.decision(scope, event)
        if decision.log:
            self.log.append(LogEntry(self.now, scope, event, decision.action))
        return Action(decision.action)

    def fault(self, partition: int, event: int) -> Answer:
        action = self.decide_and_log(partition, event)
        match action:
            case Action.SIGNAL:
                self.signal(partition, FAULT_BIT)
            case Action.SUSPEND:
                self.suspend(partition)
            case Action.HALT:
                self.halt(partition)
            case Action.WARM_RESET:
                self.reset(partition, Mode.WARM)
            case Action.COLD_RESET:
                self.reset(partition, Mode.COLD)
        return Answer(action)

    def system_fault(self, event: int) -> Answer:
        if event not in SYSTEM_EVENTS:
            raise Refused(Refusal.NO_SUCH_THING, "system fault number")
        action = self.decide_and_log(SYSTEM_SCOPE, event)
        match action:
            case Action.HALT:
                self.halt_system()
            case Action.WARM_RESET:
                self.reset_system(Mode.WARM)
            case Action.COLD_RESET:
                self.reset_system(Mode.COLD)
        return Answer(action)

    # What calls and faults do to a partition or to the system

    def suspend(self, partition: int) -> None:
        self.partitions[partition].state = State.SUSPENDED

    def halt(self, partition: int) -> None:
        self.partitions[partition].clear()
        self.partitions[partition].state = State.HALTED

    def reset(self, partition: int, mode: Mode) -> None:
        self.partitions[partition].clear()
        self.partitions[partition].state = State.READY
        if mode == Mode.COLD:
            area = self.areas[partition]
            area[:] = bytes(len(area))

    def halt_system(self) -> None:
        self.halted = True

    def reset_system(self, mode: Mode) -> None:
        for partition in range(len(self.partitions)):
            self.reset(partition, mode)
        for messages in self.channels:
            messages.clear()
        self.plan = 0
        self.next_plan = 0
        self.frame_start = self.now
        if mode == Mode.COLD:
            self.log.clear()


def boot(tables: Tables, limits: Limits = WHOLE) -> System:
    """Boots on a board whose areas fit and hold zeros."""
    return System(tables, [bytearray(size) for size in tables.area_sizes()], limits)

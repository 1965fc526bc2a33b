"""Directed histories that need the whole rules: two system partitions, two standard ones."""

from __future__ import annotations

import encode
from calls import CALL_COUNT
from events import Call, Fault, Line, Load, Store, SystemFault, Tick
from machine import FARTHEST
from stage import Stage
from vector import ChannelType

WORD = 0xFFFF_FFFF

S, A, B, T = 0, 1, 2, 3  # S and T are system partitions
EVERYONE = (S, A, B, T)
NOBODY = 4

# Port numbers
SAMPLE_OUT, SAMPLE_B, SAMPLE_S, QUEUE_OUT, QUEUE_IN, SINGLE_OUT, SINGLE_IN = range(7)

FOUR = [
    encode.header(4, 2),
    encode.partition(1, 64, b"S"),
    encode.partition(0, 64, b"A"),
    encode.partition(0, 48, b"B"),
    encode.partition(1, 20, b"T"),
    encode.plan(50),
    encode.slot(S, 0, 10),
    encode.slot(A, 10, 10),
    encode.slot(B, 20, 10),
    encode.slot(T, 35, 5),
    encode.plan(30),
    encode.slot(S, 5, 5),
    encode.slot(A, 12, 3),
    encode.slot(B, 15, 5),
    encode.slot(T, 20, 10),
    encode.channel(ChannelType.SAMPLING, 4, 1),
    encode.port(A, 0, b"sample"),
    encode.port(B, 1, b"sample"),
    encode.port(S, 1, b"s"),
    encode.channel(ChannelType.QUEUING, 8, 2),
    encode.port(A, 0, b"queue"),
    encode.port(B, 1, b"q"),
    encode.channel(ChannelType.QUEUING, 1, 1),
    encode.port(B, 0, b"single"),
    encode.port(S, 1, b"single"),
    encode.ipvi(0, A, 1 << B),
    encode.ipvi(1, A, 0),
    encode.ipvi(7, S, 1 << A | 1 << B | 1 << T),
    encode.ipvi(0, T, 1 << A),
    encode.line(0, A),
    encode.line(15, B),
    encode.line(3, T),
    *(encode.action(A, event, event, event & 1) for event in range(6)),
    encode.action(A, 6, 4, 1),
    encode.action(A, 7, 1, 1),
    encode.action(B, 6, 5, 0),
    encode.action(B, 7, 4, 0),
    encode.action(S, 7, 0, 1),
    encode.action(S, 6, 0, 0),
    encode.action(T, 6, 1, 1),
    encode.action(255, 9, 4, 0),
    encode.action(255, 10, 5, 1),
    encode.action(255, 11, 3, 1),
]


# Small steps


def open_all(stage: Stage) -> None:
    """Everybody opens every port they have."""
    for port in range(7):
        open_one(stage, port)


def open_one(stage: Stage, number: int) -> None:
    port = stage.tables.ports[number]
    channel = stage.tables.channels[port.channel]
    stage.seat(port.partition)
    stage.write(port.partition, 10, port.name)
    opening = 9 if channel.type == ChannelType.SAMPLING else 12
    stage.call(port.partition, opening, 10, len(port.name), channel.longest, port.direction,
               channel.depth)


def inspect(stage: Stage, *partitions: int) -> None:
    """Asks for a partition's interrupts, the plan, and everybody's state."""
    for partition in partitions or EVERYONE:
        if stage.can_run(partition):
            stage.call_by(partition, 17)
            stage.call(partition, 8)
            for target in EVERYONE:
                stage.call(partition, 1, target)


def dump(stage: Stage, partition: int) -> None:
    stage.seat(partition)
    for offset in range(stage.tables.partitions[partition].area_size):
        stage.send(Load(partition, offset))


def drain_log(stage: Stage, reader: int = S) -> None:
    stage.seat(reader)
    while stage.call(reader, 22).code >= 0:
        pass


# Partitions


def targets_and_rights(stage: Stage) -> None:
    for caller in EVERYONE:
        for number in (1, 4, 3, 4, 5, 2):
            for target in (*EVERYONE, NOBODY, 256 + caller, WORD):
                for mode in (0, 1, 2, WORD) if number == 5 else (0,):
                    stage.seat(caller)
                    stage.call(caller, number, target, mode)
                    if not stage.can_run(caller):
                        stage.send(SystemFault(9))
        inspect(stage)
        stage.send(SystemFault(9))


def every_state_meets_every_call(stage: Stage) -> None:
    """A target is put into each state, and each call is tried on it there."""
    for number in (1, 2, 3, 4, 5):
        for prepare in (None, 6, 3, 2):
            if prepare == 6:
                stage.call_by(A, 6)
            elif prepare:
                stage.call_by(S, prepare, A)
            stage.seat(T)
            stage.call(T, number, A, 1)
            stage.call(T, 1, A)
            stage.call(T, 4, A)
            stage.call(T, 1, A)
            stage.call_by(S, 5, A, 0)


def warm_and_cold_reset(stage: Stage) -> None:
    for mode in (0, 1):
        open_all(stage)
        stage.call_by(A, 19, 0x0001_0000)
        stage.send(Line(0))
        stage.call(A, 17)
        stage.call_by(S, 5, A, mode)
        inspect(stage, A)
        dump(stage, A)
        stage.call(A, 10, SAMPLE_OUT, 0, 1)
        stage.call_by(B, 5, B, mode)
        stage.call(B, 17)
        stage.call(B, 11, SAMPLE_B, 0, 4)
        dump(stage, B)


def stopping_oneself(stage: Stage) -> None:
    for number in (2, 3, 6):
        stage.call_by(A, number, A)
        stage.call(A, 0)
        stage.call_by(S, 1, A)
        stage.tick_by(100)
        stage.call_by(S, 1, A)
        stage.call(S, 5, A, 0)
    stage.call_by(S, 2, S)
    stage.call(S, 0)
    stage.call_by(T, 5, S, 1)
    stage.call_by(S, 0)


# IDLE


def idle_until_the_slot_starts(stage: Stage) -> None:
    stage.call_by(A, 6)
    stage.call(A, 0)
    stage.send(Tick(stage.system.now + 5))  # still in the same slot
    stage.call(A, 0)
    stage.call_by(S, 1, A)
    stage.call_by(A, 0)
    stage.call_by(S, 6)
    stage.call_by(T, 1, S)
    stage.call_by(S, 0)


def idle_until_a_signal(stage: Stage) -> None:
    """By a line, an IPVI and a message; the bit has to be unmasked."""
    open_one(stage, QUEUE_OUT)
    open_one(stage, QUEUE_IN)
    wakers = ((15, lambda: stage.send(Line(15)), 31), (0, lambda: stage.call_by(A, 16, 0), 0),
              (0, lambda: stage.call_by(A, 13, QUEUE_OUT, 0, 1), 8))
    for _, wake, bit in wakers:
        for unmasked in (0, 1 << bit, WORD):
            stage.call_by(B, 20, WORD)
            stage.call(B, 18, WORD)
            stage.call(B, 19, unmasked)
            stage.call(B, 6)
            wake()
            stage.call_by(T, 1, B)
            stage.call_by(B, 17)
            stage.call(B, 14, QUEUE_IN, 0, 8)


def idle_within_the_slot(stage: Stage) -> None:
    """A signal brings the partition back onto the processor in the same slot."""
    stage.call_by(A, 19, 0x0001_0000)
    stage.call(A, 6)
    stage.call(A, 0)
    stage.send(Line(0))
    stage.call(A, 0)
    stage.call(A, 17)
    stage.call(A, 6)  # a bit is pending, so this changes nothing
    stage.call(A, 0)
    stage.call(A, 18, 0x0001_0000)
    stage.call(A, 6)  # now the bit is hidden
    stage.call(A, 0)
    stage.send(Line(0))
    stage.call(A, 0)


def suspended_and_halted_get_signals(stage: Stage) -> None:
    open_all(stage)
    for stop, back in ((3, 4), (2, 5), (3, 5)):
        stage.call_by(S, stop, B)
        stage.send(Line(15))
        stage.call_by(A, 16, 0)
        stage.call(A, 10, SAMPLE_OUT, 0, 2)
        stage.call(A, 13, QUEUE_OUT, 0, 2)
        stage.call_by(S, back, B)
        stage.call_by(B, 17)
        stage.call(B, 15, QUEUE_IN)
        stage.call(B, 14, QUEUE_IN, 0, 8)
    stage.call_by(B, 6)
    stage.call_by(S, 3, B)
    stage.call(S, 1, B)
    stage.call(S, 4, B)
    stage.call(S, 1, B)


# Plans


def plans_switch_at_the_frame_end(stage: Stage) -> None:
    for plan in (1, 0, 1, 1, 0):
        stage.call_by(S, 7, plan)
        stage.call(S, 8)
        for _ in range(12):
            stage.send(Tick(stage.system.now + 5))
            for caller in EVERYONE:
                stage.call(caller, 8)
    for plan in (2, 3, 256, WORD, 0, 1):
        stage.call_by(A, 7, plan)
        stage.call_by(T, 7, plan)
    stage.call_by(A, 8)


def reset_within_a_frame(stage: Stage) -> None:
    """A system reset starts plan 0 anew at the present moment."""
    for reset in (lambda: stage.call_by(S, 23, 0), lambda: stage.send(SystemFault(9)),
                  lambda: stage.call_by(T, 23, 1), lambda: stage.send(SystemFault(10))):
        stage.call_by(S, 7, 1)
        stage.seat(T)
        stage.call(T, 7, 0)
        stage.call(T, 8)
        stage.tick_by(3)
        reset()
        for _ in range(11):
            for caller in EVERYONE:
                stage.call(caller, 8)
            stage.tick_by(5)


# Ports


def opening_ports(stage: Stage) -> None:
    for caller, number, name, longest, direction, depth in (
            (A, 9, b"sample", 4, 0, 99), (A, 12, b"queue", 8, 0, 2), (B, 9, b"sample", 4, 1, 0),
            (B, 12, b"q", 8, 1, 2), (B, 12, b"single", 1, 0, 1), (S, 12, b"single", 1, 1, 1),
            (S, 9, b"s", 4, 1, 7)):
        stage.seat(caller)
        size = stage.tables.partitions[caller].area_size
        stage.write(caller, 0, name)
        right = (0, len(name), longest, direction, depth)
        wrong = [(1, 2), (0, size), (WORD, 0), (1, 0), (1, len(name) - 1), (1, len(name) + 1),
                 (1, WORD), (2, longest + 1), (2, 0), (2, longest + 65_536), (3, 1 - direction),
                 (3, 2), (3, 256 + direction), (3, WORD), (4, depth + 1), (4, 0), (4, depth + 256)]
        for index, value in wrong:
            if index < 5 and not (number == 9 and index == 4):
                stage.call(caller, number, *right[:index], value, *right[index + 1:])
        stage.call(caller, 21 - number, *right)  # the other type's call
        stage.call(caller, number, WORD, len(name), longest, direction, depth)
        stage.call(caller, number, WORD, 1, longest, direction, depth)
        stage.call(caller, number, 0, size + 1, longest, direction, depth)
        stage.call(caller, number, size, 0, longest, direction, depth)
        stage.call(caller, number, size + 1, 0, longest, direction, depth)
        for _ in range(2):
            stage.seat(caller)
            stage.call(caller, number, *right)
        stage.call(caller, number, *right[:2], longest + 1, direction, depth)
    stage.seat(T)
    stage.write(T, 0, b"sample")
    stage.call(T, 9, 0, 6, 4, 1)


def names_at_the_edges(stage: Stage) -> None:
    """A name that ends where the area ends, and one byte further."""
    stage.seat(B)
    stage.write(B, 42, b"sample")
    stage.call(B, 9, 43, 6, 4, 1)
    stage.call(B, 9, 42, 7, 4, 1)
    stage.call(B, 9, 42, 5, 4, 1)
    stage.call(B, 9, 42, 6, 4, 1)


def sampling(stage: Stage) -> None:
    open_all(stage)
    stage.seat(S)
    stage.call(S, 11, SAMPLE_S, 0, 4)
    stage.call(S, 11, SAMPLE_S, 0, 0)
    stage.seat(A)
    stage.write(A, 20, b"\x81\x82\x83\x84\x85")
    for port, address, length in (
            (SAMPLE_OUT, 20, 0), (SAMPLE_OUT, 20, 5), (SAMPLE_OUT, 61, 4), (SAMPLE_OUT, WORD, 1),
            (SAMPLE_OUT, WORD - 3, 4), (SAMPLE_OUT, 64, 1), (SAMPLE_OUT, 0, WORD),
            (SAMPLE_OUT, 20, 256 + 3), (SAMPLE_B, 20, 3), (QUEUE_OUT, 20, 3), (7, 20, 3),
            (WORD, 20, 3), (256, 20, 3), (SAMPLE_OUT, 60, 4), (SAMPLE_OUT, 20, 3)):
        stage.call(A, 10, port, address, length)
    stage.call(A, 11, SAMPLE_OUT, 0, 4)
    inspect(stage, S, B)
    for reader, port in ((S, SAMPLE_S), (B, SAMPLE_B)):
        size = stage.tables.partitions[reader].area_size
        stage.seat(reader)
        stage.call(reader, 10, port, 0, 1)
        for address, length in ((0, 2), (0, 0), (size - 2, 3), (size, 0), (size + 1, 0), (WORD, 3),
                                (WORD - 2, 3), (0, WORD), (0, size), (size - 3, 3), (30, 64 - 30),
                                (5, 3)):
            stage.call(reader, 11, port, address, length)
        for other in (SAMPLE_OUT, QUEUE_IN, SINGLE_IN, SINGLE_OUT, 7, WORD):
            stage.call(reader, 11, other, 0, 4)
            stage.call(reader, 10, other, 0, 1)
        dump(stage, reader)
    stage.seat(A)
    stage.call(A, 10, SAMPLE_OUT, 0, 1)  # a shorter one replaces it
    stage.call_by(B, 11, SAMPLE_B, 30, 1)
    dump(stage, B)
    stage.call_by(S, 2, A)  # the message outlives its sender
    stage.call(S, 11, SAMPLE_S, 0, 4)


def queuing(stage: Stage) -> None:
    open_all(stage)
    stage.seat(A)
    stage.write(A, 0, bytes(range(65, 65 + 12)))
    for port, address, length in ((QUEUE_OUT, 0, 0), (QUEUE_OUT, 0, 9), (QUEUE_OUT, 60, 5),
                                  (QUEUE_OUT, WORD, 1), (QUEUE_OUT, WORD - 7, 8),
                                  (QUEUE_IN, 0, 1), (SAMPLE_OUT, 0, 1), (7, 0, 1),
                                  (QUEUE_OUT, 0, 8), (QUEUE_OUT, 3, 1), (QUEUE_OUT, 0, 1),
                                  (QUEUE_OUT, 0, 0), (QUEUE_OUT, 64, 1)):
        stage.call(A, 13, port, address, length)
        stage.call(A, 15, QUEUE_OUT)
    stage.call(A, 14, QUEUE_OUT, 0, 8)
    for number in (15, 14):
        for port in (SAMPLE_OUT, QUEUE_IN, SINGLE_OUT, 7, 256 + QUEUE_OUT, WORD):
            stage.call(A, number, port, 0, 8)
    stage.seat(B)
    stage.call(B, 17)
    for port, address, length in ((QUEUE_IN, 0, 7), (QUEUE_IN, 0, 0), (QUEUE_IN, 41, 8),
                                  (QUEUE_IN, WORD, 8), (QUEUE_IN, WORD, 1), (QUEUE_IN, 0, WORD),
                                  (SINGLE_OUT, 0, 8), (SAMPLE_B, 0, 8), (QUEUE_OUT, 0, 8)):
        stage.call(B, 14, port, address, length)
        stage.call(B, 15, QUEUE_IN)
    stage.call(B, 13, QUEUE_IN, 0, 1)
    stage.call(B, 14, QUEUE_IN, 40, 8)
    stage.call(B, 14, QUEUE_IN, 0, 48)
    stage.call(B, 14, QUEUE_IN, 0, 48)
    stage.call(B, 14, QUEUE_IN, 0, 0)
    stage.call(B, 15, QUEUE_IN)
    dump(stage, B)


def queues_go_round(stage: Stage) -> None:
    """More messages than the queue is deep, each with its own time."""
    open_one(stage, QUEUE_OUT)
    open_one(stage, QUEUE_IN)
    for number in range(7):
        stage.seat(A)
        stage.send(Store(A, 0, 200 + number))
        stage.call(A, 13, QUEUE_OUT, 0, 1 + number % 3)
        stage.tick_by(1)
        stage.call(A, 13, QUEUE_OUT, 0, 2)
        stage.call(A, 15, QUEUE_OUT)
        stage.call_by(B, 14, QUEUE_IN, 20, 8)
        stage.send(Load(B, 20))
        if number % 2:
            stage.call(B, 14, QUEUE_IN, 20, 8)
            stage.call(B, 14, QUEUE_IN, 20, 8)


def closed_ports(stage: Stage) -> None:
    """Nobody sends or receives before opening, and a closed reader gets no signal."""
    for partition in (S, A, B):
        stage.seat(partition)
        for port in range(8):
            stage.call(partition, 10, port, 0, 1)
            stage.call(partition, 11, port, 0, 4)
            stage.call(partition, 13, port, 0, 1)
            stage.call(partition, 14, port, 0, 8)
            stage.call(partition, 15, port)
    open_one(stage, SAMPLE_OUT)
    open_one(stage, QUEUE_OUT)
    stage.call(A, 10, SAMPLE_OUT, 0, 1)
    stage.call(A, 13, QUEUE_OUT, 0, 1)
    stage.call_by(B, 17)
    open_one(stage, SAMPLE_B)
    stage.call_by(B, 17)
    stage.call(B, 11, SAMPLE_B, 0, 4)
    stage.call_by(A, 10, SAMPLE_OUT, 0, 1)
    stage.call_by(B, 17)
    stage.call_by(S, 17)
    stage.call_by(S, 5, A, 0)  # closes the sender's ports again
    stage.call_by(A, 10, SAMPLE_OUT, 0, 1)


def resets_and_channels(stage: Stage) -> None:
    """A partition's reset keeps what waits in the channels; the system's does not."""
    for reset in (lambda: stage.call_by(S, 5, A, 1), lambda: stage.call_by(S, 2, A),
                  lambda: stage.call_by(S, 23, 0), lambda: stage.send(SystemFault(10))):
        open_all(stage)
        stage.call_by(A, 13, QUEUE_OUT, 0, 3)
        stage.call(A, 10, SAMPLE_OUT, 0, 3)
        reset()
        open_all_of(stage, B)
        stage.call_by(B, 15, QUEUE_IN)
        stage.call(B, 11, SAMPLE_B, 0, 4)
        stage.call(B, 14, QUEUE_IN, 0, 8)
        stage.call_by(S, 5, A, 0)


def open_all_of(stage: Stage, partition: int) -> None:
    for number, port in enumerate(stage.tables.ports):
        if port.partition == partition:
            open_one(stage, number)


# Interrupts


def ipvis(stage: Stage) -> None:
    for caller in EVERYONE:
        for number in (*range(10), 256, 0x8000_0000, WORD):
            stage.call_by(caller, 16, number)
    inspect(stage)


def interrupt_words(stage: Stage) -> None:
    stage.seat(A)
    for bits in (WORD, 0, 1, 0x8000_0000, 0x0001_0200, 0xAAAA_AAAA):
        for number in (19, 18, 20):
            stage.send(Line(0))
            stage.send(Fault(A, 1))
            stage.call(A, number, bits)
            stage.call(A, 17)
    stage.call(A, 19, 0xFFFF_0000)
    stage.call(A, 19, 0x0000_00FF)
    stage.call(A, 18, 0x0101_0001)
    stage.call(A, 17)
    inspect(stage, B)


def every_line(stage: Stage) -> None:
    for line in (*range(18), 128, 255):
        stage.send(Line(line))
    inspect(stage)
    stage.call_by(S, 2, A)
    stage.send(Line(0))
    stage.call_by(S, 5, A, 0)
    stage.call_by(A, 17)


# The health monitor


def every_action(stage: Stage) -> None:
    """A's faults 0 to 5 have the actions of the same numbers."""
    for fault in (0, 1, 2, 3, 4, 5, 6, 7, 8, 255):
        stage.seat(A)
        stage.call(A, 19, 1)
        stage.write(A, 0, b"xy")
        stage.send(Fault(A, fault))
        stage.call(A, 17)
        stage.send(Load(A, 1))
        stage.call_by(S, 1, A)
        stage.call(S, 5, A, 0)
    drain_log(stage)


def accesses_outside(stage: Stage) -> None:
    for partition in (S, A, B, T):
        size = stage.tables.partitions[partition].area_size
        for offset in (size, size + 1, 1_024, 65_536, WORD):
            stage.seat(partition)
            stage.write(partition, 0, b"z")
            stage.send(Load(partition, offset))
            stage.send(Load(partition, 0))
            stage.send(Store(partition, offset, 9))
            stage.send(Load(partition, 0))
            stage.call(partition, 17)
    drain_log(stage)


def partition_errors(stage: Stage) -> None:
    for partition in EVERYONE:
        stage.seat(partition)
        stage.call(partition, 19, 1)
        stage.call(partition, 21)
        stage.call(partition, 17)
    inspect(stage)
    drain_log(stage)


def log_overflows(stage: Stage) -> None:
    """Forty entries: the oldest eight are gone."""
    for number in range(40):
        stage.seat(A)
        stage.send(Fault(A, 1))
        stage.tick_by(number % 3)
    stage.seat(A)
    stage.call(A, 22)
    drain_log(stage)
    stage.call(S, 22)
    for _ in range(33):
        stage.send(SystemFault(8))
    stage.call(S, 22)
    stage.send(SystemFault(8))
    stage.send(SystemFault(8))
    drain_log(stage)
    drain_log(stage, T)


def log_and_resets(stage: Stage) -> None:
    """A warm reset keeps the log, a cold one empties it, its own entry included."""
    for reset in (lambda: stage.call_by(S, 23, 0), lambda: stage.call_by(S, 23, 1),
                  lambda: stage.send(SystemFault(9)), lambda: stage.send(SystemFault(10))):
        stage.send(SystemFault(8))
        stage.seat(A)
        stage.send(Fault(A, 3))
        reset()
        stage.call_by(S, 22)
        stage.send(SystemFault(8))
        drain_log(stage)


def system_resets(stage: Stage) -> None:
    for number, mode in ((23, 0), (23, 1), (9, None), (10, None)):
        open_all(stage)
        stage.call_by(S, 3, B)
        stage.call(S, 2, T)
        stage.call(S, 7, 1)
        stage.call_by(A, 19, 7)
        stage.call(A, 6)
        stage.send(Line(0))
        for caller in (A, B):
            stage.call(caller, 23, 0)
        stage.seat(S)
        stage.call(S, 23, 2)
        stage.call(S, 23, WORD)
        if mode is None:
            stage.send(SystemFault(number))
        else:
            stage.call(S, number, mode)
        inspect(stage)
        dump(stage, A)
        dump(stage, S)
        stage.call_by(A, 23, 1)
        stage.call(A, 23, 2)


def after_the_halt(stage: Stage) -> None:
    """Every sort of event, and every call, of a halted system."""
    for number in (*range(CALL_COUNT + 1), 255):
        for caller in (S, A, NOBODY):
            stage.call(caller, number)
    for event in (Tick(0), Tick(stage.system.now), Tick(stage.system.now + 1), Tick(WORD),
                  Load(S, 0), Load(NOBODY, 0), Store(S, 0, 1), Store(S, WORD, 1), Fault(S, 0),
                  Fault(A, 9), Line(0), Line(1), Line(16), SystemFault(10), SystemFault(9),
                  SystemFault(12)):
        stage.send(event)


def halt_by_call(stage: Stage) -> None:
    stage.call_by(A, 24)
    stage.call_by(S, 24)
    after_the_halt(stage)


def halt_by_fault(stage: Stage) -> None:
    stage.tick_by(7)
    stage.send(SystemFault(11))
    after_the_halt(stage)


def not_on_the_processor(stage: Stage) -> None:
    for number in (*range(CALL_COUNT + 1), 255):
        for caller in (A, B, T, NOBODY, 7, 8, 255):
            stage.call(caller, number, *[WORD] * 5)
    for guest in (A, B, T, NOBODY, 8, 255):
        for event in (Load(guest, 0), Load(guest, WORD), Store(guest, 0, 1), Fault(guest, 0),
                      Fault(guest, 9), Call(guest, 0)):
            stage.send(event)
    dump(stage, A)


def time_goes_far(stage: Stage) -> None:
    """A long way at once: frames and plans pass, an idle partition wakes."""
    stage.call_by(S, 7, 1)
    stage.call_by(A, 6)
    stage.send(Tick(stage.system.now + FARTHEST + 1))
    stage.send(Tick(stage.system.now + FARTHEST))
    inspect(stage)


DRAMAS = (
    targets_and_rights, every_state_meets_every_call, warm_and_cold_reset, stopping_oneself,
    idle_until_the_slot_starts, idle_until_a_signal, idle_within_the_slot,
    suspended_and_halted_get_signals, plans_switch_at_the_frame_end, reset_within_a_frame,
    opening_ports, names_at_the_edges, sampling, queuing, queues_go_round, closed_ports,
    resets_and_channels, ipvis, interrupt_words, every_line, every_action, accesses_outside,
    partition_errors, log_overflows, log_and_resets, system_resets, halt_by_call, halt_by_fault,
    not_on_the_processor, time_goes_far,
)

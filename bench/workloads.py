#!/usr/bin/env python3
"""Makes the workloads of the benchmark: python3 bench/workloads.py FOLDER

Each workload is a configuration vector (NAME.vec, docs/VECTOR.md) and event records (NAME.rec, docs/SCRIPT.md).
FOLDER/index.tsv lists them: name, number of events, what it shows. The same bytes come out every time.
"""

import pathlib
import struct
import sys

# Events of a workload that repeats one call or one event.
EVENTS = 10_000
MIX_EVENTS = 20_000
LONG_EVENTS = {"long-100k": 100_000, "long-1m": 1_000_000}
# Ticks of one run: 4,000 times 1,000,000 microseconds stay below the 32 bits of the clock.
TICKS = 4_000
TICK_LENGTHS = [1, 10, 100, 1_000, 10_000, 100_000, 1_000_000]

SAMPLING, QUEUING = 0, 1
SOURCE, DESTINATION = 0, 1
STANDARD, SYSTEM = 0, 1
WARM, COLD = 0, 1
IGNORE, SIGNAL, SUSPEND, HALT, WARM_RESET, COLD_RESET = range(6)


# --- Records -----------------------------------------------------------------------------------------------------


def record(kind, layout, *values):
    body = struct.pack("<" + layout, *values)
    return struct.pack("<HH", len(body), kind) + body


def header(partitions, plans):
    return record(1, "BB", partitions, plans)


def partition(klass, size, name):
    return record(2, f"BH{len(name)}s", klass, size, name)


def plan(frame, slots):
    """A plan and its slots; a slot is partition, start, duration."""
    return record(3, "I", frame) + b"".join(record(4, "BII", *slot) for slot in slots)


def channel(kind, longest, depth, ports):
    """A channel and its ports; a port is partition and name, and the first one is the source."""
    records = record(5, "BHB", kind, longest, depth)
    for index, (owner, name) in enumerate(ports):
        direction = SOURCE if index == 0 else DESTINATION
        records += record(6, f"BB{len(name)}s", owner, direction, name)
    return records


def ipvi(number, source, mask):
    return record(7, "BBB", number, source, mask)


def line_owner(number, owner):
    return record(8, "BB", number, owner)


def action(scope, event, what, logged):
    return record(9, "BBBB", scope, event, what, logged)


def tick(time):
    return record(32, "I", time)


def call(caller, number, *arguments):
    spare = [0] * (5 - len(arguments))
    return record(33, "BB5I", caller, number, *arguments, *spare)


def load(caller, offset):
    return record(34, "BI", caller, offset)


def store(caller, offset, byte):
    return record(35, "BIB", caller, offset, byte)


def fault(caller, event):
    return record(36, "BB", caller, event)


def line(number):
    return record(37, "B", number)


def system_fault(event):
    return record(38, "B", event)


class Workload:
    def __init__(self, name, what, vector, events):
        self.name, self.what, self.vector, self.events = name, what, vector, events

    def write(self, folder):
        (folder / f"{self.name}.vec").write_bytes(self.vector)
        (folder / f"{self.name}.rec").write_bytes(b"".join(self.events))
        return f"{self.name}\t{len(self.events)}\t{self.what}\n"


# --- One call or one event, repeated -----------------------------------------------------------------------------

# Partition 0 (system) has 0 to 900 of a frame of 1,000 in both plans, partition 1 the rest.
FRAME = 1_000
SECOND_SLOT = 900
LONGEST = 32
DEPTH = 8
MESSAGE = 16
CHANNELS = 8


def port_name(channel_number):
    return b"port-%d" % channel_number


def sender(channel_number):
    """Partition 0 sends on channels 0 to 3, partition 1 on channels 4 to 7."""
    return 0 if channel_number < CHANNELS // 2 else 1


def port_number(channel_number, owner):
    """Each channel has two ports, its source first."""
    return 2 * channel_number + (0 if sender(channel_number) == owner else 1)


def call_vector(kind=QUEUING, actions=b""):
    """Four partitions, eight channels of one type between partitions 0 and 1, a link to all others, one line."""
    slots = [(0, 0, SECOND_SLOT), (1, SECOND_SLOT, FRAME - SECOND_SLOT)]
    vector = header(4, 2)
    vector += partition(SYSTEM, 256, b"system")
    vector += b"".join(partition(STANDARD, 256, b"guest-%d" % index) for index in range(1, 4))
    vector += plan(FRAME, slots) + plan(FRAME, slots)
    for index in range(CHANNELS):
        ends = [(sender(index), port_name(index)), (1 - sender(index), port_name(index))]
        vector += channel(kind, LONGEST, DEPTH if kind == QUEUING else 1, ends)
    vector += ipvi(0, 0, 0b1110) + line_owner(0, 1)
    return vector + actions


def place_names(owner):
    """Stores the names of all ports, 8 bytes apart from the front of the area."""
    return [
        store(owner, 8 * index + at, byte) for index in range(CHANNELS) for at, byte in enumerate(port_name(index))
    ]


def open_port(owner, kind, index):
    direction = SOURCE if sender(index) == owner else DESTINATION
    name = (8 * index, len(port_name(index)))
    if kind == SAMPLING:
        return call(owner, 9, *name, LONGEST, direction)
    return call(owner, 12, *name, LONGEST, direction, DEPTH)


def open_all(owner, kind):
    return [open_port(owner, kind, index) for index in range(CHANNELS)]


def transfer(owner, number, index):
    """Calls 10, 11, 13 and 14: a message of 16 bytes at 128 in the area."""
    return call(owner, number, port_number(index, owner), 128, MESSAGE if number in (10, 13) else LONGEST)


def both_open(kind):
    """Both partitions open all their ports; then it is partition 0's slot of the second frame."""
    return [
        *place_names(0),
        *open_all(0, kind),
        tick(SECOND_SLOT),
        *place_names(1),
        *open_all(1, kind),
        tick(FRAME),
    ]


def repeat(name, what, vector, cycle, setup=()):
    """The setup once, then whole cycles; a cycle is made from its number, counted from 0."""
    events = list(setup)
    number = 0
    while len(events) < EVENTS:
        events += cycle(number)
        number += 1
    return Workload(name, what, vector, events)


def steady(name, what, event, vector=None, setup=()):
    """One event over and over, without helpers."""
    return repeat(name, what, vector or call_vector(), lambda _: [event], setup)


def receive_cycle(number):
    """Partition 1 fills a queue in its slot, partition 0 empties it in the next frame."""
    frame = (number + 1) * FRAME
    sends = [transfer(1, 13, 4)] * DEPTH
    receives = [transfer(0, 14, 4)] * DEPTH
    return [tick(frame + SECOND_SLOT), *sends, tick(frame + FRAME), *receives]


def send_cycle(_):
    """Partition 0 opens its four sources and fills their queues; a system reset empties them and closes the ports."""
    sources = range(CHANNELS // 2)
    opens = [open_port(0, QUEUING, index) for index in sources]
    sends = [transfer(0, 13, index) for _ in range(DEPTH) for index in sources]
    return [*opens, *sends, call(0, 23, WARM)]


def single_calls():
    sampling, queuing = call_vector(SAMPLING), call_vector(QUEUING)
    reset_self = call(0, 5, 0, WARM)
    noted_error = call_vector(actions=action(0, 7, SIGNAL, 1))
    first_message = [*both_open(SAMPLING), tick(FRAME + SECOND_SLOT), transfer(1, 10, 4), tick(2 * FRAME)]
    first_queue = [*both_open(QUEUING), transfer(0, 13, 0)]

    yield steady("call-00", "XM_get_time, alone", call(0, 0))
    yield steady("call-01", "XM_get_partition_status of another, alone", call(0, 1, 1))
    yield steady("call-02", "XM_halt_partition of another, alone (it is halted after the first)", call(0, 2, 2))
    yield repeat(
        "call-03",
        "XM_suspend_partition of another; every other event is the helper 5 (warm reset of it)",
        queuing,
        lambda _: [call(0, 3, 2), call(0, 5, 2, WARM)],
    )
    yield repeat(
        "call-04",
        "XM_resume_partition of another; every other event is the helper 3 (suspend it)",
        queuing,
        lambda _: [call(0, 3, 2), call(0, 4, 2)],
    )
    yield steady("call-05", "XM_reset_partition of another, warm, alone", call(0, 5, 2, WARM))
    yield steady("call-05-cold", "XM_reset_partition of another, cold (256 bytes zeroed), alone", call(0, 5, 2, COLD))
    yield repeat(
        "call-06",
        "XM_idle_self; every other event is a helper tick to the next frame, which wakes the caller",
        queuing,
        lambda number: [call(0, 6), tick((number + 1) * FRAME)],
    )
    yield repeat("call-07", "XM_switch_sched_plan, alone", queuing, lambda number: [call(0, 7, number % 2)])
    yield steady("call-08", "XM_get_plan_status, alone", call(0, 8))
    yield repeat(
        "call-09",
        "XM_create_sampling_port of eight ports; every ninth event is the helper 5 (warm reset of itself)",
        sampling,
        lambda _: [*open_all(0, SAMPLING), reset_self],
        place_names(0),
    )
    yield steady(
        "call-10",
        "XM_write_sampling_message of 16 bytes to one open destination, alone",
        transfer(0, 10, 0),
        sampling,
        both_open(SAMPLING),
    )
    yield steady(
        "call-11", "XM_read_sampling_message of 16 bytes, alone", transfer(0, 11, 4), sampling, first_message
    )
    yield repeat(
        "call-12",
        "XM_create_queuing_port of eight ports; every ninth event is the helper 5 (warm reset of itself)",
        queuing,
        lambda _: [*open_all(0, QUEUING), reset_self],
        place_names(0),
    )
    yield repeat(
        "call-13",
        "XM_send_queuing_message of 16 bytes; 32 of 37 events, with the helpers 12 (4 times) and 23 (warm, once)",
        queuing,
        send_cycle,
        place_names(0),
    )
    yield repeat(
        "call-14",
        "XM_receive_queuing_message of 16 bytes; 8 of 18 events, with the helpers 13 (8 times) and tick (twice)",
        queuing,
        receive_cycle,
        both_open(QUEUING),
    )
    yield steady(
        "call-15",
        "XM_get_queuing_port_status, alone",
        call(0, 15, port_number(0, 0)),
        queuing,
        first_queue,
    )
    yield steady("call-16", "XM_raise_ipvi to three receivers, alone", call(0, 16, 0))
    yield steady("call-17", "reading the interrupt words, alone", call(0, 17))
    yield steady("call-18", "XM_set_irqmask, alone", call(0, 18, 0xFF))
    yield steady("call-19", "XM_clear_irqmask, alone", call(0, 19, 0xFF))
    yield steady("call-20", "XM_clear_irqpend, alone", call(0, 20, 0xFF))
    yield steady("call-21", "XM_hm_raise_event with log entry and signal, alone", call(0, 21), noted_error)
    yield repeat(
        "call-22",
        "XM_hm_read; every other event is a helper fault that writes the entry",
        queuing,
        lambda _: [fault(0, 3), call(0, 22)],
    )
    yield steady("call-23", "XM_reset_system, warm, alone", call(0, 23, WARM))
    yield steady("call-23-cold", "XM_reset_system, cold (four areas of 256 bytes zeroed), alone", call(0, 23, COLD))
    yield steady("call-24", "XM_halt_system: the first is taken, all others are refused with -10", call(0, 24))


def single_events():
    vector = call_vector()
    yield repeat("event-load", "load, alone", vector, lambda number: [load(0, number % 256)])
    yield repeat("event-store", "store, alone", vector, lambda number: [store(0, number % 256, number % 251)])
    yield steady("event-fault", "fault with log entry and signal, alone", fault(0, 3))
    yield steady("event-line", "line, alone", line(0))
    yield steady("event-system-fault", "system fault with log entry, ignored, alone", system_fault(8))
    yield repeat("event-tick", "tick by 1 microsecond, alone", vector, lambda number: [tick(number + 1)])


# --- Ticks of different lengths ----------------------------------------------------------------------------------


def tick_vector():
    """Four partitions with four slots each, and gaps, in a frame of 20,000."""
    slots = [(index % 4, 1_250 * index, 1_000) for index in range(16)]
    vector = header(4, 1)
    vector += b"".join(partition(STANDARD, 256, b"guest-%d" % index) for index in range(4))
    return vector + plan(20_000, slots)


def ticks():
    vector = tick_vector()
    yield Workload("boot", "check and boot of the ticks' vector, no event", vector, [])
    for length in TICK_LENGTHS:
        events = [tick(length * number) for number in range(1, TICKS + 1)]
        yield Workload(f"tick-{length}", f"ticks that pass {length:,} microseconds each", vector, events)


# --- The mix -----------------------------------------------------------------------------------------------------

MIX_PLANS = [
    (10_000, [(0, 0, 2_500), (1, 2_500, 2_500), (2, 5_500, 2_000), (3, 7_500, 2_500)]),
    (8_000, [(0, 0, 1_000), (1, 1_000, 2_000), (0, 3_000, 1_000), (2, 4_000, 1_000), (3, 5_000, 3_000)]),
]
MIX_AREAS = [256, 256, 128, 512]
MIX_SYSTEM = (0, 3)
# Type, longest message, depth, and the partitions of the ports: first the source, then the destinations.
MIX_CHANNELS = [
    (SAMPLING, 32, 1, [1, 0, 2]),
    (QUEUING, 16, 4, [2, 0]),
    (QUEUING, 64, 8, [0, 3]),
    (SAMPLING, 24, 1, [3, 0, 1, 2]),
]
MIX_LINKS = [(0, 0, 0b1110), (1, 1, 0b0001), (2, 2, 0b1000), (3, 3, 0b0011), (4, 1, 0b0000)]
MIX_LINES = [(0, 0), (1, 1), (2, 2), (3, 3), (4, 1)]
# Partition 0 gets by with signals, so that somebody is always there to put the others back on their feet.
MIX_ACTIONS = [
    (0, 5, SIGNAL, 1),
    (0, 6, SIGNAL, 1),
    (0, 7, WARM_RESET, 1),
    (2, 7, WARM_RESET, 1),
    (3, 7, COLD_RESET, 1),
]
FIRST_OF_CHANNEL = [0, 3, 5, 7]


def mix_name(number):
    return b"M%d" % number


def mix_vector():
    vector = header(4, len(MIX_PLANS))
    for index, size in enumerate(MIX_AREAS):
        vector += partition(SYSTEM if index in MIX_SYSTEM else STANDARD, size, b"mix-%d" % index)
    vector += b"".join(plan(*entry) for entry in MIX_PLANS)
    for index, (kind, longest, depth, owners) in enumerate(MIX_CHANNELS):
        ports = [(owner, mix_name(FIRST_OF_CHANNEL[index] + at)) for at, owner in enumerate(owners)]
        vector += channel(kind, longest, depth, ports)
    vector += b"".join(ipvi(*link) for link in MIX_LINKS)
    vector += b"".join(line_owner(*entry) for entry in MIX_LINES)
    return vector + b"".join(action(*entry) for entry in MIX_ACTIONS)


class Dice:
    """A small generator of its own (xorshift), so that every Python makes the same workloads."""

    def __init__(self, seed):
        self.word = seed

    def below(self, limit):
        self.word ^= self.word << 13 & 0xFFFF_FFFF_FFFF_FFFF
        self.word ^= self.word >> 7
        self.word ^= self.word << 17 & 0xFFFF_FFFF_FFFF_FFFF
        return (self.word >> 11) % limit

    def between(self, low, high):
        return low + self.below(high - low + 1)

    def pick(self, things):
        return things[self.below(len(things))]

    def chance(self, one_in):
        return self.below(one_in) == 0


class Mix:
    """Four partitions at work. Follows clock, ports, queues and states closely enough that most events are taken."""

    def __init__(self, count, seed=0x5EED_0F_A_B0A2D):
        self.count = count
        self.dice = Dice(seed)
        self.events = []
        self.now = 0
        self.log = 0
        self.begin()

    def begin(self):
        """The state after a boot or a system reset, but for the clock and the log."""
        self.plan = self.next_plan = 0
        self.frame_start = self.now
        self.opened = [set() for _ in MIX_AREAS]
        self.waiting = [0] * len(MIX_CHANNELS)
        self.down = {}

    def make(self):
        # A visit has fewer than 100 events; the exact number is reached by loads at the end.
        while len(self.events) < self.count - 100:
            self.visit()
        while self.runs() != 0:
            self.pass_to_next_slot()
        while len(self.events) < self.count - 1:
            self.events.append(load(0, 0))
        # Only the last event can be the one that halts the system.
        self.events.append(call(0, 24))
        return self.events

    # Time

    def runs(self):
        offset = self.now - self.frame_start
        for owner, start, duration in MIX_PLANS[self.plan][1]:
            if start <= offset < start + duration:
                return owner
        return None

    def pass_time(self, by):
        self.now += by
        self.events.append(tick(self.now))
        while self.now - self.frame_start >= MIX_PLANS[self.plan][0]:
            self.frame_start += MIX_PLANS[self.plan][0]
            self.plan = self.next_plan

    def pass_to_next_slot(self):
        frame, slots = MIX_PLANS[self.plan]
        offset = self.now - self.frame_start
        starts = [start for _, start, _ in slots if start > offset]
        self.pass_time(min(starts, default=frame) - offset)

    # A partition's turn

    def visit(self):
        guest = self.runs()
        if guest is None or guest in self.down:
            if guest is not None and self.dice.chance(2):
                self.events.append(call(guest, 0))
            self.board_event()
            self.pass_to_next_slot()
            return
        if guest == 0:
            self.revive()
        for _ in range(self.dice.between(4, 16)):
            self.move(guest)
            if self.dice.chance(4):
                self.pass_time(self.dice.between(1, 120))
            if self.runs() != guest or guest in self.down:
                break
        self.board_event()
        if self.dice.chance(200):
            self.pass_time(self.dice.between(20_000, 1_000_000))
        else:
            self.pass_to_next_slot()

    def revive(self):
        for guest, state in sorted(self.down.items()):
            if state == "suspended" and self.dice.chance(2):
                self.events.append(call(0, 4, guest))
            else:
                self.reset(0, guest, self.dice.below(2))
        self.down.clear()

    def reset(self, caller, guest, mode):
        self.events.append(call(caller, 5, guest, mode))
        self.opened[guest].clear()

    def board_event(self):
        if self.dice.chance(2):
            self.events.append(line(self.dice.below(len(MIX_LINES))))
        if self.dice.chance(8):
            self.events.append(system_fault(self.dice.pick([8, 9, 11])))
            self.log += 1
        if self.dice.chance(500):
            self.events.append(system_fault(10))
            self.log += 1
            self.begin()

    def move(self, guest):
        moves = [
            self.ask, self.ask, self.use_memory, self.use_memory, self.use_memory,
            self.set_interrupts, self.raise_interrupt,
            self.send, self.send, self.fetch, self.fetch,
            self.have_fault, self.stray,
        ]
        rare = [self.rest, self.leave_area, self.give_up, self.ask_badly]
        if guest in MIX_SYSTEM:
            moves += [self.read_log, self.steer]
        self.dice.pick(rare if self.dice.chance(12) else moves)(guest)

    # Moves that are taken

    def ask(self, guest):
        number = self.dice.pick([0, 1, 8, 17])
        target = self.dice.below(4) if guest in MIX_SYSTEM else guest
        self.events.append(call(guest, number, target))

    def use_memory(self, guest):
        offset = self.dice.below(MIX_AREAS[guest])
        if self.dice.chance(2):
            self.events.append(load(guest, offset))
        else:
            self.events.append(store(guest, offset, self.dice.below(256)))

    def set_interrupts(self, guest):
        number = self.dice.pick([18, 19, 20])
        self.events.append(call(guest, number, 1 << self.dice.below(20) | 1 << self.dice.below(10)))

    def raise_interrupt(self, guest):
        self.events.append(call(guest, 16, guest))

    def have_fault(self, guest):
        event = self.dice.below(5)
        self.log += event in (1, 3)
        self.events.append(fault(guest, event))

    def read_log(self, guest):
        if self.log > 0 or self.dice.chance(8):
            self.events.append(call(guest, 22))
            self.log = max(0, min(self.log, 32) - 1)

    def open(self, guest, number, index):
        """Opens a port unless it is open: the name is stored at the front of the area first."""
        if number in self.opened[guest]:
            return
        kind, longest, depth, _ = MIX_CHANNELS[index]
        direction = SOURCE if number == FIRST_OF_CHANNEL[index] else DESTINATION
        name = mix_name(number)
        self.events += [store(guest, at, byte) for at, byte in enumerate(name)]
        arguments = [0, len(name), longest, direction]
        self.events.append(call(guest, 9, *arguments) if kind == SAMPLING else call(guest, 12, *arguments, depth))
        self.opened[guest].add(number)

    def send(self, guest):
        sources = [index for index, (_, _, _, owners) in enumerate(MIX_CHANNELS) if owners[0] == guest]
        index = self.dice.pick(sources)
        kind, longest, depth, _ = MIX_CHANNELS[index]
        number = FIRST_OF_CHANNEL[index]
        self.open(guest, number, index)
        full = kind == QUEUING and self.waiting[index] == depth
        if full and not self.dice.chance(4):
            return
        length = self.dice.between(1, longest)
        address = self.dice.below(MIX_AREAS[guest] - length + 1)
        self.events.append(call(guest, 10 if kind == SAMPLING else 13, number, address, length))
        if not full:
            self.waiting[index] = 1 if kind == SAMPLING else self.waiting[index] + 1

    def fetch(self, guest):
        index = self.dice.pick([index for index, entry in enumerate(MIX_CHANNELS) if guest in entry[3][1:]])
        kind, longest, _, owners = MIX_CHANNELS[index]
        number = FIRST_OF_CHANNEL[index] + owners.index(guest)
        self.open(guest, number, index)
        if self.waiting[index] == 0 and not self.dice.chance(4):
            return
        if kind == QUEUING and self.dice.chance(3):
            self.events.append(call(guest, 15, number))
        address = self.dice.below(MIX_AREAS[guest] - longest + 1)
        self.events.append(call(guest, 11 if kind == SAMPLING else 14, number, address, longest))
        if kind == QUEUING:
            self.waiting[index] = max(0, self.waiting[index] - 1)

    def steer(self, guest):
        """What only system partitions may do. Only partition 0 takes others down; its next turn revives them."""
        if self.dice.chance(300):
            self.events.append(call(guest, 23, self.dice.below(2)))
            self.begin()
        elif self.dice.chance(3):
            self.next_plan = self.dice.below(len(MIX_PLANS))
            self.events.append(call(guest, 7, self.next_plan))
        elif guest != 0:
            self.events.append(call(guest, 1, 0))
        else:
            self.take_down(self.dice.between(1, 3))

    def take_down(self, other):
        if other in self.down:
            self.reset(0, other, WARM)
            del self.down[other]
        elif self.dice.chance(4):
            self.events.append(call(0, 2, other))
            self.opened[other].clear()
            self.down[other] = "halted"
        else:
            self.events.append(call(0, 3, other))
            if self.dice.chance(4):
                self.down[other] = "suspended"
            else:
                self.events.append(call(0, 4, other))

    def rest(self, guest):
        """An IDLE partition wakes at its next slot, so it is enough to go on to the slot after this one."""
        self.events.append(call(guest, 6))
        self.pass_to_next_slot()

    def leave_area(self, guest):
        """Memory protection: a signal for partition 0, a suspension for the others."""
        self.events.append(load(guest, MIX_AREAS[guest] + self.dice.below(64)))
        self.log += 1
        if guest != 0:
            self.down[guest] = "suspended"

    def give_up(self, guest):
        """Call 21: a reset, but partition 1 halts."""
        self.events.append(call(guest, 21))
        self.log += 1
        self.opened[guest].clear()
        if guest == 1:
            self.down[guest] = "halted"

    # Events that are refused

    def stray(self, guest):
        """Now and then a guest calls that is not on the processor."""
        if self.dice.chance(3):
            self.events.append(call((guest + 1) % 4, 0))

    def ask_badly(self, guest):
        bad = [
            call(guest, 25 + self.dice.below(200)),
            call(guest, 1, 9),
            call(guest, 5, guest, 2),
            call(guest, 7, 7),
            call(guest, 9, 0, 600, 32, SOURCE),
            call(guest, 10, 31, 0, 4),
            call(guest, 14, 31, 0, 4),
            call(guest, 16, 8),
            call(guest, 16, 7),
            fault(guest, 7),
            line(16),
            line(15),
            system_fault(7),
            tick(self.now + 1_000_001),
        ]
        if guest not in MIX_SYSTEM:
            bad += [call(guest, 2, 0), call(guest, 7, 0), call(guest, 22), call(guest, 23, WARM), call(guest, 24)]
        for number in sorted(self.opened[guest]):
            bad.append(self.against_direction(guest, number))
            bad.append(self.with_wrong_longest(guest, number))
        self.events += self.dice.pick([[event] if isinstance(event, bytes) else event for event in bad])

    def against_direction(self, guest, number):
        """Reads from a source, or writes to a destination."""
        index = max(at for at, first in enumerate(FIRST_OF_CHANNEL) if first <= number)
        is_source = number == FIRST_OF_CHANNEL[index]
        pair = (10, 11) if MIX_CHANNELS[index][0] == SAMPLING else (13, 14)
        return call(guest, pair[is_source], number, 0, 4)

    def with_wrong_longest(self, guest, number):
        """Opens a port with a longest message that the vector does not give."""
        index = max(at for at, first in enumerate(FIRST_OF_CHANNEL) if first <= number)
        opening = 9 if MIX_CHANNELS[index][0] == SAMPLING else 12
        name = mix_name(number)
        stores = [store(guest, at, byte) for at, byte in enumerate(name)]
        return [*stores, call(guest, opening, 0, len(name), 1, SOURCE, 1)]


def mixes():
    vector = mix_vector()
    what = "all calls, loads, stores, faults, lines and ticks over four partitions"
    yield Workload("mix", what, vector, Mix(MIX_EVENTS).make())
    for name, count in LONG_EVENTS.items():
        yield Workload(name, f"the mix with {count:,} events", vector, Mix(count).make())


# --- All ---------------------------------------------------------------------------------------------------------


def all_workloads():
    yield from mixes()
    yield from single_calls()
    yield from single_events()
    yield from ticks()


def main():
    if len(sys.argv) != 2:
        sys.exit("usage: workloads.py FOLDER")
    folder = pathlib.Path(sys.argv[1])
    folder.mkdir(parents=True, exist_ok=True)
    with open(folder / "index.tsv", "w") as index:
        for workload in all_workloads():
            index.write(workload.write(folder))


if __name__ == "__main__":
    main()

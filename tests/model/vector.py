"""The check of a configuration vector, and the tables that a good vector gives.

A vector is a row of records.  Every record is tested in full before the next one
is looked at: first its frame (does it fit, is its kind known, its length right, is
it in turn), then its fields from the left, then its relation to earlier records.
"""

from __future__ import annotations

from dataclasses import dataclass, field
from enum import IntEnum

from limits import WHOLE, Limits

HEAD_LENGTH = 4  # two bytes of body length, two bytes of kind
SYSTEM_SCOPE = 255  # the scope of an action that concerns the whole system

MOST_SLOTS = 16  # of one plan
MOST_CHANNELS = 8
MOST_PORTS = 32  # over all channels
MOST_QUEUE_PORTS = 2  # of one queuing channel
LEAST_PORTS = 2  # of any channel

Offset = int  # an offset or a length in a frame, in microseconds


class Kind(IntEnum):
    HEADER = 1
    PARTITION = 2
    PLAN = 3
    SLOT = 4
    CHANNEL = 5
    PORT = 6
    IPVI = 7
    LINE = 8
    ACTION = 9


class Number(IntEnum):
    """The refusals of a vector."""

    PASSES_END = 12
    UNKNOWN_KIND = 13
    WRONG_LENGTH = 14
    OUT_OF_TURN = 15
    MORE_OWED = 16
    FIELD_RANGE = 21
    TOO_MANY = 31
    REPEATED = 32
    MISPLACED = 33


class Class(IntEnum):
    STANDARD = 0
    SYSTEM = 1


class ChannelType(IntEnum):
    SAMPLING = 0
    QUEUING = 1


class Direction(IntEnum):
    SOURCE = 0
    DESTINATION = 1


class VectorRefused(Exception):
    """A vector was refused: its number, its place, and the cause in words."""

    def __init__(self, number: Number, place: int, cause: str):
        super().__init__(f"{int(number)} at {place}: {cause}")
        self.number = number
        self.place = place
        self.cause = cause


@dataclass(frozen=True)
class PartitionRow:
    class_: Class
    area_size: int
    name: bytes

    @property
    def is_system(self) -> bool:
        return self.class_ == Class.SYSTEM


@dataclass(frozen=True)
class Slot:
    partition: int
    start: Offset
    duration: Offset

    @property
    def end(self) -> Offset:
        return self.start + self.duration


@dataclass
class Plan:
    frame: Offset
    slots: list[Slot] = field(default_factory=list)


@dataclass(frozen=True)
class Port:
    channel: int
    partition: int
    direction: Direction
    name: bytes


@dataclass
class Channel:
    type: ChannelType
    longest: int
    depth: int
    ports: list[int] = field(default_factory=list)  # port numbers, the source first


@dataclass(frozen=True)
class Decision:
    """What the health monitor does about an event, and whether it writes it down."""

    action: int
    log: bool


@dataclass
class Tables:
    """Everything that a checked vector says."""

    partitions: list[PartitionRow] = field(default_factory=list)
    plans: list[Plan] = field(default_factory=list)
    channels: list[Channel] = field(default_factory=list)
    ports: list[Port] = field(default_factory=list)
    ipvis: dict[tuple[int, int], int] = field(default_factory=dict)  # (number, source): mask
    lines: dict[int, int] = field(default_factory=dict)  # line: owner
    actions: dict[tuple[int, int], Decision] = field(default_factory=dict)  # (scope, event)

    def area_sizes(self) -> list[int]:
        return [row.area_size for row in self.partitions]

    def is_system(self, partition: int) -> bool:
        return self.partitions[partition].is_system


BODY_LENGTHS = {
    Kind.HEADER: range(2, 2 + 1),
    Kind.PARTITION: range(4, 19 + 1),
    Kind.PLAN: range(4, 4 + 1),
    Kind.SLOT: range(9, 9 + 1),
    Kind.CHANNEL: range(4, 4 + 1),
    Kind.PORT: range(3, 18 + 1),
    Kind.IPVI: range(3, 3 + 1),
    Kind.LINE: range(2, 2 + 1),
    Kind.ACTION: range(4, 4 + 1),
}

# Which kinds a record may directly follow; None is the vector's start.
MAY_FOLLOW = {
    Kind.HEADER: {None},
    Kind.PARTITION: {Kind.HEADER, Kind.PARTITION},
    Kind.PLAN: {Kind.PARTITION, Kind.SLOT},
    Kind.SLOT: {Kind.PLAN, Kind.SLOT},
    Kind.CHANNEL: {Kind.SLOT, Kind.PORT},
    Kind.PORT: {Kind.CHANNEL, Kind.PORT},
    Kind.IPVI: {Kind.SLOT, Kind.PORT, Kind.IPVI},
    Kind.LINE: {Kind.SLOT, Kind.PORT, Kind.IPVI, Kind.LINE},
    Kind.ACTION: {Kind.SLOT, Kind.PORT, Kind.IPVI, Kind.LINE, Kind.ACTION},
}

PARTITION_EVENTS = range(0, 7 + 1)
PARTITION_ACTIONS = range(0, 5 + 1)
SYSTEM_EVENTS = range(8, 11 + 1)
SYSTEM_ACTIONS = (0, 3, 4, 5)


class Body:
    """The fields of one record, taken from the left."""

    def __init__(self, data: bytes, start: int, end: int):
        self.data = data
        self.place = start
        self.end = end

    def number(self, width: int, allowed, what: str) -> int:
        """The next field, which must be one of the allowed numbers."""
        place = self.place
        self.place += width
        value = int.from_bytes(self.data[place:self.place], "little")
        if value not in allowed:
            raise VectorRefused(Number.FIELD_RANGE, place, what)
        return value

    def name(self) -> bytes:
        """All that is left."""
        return self.data[self.place:self.end]


class Check:
    """One pass over a vector; the tables grow record by record."""

    def __init__(self, data: bytes, limits: Limits):
        self.data = data
        self.limits = limits
        self.tables = Tables()
        self.partitions_promised = 0
        self.plans_promised = 0
        self.last: Kind | None = None  # the kind of the record before
        self.record_place = 0

    def run(self) -> Tables:
        while self.record_place < len(self.data):
            self.record_place = self.read_record()
        owed = self.what_is_owed()
        if owed:
            raise VectorRefused(Number.MORE_OWED, len(self.data), owed)
        return self.tables

    def refuse(self, number: Number, cause: str) -> None:
        raise VectorRefused(number, self.record_place, cause)

    # The frame of a record

    def read_record(self) -> int:
        """Tests and takes the record at record_place; answers the place after it."""
        start = self.record_place + HEAD_LENGTH
        if start > len(self.data):
            self.refuse(Number.PASSES_END, "head")
        head = self.data[self.record_place:start]
        length = int.from_bytes(head[:2], "little")
        number = int.from_bytes(head[2:], "little")
        end = start + length
        if end > len(self.data):
            self.refuse(Number.PASSES_END, "body")
        if not 1 <= number <= self.limits.kinds:
            self.refuse(Number.UNKNOWN_KIND, "kind")
        kind = Kind(number)
        if length not in BODY_LENGTHS[kind]:
            self.refuse(Number.WRONG_LENGTH, kind.name.lower())
        if not self.in_turn(kind):
            self.refuse(Number.OUT_OF_TURN, kind.name.lower())
        TAKERS[kind](self, Body(self.data, start, end))
        self.last = kind
        return end

    def in_turn(self, kind: Kind) -> bool:
        if self.last not in MAY_FOLLOW[kind]:
            return False
        if kind == Kind.PARTITION:
            return not self.partitions_complete()
        if kind == Kind.PLAN:
            return self.partitions_complete() and not self.plans_complete()
        if kind >= Kind.CHANNEL and kind != Kind.PORT:
            return self.plans_complete() and self.channel_complete()
        return True

    def partitions_complete(self) -> bool:
        return len(self.tables.partitions) == self.partitions_promised

    def plans_complete(self) -> bool:
        return len(self.tables.plans) == self.plans_promised

    def channel_complete(self) -> bool:
        """The last channel, if there is one, has ports enough."""
        channels = self.tables.channels
        return not channels or len(channels[-1].ports) >= LEAST_PORTS

    def what_is_owed(self) -> str:
        """What is missing at the end of the bytes; empty when nothing is."""
        if self.last is None:
            return "header"
        if not self.partitions_complete():
            return "partitions"
        if not self.plans_complete():
            return "plans"
        if self.last == Kind.PLAN:
            return "slots"
        if not self.channel_complete():
            return "ports"
        return ""

    def existing(self) -> range:
        return range(self.partitions_promised)

    # The nine kinds

    def take_header(self, body: Body) -> None:
        self.partitions_promised = body.number(1, range(1, 8 + 1), "header partitions")
        self.plans_promised = body.number(1, range(1, 4 + 1), "header plans")

    def take_partition(self, body: Body) -> None:
        class_ = Class(body.number(1, (0, 1), "partition class"))
        size = body.number(2, range(1, 1024 + 1), "partition area size")
        name = body.name()
        if any(row.name == name for row in self.tables.partitions):
            self.refuse(Number.REPEATED, "partition name")
        self.tables.partitions.append(PartitionRow(class_, size, name))

    def take_plan(self, body: Body) -> None:
        self.tables.plans.append(Plan(body.number(4, range(1, 1_000_000 + 1), "plan frame")))

    def take_slot(self, body: Body) -> None:
        slot = Slot(
            body.number(1, self.existing(), "slot partition"),
            body.number(4, range(0, 999_999 + 1), "slot start"),
            body.number(4, range(1, 1_000_000 + 1), "slot duration"),
        )
        plan = self.tables.plans[-1]
        if len(plan.slots) == MOST_SLOTS:
            self.refuse(Number.TOO_MANY, "slots of a plan")
        if plan.slots and slot.start < plan.slots[-1].end:
            self.refuse(Number.MISPLACED, "slot before the last one's end")
        if slot.end > plan.frame:
            self.refuse(Number.MISPLACED, "slot past its frame")
        plan.slots.append(slot)

    def take_channel(self, body: Body) -> None:
        type_ = ChannelType(body.number(1, (0, 1), "channel type"))
        longest = body.number(2, range(1, 64 + 1), "channel longest")
        depths = (1,) if type_ == ChannelType.SAMPLING else range(1, 8 + 1)
        depth = body.number(1, depths, f"{type_.name.lower()} channel depth")
        if len(self.tables.channels) == MOST_CHANNELS:
            self.refuse(Number.TOO_MANY, "channels")
        self.tables.channels.append(Channel(type_, longest, depth))

    def take_port(self, body: Body) -> None:
        tables = self.tables
        channel = tables.channels[-1]
        first = not channel.ports
        partition = body.number(1, self.existing(), "port partition")
        if first:
            direction = body.number(1, (Direction.SOURCE,), "first port direction")
        else:
            direction = body.number(1, (Direction.DESTINATION,), "later port direction")
        name = body.name()
        if len(tables.ports) == MOST_PORTS:
            self.refuse(Number.TOO_MANY, "ports")
        if channel.type == ChannelType.QUEUING and len(channel.ports) == MOST_QUEUE_PORTS:
            self.refuse(Number.TOO_MANY, "ports of a queue")
        if any((port.partition, port.name) == (partition, name) for port in tables.ports):
            self.refuse(Number.REPEATED, "port name")
        if any(tables.ports[number].partition == partition for number in channel.ports):
            self.refuse(Number.REPEATED, "partition in a channel")
        channel.ports.append(len(tables.ports))
        tables.ports.append(
            Port(len(tables.channels) - 1, partition, Direction(direction), name))

    def take_ipvi(self, body: Body) -> None:
        number = body.number(1, range(0, 7 + 1), "ipvi number")
        source = body.number(1, self.existing(), "ipvi source")
        others = sum(1 << partition for partition in self.existing() if partition != source)
        allowed = [mask for mask in range(256) if mask & ~others == 0]
        mask = body.number(1, allowed, "ipvi mask")
        if (number, source) in self.tables.ipvis:
            self.refuse(Number.REPEATED, "ipvi number and source")
        self.tables.ipvis[number, source] = mask

    def take_line(self, body: Body) -> None:
        line = body.number(1, range(0, 15 + 1), "line number")
        partition = body.number(1, self.existing(), "line partition")
        if line in self.tables.lines:
            self.refuse(Number.REPEATED, "line")
        self.tables.lines[line] = partition

    def take_action(self, body: Body) -> None:
        scope = body.number(1, [*self.existing(), SYSTEM_SCOPE], "action scope")
        if scope == SYSTEM_SCOPE:
            event = body.number(1, SYSTEM_EVENTS, "system event")
            action = body.number(1, SYSTEM_ACTIONS, "system action")
        else:
            event = body.number(1, PARTITION_EVENTS, "partition event")
            action = body.number(1, PARTITION_ACTIONS, "partition action")
        log = body.number(1, (0, 1), "action log")
        if (scope, event) in self.tables.actions:
            self.refuse(Number.REPEATED, "scope and event")
        self.tables.actions[scope, event] = Decision(action, log == 1)


TAKERS = {
    Kind.HEADER: Check.take_header,
    Kind.PARTITION: Check.take_partition,
    Kind.PLAN: Check.take_plan,
    Kind.SLOT: Check.take_slot,
    Kind.CHANNEL: Check.take_channel,
    Kind.PORT: Check.take_port,
    Kind.IPVI: Check.take_ipvi,
    Kind.LINE: Check.take_line,
    Kind.ACTION: Check.take_action,
}


def check(data: bytes, limits: Limits = WHOLE) -> Tables:
    """The tables of a good vector; raises VectorRefused for any other."""
    return Check(data, limits).run()

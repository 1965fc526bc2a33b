"""What a vector says of one partition, and of nobody else."""

from __future__ import annotations

from dataclasses import dataclass

from . import names
from .script import ACTION, CHANNEL, IPVI, LINE_OWNER, PARTITION, PLAN, PORT, SLOT, Record, split_vector


class NoGroup(Exception):
    """A vector without that partition, or one that is never taken."""


@dataclass(frozen=True)
class PortRow:
    """A port of the partition, with what it needs to know of the channel."""

    number: int
    name: bytes
    direction: int
    type: int
    longest: int
    depth: int


@dataclass(frozen=True)
class PlanRow:
    """A plan: its frame, and start and end of each slot of the partition."""

    frame: int
    slots: tuple[tuple[int, int], ...]


@dataclass(frozen=True)
class Group:
    """The rows of one partition."""

    number: int
    name: bytes
    class_: int
    size: int
    plans: tuple[PlanRow, ...]
    ports: tuple[PortRow, ...]
    links: tuple[int, ...]  # numbers of the IPVIs that it may raise
    lines: tuple[int, ...]
    responses: tuple[tuple[int, int, int], ...]  # event, action, log flag, as the vector sets them

    def port(self, number: int) -> PortRow | None:
        """Its port of that number."""
        return next((port for port in self.ports if port.number == number), None)

    def response(self, event: int) -> tuple[int, int]:
        """Action and log flag for one of its fault events."""
        for configured, action, log in self.responses:
            if configured == event:
                return action, log
        return names.DEFAULT_RESPONSES[event]


Row = tuple[int, tuple[int, ...], bytes]  # kind, numbers, name


def read_rows(vector: bytes) -> list[Row]:
    """The records of a vector in numbers; raises NoGroup for vectors that no board takes."""
    records, rest = split_vector(vector)
    if rest:
        raise NoGroup("the script's vector is cut, so it is never taken")
    return [read_row(record) for record in records]


def read_row(record: Record) -> Row:
    """One record in numbers."""
    fields = record.fields()
    if fields is None:
        raise NoGroup("the script's vector has a record of an unknown shape, so it is never taken")
    return record.kind, *fields


def partition_names(vector: bytes) -> list[bytes]:
    """The names of all partitions, to find one of them."""
    return [name for kind, _, name in read_rows(vector) if kind == PARTITION]


def read_group(vector: bytes, number: int) -> Group:
    """The rows of one partition."""
    rows = read_rows(vector)
    (class_, size), name = [(numbers, name) for kind, numbers, name in rows if kind == PARTITION][number]
    return Group(
        number, name, class_, size,
        plans=own_plans(rows, number),
        ports=own_ports(rows, number),
        links=first_numbers(rows, IPVI, number),
        lines=first_numbers(rows, LINE_OWNER, number),
        responses=tuple(sorted(row[1:] for kind, row, _ in rows if kind == ACTION and row[0] == number)),
    )


def first_numbers(rows: list[Row], kind: int, partition: int) -> tuple[int, ...]:
    """The first numbers of the rows of a kind whose second number is the partition."""
    return tuple(sorted(row[0] for found, row, _ in rows if found == kind and row[1] == partition))


def own_plans(rows: list[Row], partition: int) -> tuple[PlanRow, ...]:
    """Each plan's frame with the partition's own slots."""
    frames: list[int] = []
    slots: list[list[tuple[int, int]]] = []
    for kind, numbers, _ in rows:
        if kind == PLAN:
            frames.append(numbers[0])
            slots.append([])
        elif kind == SLOT and numbers[0] == partition and slots:
            start, end = numbers[1], numbers[1] + numbers[2]
            if end > frames[-1]:
                raise NoGroup("a slot of the script's vector ends after its frame, so it is never taken")
            slots[-1].append((start, end))
    return tuple(PlanRow(frame, tuple(found)) for frame, found in zip(frames, slots))


def own_ports(rows: list[Row], partition: int) -> tuple[PortRow, ...]:
    """The partition's ports; they are numbered over the whole vector."""
    found = []
    channel = (names.SAMPLING, 0, 0)
    ports = 0
    for kind, numbers, name in rows:
        if kind == CHANNEL:
            channel = numbers
        elif kind == PORT:
            if numbers[0] == partition:
                found.append(PortRow(ports, name, numbers[1], *channel))
            ports += 1
    return tuple(found)

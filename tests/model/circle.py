"""Who can influence a partition, as the vector draws it."""

from __future__ import annotations

from vector import ChannelType, Direction, Tables


def circle(tables: Tables, partition: int) -> set[int] | None:
    """The smallest closed set with the partition and every system partition.

    None when the vector has no such partition.
    """
    if partition >= len(tables.partitions):
        return None
    members = {partition}
    members |= {other for other, row in enumerate(tables.partitions) if row.is_system}
    while True:
        larger = members.union(*(influences(tables, member) for member in members))
        if larger == members:
            return members
        members = larger


def circle_mask(tables: Tables, partition: int) -> int | None:
    """The circle as bits: bit i stands for partition i."""
    members = circle(tables, partition)
    return None if members is None else sum(1 << member for member in members)


def influences(tables: Tables, member: int) -> set[int]:
    """Those who can directly change what the member sees."""
    found = set()
    for channel in tables.channels:
        writers = port_owners(tables, channel, Direction.SOURCE)
        readers = port_owners(tables, channel, Direction.DESTINATION)
        if member in readers:
            found |= writers
        if member in writers and channel.type == ChannelType.QUEUING:
            found |= readers
    for (_, source), mask in tables.ipvis.items():
        if mask >> member & 1:
            found.add(source)
    return found


def port_owners(tables: Tables, channel, direction: Direction) -> set[int]:
    ports = [tables.ports[number] for number in channel.ports]
    return {port.partition for port in ports if port.direction == direction}

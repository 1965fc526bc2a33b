"""Random vectors that keep every rule, as lists of records."""

from __future__ import annotations

from random import Random

import encode
from encode import Record
from limits import Limits
from vector import (PARTITION_ACTIONS, PARTITION_EVENTS, SYSTEM_ACTIONS, SYSTEM_EVENTS,
                    SYSTEM_SCOPE)


def design(rng: Random, limits: Limits) -> list[Record]:
    """A random good vector with the record kinds that the limits allow."""
    partitions = rng.choice((1, 2, 2, 3, 3, 3, 4, 4, 5, 6, 8))
    plans = rng.choice((1, 1, 2, 2, 3, 4))
    records = [encode.header(partitions, plans)]
    records += partition_records(rng, partitions)
    for _ in range(plans):
        records += plan_records(rng, partitions)
    if limits.kinds >= 6 and partitions > 1:
        records += channel_records(rng, partitions)
    if limits.kinds >= 7:
        records += ipvi_records(rng, partitions)
    if limits.kinds >= 8:
        records += line_records(rng, partitions)
    if limits.kinds >= 9:
        records += action_records(rng, partitions)
    return records


def new_name(rng: Random, taken: set[bytes]) -> bytes:
    """A name that is not taken yet; short ones are the rule."""
    while True:
        length = rng.choice((1, 1, 1, 2, 2, 3, 5, 16))
        name = bytes(rng.choice((0, 65, 66, 67, 255, rng.randrange(256)))
                     for _ in range(length))
        if name not in taken:
            taken.add(name)
            return name


def partition_records(rng: Random, partitions: int) -> list[Record]:
    taken: set[bytes] = set()
    share = rng.choice((0.2, 0.4, 0.4, 0.7))
    return [encode.partition(int(rng.random() < share), area_size(rng), new_name(rng, taken))
            for _ in range(partitions)]


def area_size(rng: Random) -> int:
    return rng.choice((1, 2, rng.randint(3, 20), 16, 24, 32, 63, 64, 65, 80,
                       rng.randint(66, 300), 1024))


def plan_records(rng: Random, partitions: int) -> list[Record]:
    frame = rng.choice((rng.randint(1, 12), rng.randint(10, 60), rng.randint(10, 60),
                        rng.randint(20, 200), rng.randint(20, 200), rng.randint(100, 2_000)))
    if rng.random() < 0.02:
        frame = rng.choice((1_000_000, 999_999, rng.randint(2_000, 1_000_000)))
    return [encode.plan(frame)] + slot_records(rng, partitions, frame)


def slot_records(rng: Random, partitions: int, frame: int) -> list[Record]:
    """One to sixteen slots in order, with and without gaps between them."""
    wanted = rng.choice((1, partitions, partitions, partitions + 1, 2 * partitions, 16))
    share = max(1, frame // wanted)
    slots: list[Record] = []
    place = 0
    turn = list(range(partitions))
    rng.shuffle(turn)
    while len(slots) < min(wanted, 16) and place < frame:
        gap = rng.choice((0, 0, 0, 1, rng.randint(0, share // 3)))
        start = min(place + gap, frame - 1)
        duration = min(rng.choice((1, share, rng.randint(1, share))), frame - start)
        owner = turn[len(slots) % partitions] if rng.random() < 0.8 else rng.randrange(partitions)
        slots.append(encode.slot(owner, start, duration))
        place = start + duration
    return slots


def channel_records(rng: Random, partitions: int) -> list[Record]:
    records = []
    taken: list[set[bytes]] = [set() for _ in range(partitions)]
    ports_left = 32
    for _ in range(rng.choice((0, 1, 2, 3, 4, 5, 8))):
        queuing = rng.random() < 0.5
        owners = rng.sample(range(partitions), 2 if queuing else rng.randint(2, partitions))
        if len(owners) > ports_left:
            break
        ports_left -= len(owners)
        longest = rng.choice((1, 2, 3, rng.randint(1, 64), 64))
        records.append(encode.channel(int(queuing), longest, depth(rng) if queuing else 1))
        records += [encode.port(owner, int(index > 0), new_name(rng, taken[owner]))
                    for index, owner in enumerate(owners)]
    return records


def depth(rng: Random) -> int:
    return rng.choice((1, 1, 2, 2, 3, rng.randint(1, 8), 8))


def ipvi_records(rng: Random, partitions: int) -> list[Record]:
    links = [(number, source) for number in range(8) for source in range(partitions)]
    chosen = rng.sample(links, min(len(links), rng.choice((0, 1, 3, 6, 12))))
    return [encode.ipvi(number, source, rng.randrange(1 << partitions) & ~(1 << source))
            for number, source in chosen]


def line_records(rng: Random, partitions: int) -> list[Record]:
    chosen = rng.sample(range(16), rng.choice((0, 1, 2, 4, 16)))
    return [encode.line(line, rng.randrange(partitions)) for line in chosen]


def action_records(rng: Random, partitions: int) -> list[Record]:
    pairs = [(scope, event) for scope in range(partitions) for event in PARTITION_EVENTS]
    pairs += [(SYSTEM_SCOPE, event) for event in SYSTEM_EVENTS]
    chosen = rng.sample(pairs, min(len(pairs), rng.choice((0, 1, 4, 8, 16))))
    return [encode.action(scope, event, any_action(rng, scope), rng.randrange(2))
            for scope, event in chosen]


def any_action(rng: Random, scope: int) -> int:
    return rng.choice(SYSTEM_ACTIONS if scope == SYSTEM_SCOPE else PARTITION_ACTIONS)

"""Vectors with something wrong in them (or, now and then, with nothing wrong after all)."""

from __future__ import annotations

from random import Random

from encode import LAYOUTS, Record, framed, vector

EXTREMES = (0, 1, 2, 3, 4, 5, 6, 8, 9, 12, 16, 17, 64, 65, 127, 128, 254, 255, 256, 1_024, 1_025,
            65_535, 999_999, 1_000_000, 1_000_001, 0x7FFF_FFFF, 0xFFFF_FFFF)


def largest_numbers(record: Record) -> list[int]:
    """What each number of a record can hold at most."""
    widths = {"B": 0xFF, "H": 0xFFFF, "I": 0xFFFF_FFFF}
    return [widths[letter] for letter in LAYOUTS[record.kind][1:]]


def spoil_number(rng: Random, records: list[Record]) -> bytes:
    """One number of one record becomes an extreme or steps by one."""
    index = rng.randrange(len(records))
    record = records[index]
    place = rng.randrange(len(record.numbers))
    old = record.numbers[place]
    value = rng.choice((rng.choice(EXTREMES), old + 1, old - 1))
    value &= largest_numbers(record)[place]
    return vector(records[:index] + [record.with_number(place, value)] + records[index + 1:])


def cut_short(rng: Random, records: list[Record]) -> bytes:
    data = vector(records)
    return data[:rng.randrange(len(data))]


def cut_between_records(rng: Random, records: list[Record]) -> bytes:
    return vector(records[:rng.randrange(len(records))])


def change_kind(rng: Random, records: list[Record]) -> bytes:
    index = rng.randrange(len(records))
    kind = rng.choice((0, rng.randint(1, 9), 5, 9, 10, 255, 256, 257, 32, 65_535))
    return replaced(records, index, framed(kind, records[index].body()))


def change_length(rng: Random, records: list[Record]) -> bytes:
    """A body that is too long or too short, its length field agreeing with it."""
    index = rng.randrange(len(records))
    body = records[index].body()
    longer = body + bytes(rng.choice((1, 1, 2, 16, 17)))
    shorter = body[:rng.randrange(len(body))]
    return replaced(records, index, framed(records[index].kind, rng.choice((longer, shorter))))


def change_length_field(rng: Random, records: list[Record]) -> bytes:
    """A length field that does not agree with its body."""
    index = rng.randrange(len(records))
    data = bytearray(records[index].encoded())
    length = rng.choice((0, data[0] + 1, data[0] - 1, 255, 65_535)) & 0xFFFF
    data[:2] = length.to_bytes(2, "little")
    return replaced(records, index, bytes(data))


def replaced(records: list[Record], index: int, data: bytes) -> bytes:
    return vector(records[:index]) + data + vector(records[index + 1:])


def shuffle_records(rng: Random, records: list[Record]) -> bytes:
    """A record moves, goes away, comes twice, or changes places with another."""
    changed = list(records)
    source = rng.randrange(len(changed))
    target = rng.randrange(len(changed))
    match rng.randrange(4):
        case 0:
            changed.insert(target, changed.pop(source))
        case 1:
            del changed[source]
        case 2:
            changed.insert(rng.choice((source + 1, target)), changed[source])
        case 3:
            changed[source], changed[target] = changed[target], changed[source]
    return vector(changed)


def repeat_name(rng: Random, records: list[Record]) -> bytes:
    """A name, or a record's first numbers, become those of another record of the kind."""
    index = rng.randrange(len(records))
    record = records[index]
    others = [other for other in records if other.kind == record.kind]
    other = rng.choice(others)
    if record.name:
        changed = Record(record.kind, record.numbers, other.name)
    else:
        changed = Record(record.kind, other.numbers[:-1] + record.numbers[-1:])
    return vector(records[:index] + [changed] + records[index + 1:])


def double_records(rng: Random, records: list[Record]) -> bytes:
    """One record comes so often that a limit is passed, where one is."""
    index = rng.randrange(len(records))
    return vector(records[:index] + [records[index]] * rng.choice((2, 9, 17, 33))
                  + records[index + 1:])


def flip_bytes(rng: Random, records: list[Record]) -> bytes:
    data = bytearray(vector(records))
    for _ in range(rng.choice((1, 1, 2, 4))):
        data[rng.randrange(len(data))] = rng.choice((0, 1, 255, rng.randrange(256)))
    return bytes(data)


def random_bytes(rng: Random, records: list[Record]) -> bytes:
    return rng.randbytes(rng.choice((1, 2, 3, 4, 5, 6, 40)))


def append_bytes(rng: Random, records: list[Record]) -> bytes:
    return vector(records) + rng.randbytes(rng.randint(1, 6))


SPOILERS = (spoil_number, spoil_number, spoil_number, cut_short, cut_between_records, change_kind,
            change_length, change_length_field, shuffle_records, shuffle_records, repeat_name,
            repeat_name, double_records, flip_bytes, random_bytes, append_bytes)


def spoiled(rng: Random, records: list[Record]) -> bytes:
    return rng.choice(SPOILERS)(rng, records)

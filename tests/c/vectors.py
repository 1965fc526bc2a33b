"""check_vector beside the model: what it says of good and spoiled vectors, and in which record."""

from __future__ import annotations

import random
from pathlib import Path
from typing import Iterator

from common import EXAMPLES, Tally, run

import encode
from design import design
from limits import WHOLE
from spoil import spoiled
from vector import VectorRefused, check

VECTORS = 600
STACK = 64  # KiB: with no more the check has to do
TAKEN = 0
REFUSALS = (12, 13, 14, 15, 16, 21, 31, 32, 33)
FIELD_RANGE = 21

WORDS = {
    12: "a record passes the end",
    13: "a kind that is not 1 to 9",
    14: "a body length that is wrong for the kind",
    15: "a kind out of turn",
    16: "the end comes while more is owed",
    21: "a field out of its range",
    31: "one slot, channel or port too many",
    32: "given before",
    33: "a slot out of its place",
}

KINDS = {
    1: ("a HEADER", {0: "number of partitions", 1: "number of plans"}),
    2: ("a PARTITION", {0: "class", 1: "size"}),
    3: ("a PLAN", {0: "frame"}),
    4: ("a SLOT", {0: "partition", 1: "start", 5: "duration"}),
    5: ("a CHANNEL", {0: "type", 1: "longest message", 3: "depth"}),
    6: ("a PORT", {0: "partition", 1: "direction"}),
    7: ("an IPVI", {0: "number", 1: "source", 2: "mask of receivers"}),
    8: ("a LINE", {0: "line", 1: "owner"}),
    9: ("an ACTION", {0: "scope", 1: "event", 2: "action", 3: "log flag"}),
}


def refusal_in_words(refusal: VectorRefused, vector: bytes) -> str:
    """What a C program must say of a refusal."""
    number, place = int(refusal.number), refusal.place
    return f"refused {number} at byte {place}: {WORDS[number]}\n{record_in_words(vector, number, place)}\n"


def record_in_words(vector: bytes, number: int, place: int) -> str:
    """The line on the record that a place lies in; for a field out of its range, also on the field."""
    if place == len(vector):
        return "  at the end of the vector"
    starts = [0]
    while starts[-1] + 4 <= len(vector):
        starts.append(starts[-1] + 4 + int.from_bytes(vector[starts[-1]:starts[-1] + 2], "little"))
    count = sum(start <= place for start in starts)
    start = starts[count - 1]
    if len(vector) - start < 4:
        return f"  in record {count}, whose head is cut, at byte {start}"
    kind = int.from_bytes(vector[start + 2:start + 4], "little")
    if kind not in KINDS:
        return f"  in record {count}, of an unknown kind, at byte {start}"
    name, fields = KINDS[kind]
    field = f": its {fields[place - start - 4]}" if number == FIELD_RANGE else ""
    return f"  in record {count}, {name}, at byte {start}{field}"


def model_says(vector: bytes) -> tuple[int, bytes, int]:
    """The number of the verdict, what the example must print, and its exit status."""
    try:
        check(vector)
    except VectorRefused as refusal:
        return int(refusal.number), refusal_in_words(refusal, vector).encode(), 1
    return TAKEN, b"taken\n", 0


def vectors() -> Iterator[bytes]:
    """Good and spoiled vectors without end."""
    rng = random.Random(20)
    yield b""
    while True:
        records = design(rng, WHOLE)
        yield encode.vector(records)
        for _ in range(3):
            yield spoiled(rng, records)


def compare_vectors(tally: Tally, folder: Path) -> None:
    """Runs the example until each verdict has come up, and at least so many times."""
    path = folder / "vector"
    for count, vector in enumerate(vectors()):
        reached_all = all(tally.reached[number] for number in (TAKEN, *REFUSALS))
        if (count >= VECTORS and reached_all) or count >= 20 * VECTORS:
            break
        path.write_bytes(vector)
        number, says, status = model_says(vector)
        tally.reached[number] += 1
        found = run(EXAMPLES / "check_vector", path, stack=STACK)
        tally.compare(f"check_vector on {vector.hex()}", found, (says, status))
    tally.require((TAKEN, *REFUSALS))

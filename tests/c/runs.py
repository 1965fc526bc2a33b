"""xm_run beside the model: its result, every byte of the answers, and what the example prints."""

from __future__ import annotations

import subprocess
from itertools import islice
from pathlib import Path
from random import Random
from typing import Iterator

from common import EXAMPLES, INCLUDE, LIBRARIES, ROOT, Tally, run
from entrance import ANSWER, ANSWER_BYTES, ANSWERED, MALFORMED, NO_ROOM, REFUSED, Ending, play
from vectors import TAKEN, model_says

import encode
import scenarios
from events import Tick
from generate import scripts
from limits import WHOLE

SEED = 7
RANDOM_SCRIPTS = 300
KEPT_REFUSED = 10  # of scripts with a vector that is refused, one in so many: check_vector has met those
STACK = 128  # KiB: with no more a run has to do
MARGIN = bytes([0xA5]) * 64  # what the harness puts before and behind the answers
FILLING = MARGIN[:1]

REFUSAL_NAMES = {
    -1: "XM_NO_ACTION", -2: "XM_UNKNOWN_HYPERCALL", -3: "XM_INVALID_PARAM", -4: "XM_PERM_ERROR",
    -5: "XM_INVALID_CONFIG", -6: "XM_INVALID_MODE", -7: "XM_NOT_AVAILABLE", -8: "XM_OP_NOT_ALLOWED",
    -9: "not on the processor", -10: "system halted",
}


def build_harness(folder: Path) -> Path:
    """The program that writes what one call of xm_run does."""
    program = folder / "answers"
    command = ["gcc", "-O2", "-Wall", "-Wextra", "-Werror", f"-I{INCLUDE}", f"-I{EXAMPLES}", "-o", program,
               ROOT / "tests" / "c" / "answers.c", EXAMPLES / "file.c", LIBRARIES / "libentrance.a"]
    subprocess.run(command, check=True)
    return program


# The scripts


def pieces(data: bytes) -> tuple[bytes, bytes] | None:
    """The vector and the event records of a script, if it has as long a vector as it says."""
    end = 2 + int.from_bytes(data[:2], "little")
    return (data[2:end], data[end:]) if 2 <= end <= len(data) else None


def chosen_scripts() -> Iterator[tuple[str, bytes]]:
    """Directed and random scripts, few of those that only refuse their vector, and one that is too long."""
    refused = 0
    directed = sum(1 for _ in scenarios.directed(WHOLE))
    for name, data in islice(scripts(SEED, WHOLE), directed + RANDOM_SCRIPTS):
        found = pieces(data)
        if not found:
            continue
        taken = model_says(found[0])[0] == TAKEN
        refused += not taken
        if taken or refused % KEPT_REFUSED == 0:
            yield name, data
    yield "longer than a script", encode.script(scenarios.SMALLEST_VECTOR, [Tick(time) for time in range(10_000)])


def rooms(rng: Random, needed: int) -> list[int]:
    """Rooms for the answers: none, all of it and more, and less, also with a part of an answer's bytes."""
    less = rng.randrange(needed) if needed else 0
    return [0, needed, needed + rng.randrange(1, 2 * ANSWER_BYTES), less]


# What must come of them


def expected_bytes(ending: Ending, room: int) -> bytes:
    """What the harness must write: the answers over the filling, and the margins as they were."""
    filling = FILLING * (room - len(ending.answers))
    return f"{ending.number}\n".encode() + MARGIN + ending.answers + filling + MARGIN


def expected_print(vector: bytes, records: bytes) -> tuple[bytes, int]:
    """What the example must print for a script, and its exit status."""
    number, says, status = model_says(vector)
    if number != TAKEN:
        return says, status
    ending = play(vector, records, len(records) * ANSWER_BYTES)
    lines = [answer_line(number, answer) for number, answer in enumerate(ANSWER.iter_unpack(ending.answers), 1)]
    if ending.how == MALFORMED:
        lines.append(f"event record {len(lines) + 1}, at byte {end_of(records, len(lines))} of the records, is cut,"
                     " of no kind, or of a wrong length\n")
    return "".join(lines).encode(), 0 if ending.how == ANSWERED else 2


def answer_line(number: int, answer: tuple[int, int, int]) -> str:
    """An answer, with the name of a refusal."""
    code, a, b = answer
    return f"{number}: {code} {a} {b}" + (f"  {REFUSAL_NAMES[code]}" if code < 0 else "") + "\n"


def end_of(records: bytes, count: int) -> int:
    """Where so many whole records end."""
    place = 0
    for _ in range(count):
        place += 4 + int.from_bytes(records[place:place + 2], "little")
    return place


# The comparison


def compare_runs(tally: Tally, folder: Path) -> None:
    """Runs every script with several rooms, and the example on it."""
    harness = build_harness(folder)
    rng = Random(SEED)
    files = folder / "vector", folder / "records", folder / "script"
    for name, data in chosen_scripts():
        vector, records = pieces(data)
        for path, content in zip(files, (vector, records, data)):
            path.write_bytes(content)
        whole = play(vector, records, len(records) * ANSWER_BYTES)
        for room in rooms(rng, len(whole.answers)):
            ending = play(vector, records, room)
            tally.reached[ending.how] += 1
            found = run(harness, files[0], files[1], room, stack=STACK)
            tally.compare(f"xm_run on {name} with room {room}", found, (expected_bytes(ending, room), 0))
        tally.compare(f"run_script on {name}", run(EXAMPLES / "run_script", files[2]), expected_print(vector, records))
    tally.require((ANSWERED, REFUSED, MALFORMED, NO_ROOM))

#!/usr/bin/env python3
"""Writes scripts: good and spoiled vectors, histories of events, malformed input.

    generate.py --seed SEED --count 100 --out DIRECTORY

The same seed always gives the same scripts.
"""

from __future__ import annotations

import argparse
from itertools import islice
from pathlib import Path
from random import Random
from typing import Iterator

import encode
import scenarios
from design import design
from events import Event
from limits import WHOLE, Limits
from player import Player
from spoil import spoiled

LENGTHS = (5, 30, 60, 60, 100, 100, 150, 300)  # of a history, in events


def history(rng: Random, limits: Limits) -> bytes:
    """A good vector, and events that fit the states they meet."""
    player = Player(rng, encode.vector(design(rng, limits)), limits)
    player.play(rng.choice(LENGTHS))
    return encode.script(player.vector, player.events)


def spoiled_vector(rng: Random, limits: Limits) -> bytes:
    """A vector with something wrong in it, and a few events."""
    vector = spoiled(rng, design(rng, limits))
    return encode.script(vector, few_events(rng, limits))


def few_events(rng: Random, limits: Limits) -> list[Event]:
    player = Player(rng, scenarios.SMALLEST_VECTOR, limits)
    player.play(rng.randrange(4))
    return player.events


def malformed(rng: Random, limits: Limits) -> bytes:
    """A script with something wrong in it outside the vector."""
    data = history(rng, limits) if rng.random() < 0.7 else spoiled_vector(rng, limits)
    vector_end = 2 + int.from_bytes(data[:2], "little")
    match rng.randrange(6):
        case 0:
            return data[:rng.randrange(len(data))]
        case 1:
            return data + rng.randbytes(rng.randint(1, 7))
        case 2:
            kind = rng.choice((0, 1, 9, 31, 39, 32 + 256, 0xFFFF, rng.randint(32, 38)))
            return data + encode.framed(kind, bytes(rng.choice((0, 1, 2, 4, 5, 6, 22))))
        case 3:
            length = vector_end - 2 + rng.choice((-1, 1, 4, 255, 0x8000))
            return (length & 0xFFFF).to_bytes(2, "little") + data[2:]
        case 4:
            spot = rng.randrange(vector_end, len(data)) if vector_end < len(data) else 0
            return data[:spot] + rng.randbytes(1) + data[spot + 1:]
    return rng.randbytes(rng.randrange(12))


MAKERS = (history,) * 12 + (spoiled_vector,) * 6 + (malformed,) * 2


def scripts(seed: int, limits: Limits) -> Iterator[tuple[str, bytes]]:
    """First the directed scripts, then random ones without end, each with a name."""
    yield from scenarios.directed(limits)
    number = 0
    while True:
        rng = Random(f"{seed}/{number}")
        maker = rng.choice(MAKERS)
        yield f"{maker.__name__}-{seed}-{number}", maker(rng, limits)
        number += 1


def main() -> None:
    parser = argparse.ArgumentParser(description="Writes scripts into a directory.")
    parser.add_argument("--seed", type=int, default=1)
    parser.add_argument("--count", type=int, default=100)
    parser.add_argument("--out", type=Path, required=True)
    options = parser.parse_args()
    options.out.mkdir(parents=True, exist_ok=True)
    limits = WHOLE
    for name, data in islice(scripts(options.seed, limits), options.count):
        (options.out / f"{name}.bin").write_bytes(data)


if __name__ == "__main__":
    main()

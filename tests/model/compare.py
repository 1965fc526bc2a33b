#!/usr/bin/env python3
"""Compares a script program with the model, byte for byte.

    compare.py PROGRAM [--seed S] [--count N] [--seconds T] [--areas]

Runs every directed script and then N random ones; T seconds end it earlier.  With --areas
the program is asked for the areas at the end, too, and they are compared.  A script
that is answered differently is kept in a file.  Everything that can occur has to be
reached; what was not is listed, and counts as a failure.
"""

from __future__ import annotations

import argparse
import subprocess
import sys
import tempfile
import time
from pathlib import Path

import script
from coverage import Coverage
from events import in_words
from generate import scripts
from limits import WHOLE, Limits
from scenarios import directed

PATIENCE = 60  # seconds for one run of the program
MOST_REPORTED = 10


def run_program(program: list[str], data: bytes) -> bytes:
    """What the program prints for a script; a crash, a hang and an end with an error are shown as such."""
    try:
        done = subprocess.run(program, input=data, capture_output=True, timeout=PATIENCE)
    except subprocess.TimeoutExpired:
        return b"(no end)\n"
    if done.returncode < 0:
        return done.stdout + b"(ended by signal %d)\n" % -done.returncode
    if done.returncode > 0:
        return done.stdout + b"(ended with status %d)\n" % done.returncode
    return done.stdout


def notices_full_disk(program: list[str], data: bytes) -> bool:
    """Whether the program ends with an error where nothing that it prints can be written."""
    with open("/dev/full", "wb") as full:
        return subprocess.run(program, input=data, stdout=full, stderr=subprocess.DEVNULL, timeout=PATIENCE).returncode > 0


def first_difference(run: script.Run, expected: bytes, printed: bytes) -> str:
    """The first line that differs, with its event in words."""
    expected_lines = expected.splitlines()
    printed_lines = printed.splitlines()
    for index in range(max(len(expected_lines), len(printed_lines))):
        expected = line_at(expected_lines, index)
        found = line_at(printed_lines, index)
        if expected != found:
            return (f"line {index + 1} is {found!r}, the model says {expected!r}"
                    f" ({place_in_words(run, expected_lines, index)})")
    return "only the line ends differ"


def line_at(lines: list[bytes], index: int) -> str:
    return lines[index].decode(errors="replace") if index < len(lines) else "(end)"


def place_in_words(run: script.Run, expected: list[bytes], index: int) -> str:
    """Which event a line of the output belongs to."""
    if run.bad:
        return "bad script"
    if run.refusal:
        return f"vector refused, {run.refusal.cause}"
    block, place = divmod(index, len(expected) // len(script.BOARDS))
    if block >= len(script.BOARDS):
        return "after the last block"
    if place == 0:
        return f"heading of block {script.BOARDS[block]}"
    if place > len(run.steps):
        return f"block {script.BOARDS[block]}, area {place - len(run.steps) - 1}"
    step = run.steps[place - 1]
    cause = f", cause {step.cause}" if step.cause else ""
    return f"block {script.BOARDS[block]}, event {place}: {in_words(step.event)}{cause}"


class Comparison:
    """The scripts that were run so far."""

    def __init__(self, program: list[str], limits: Limits, keep: Path, areas: bool):
        self.program = program + ["areas"] * areas
        self.areas = areas
        self.limits = limits
        self.keep = keep
        self.coverage = Coverage(limits)
        self.passed = 0
        self.failed = 0

    def compare(self, name: str, data: bytes) -> None:
        run = script.run(data, self.limits)
        self.coverage.add(run)
        expected = run.text(self.areas).encode()
        printed = run_program(self.program, data)
        if printed == expected:
            self.passed += 1
            return
        self.failed += 1
        if self.failed <= MOST_REPORTED:
            self.keep.mkdir(parents=True, exist_ok=True)
            path = self.keep / f"{name}.bin"
            path.write_bytes(data)
            print(f"DIFFERS {path}: {first_difference(run, expected, printed)}")

    def fill_the_disk(self, data: bytes) -> None:
        if notices_full_disk(self.program, data):
            self.passed += 1
        else:
            self.failed += 1
            print("DIFFERS: with no room for its output the program ends as if all were well")


def main() -> int:
    parser = argparse.ArgumentParser(description="Compares a program with the model.")
    parser.add_argument("program", nargs="+", help="the program, and arguments for it")
    parser.add_argument("--seed", type=int, default=1)
    parser.add_argument("--count", type=int, default=500, help="random scripts to run")
    parser.add_argument("--seconds", type=float, help="when to end")
    parser.add_argument("--areas", action="store_true", help="ask for the areas at the end, and compare them")
    parser.add_argument("--keep", type=Path,
                        default=Path(tempfile.gettempdir()) / "differing-scripts",
                        help="where scripts that differ are written")
    options = parser.parse_args()

    limits = WHOLE
    comparison = Comparison(options.program, limits, options.keep, options.areas)
    begun = time.monotonic()
    most = sum(1 for _ in directed(limits)) + options.count
    for name, data in scripts(options.seed, limits):
        out_of_time = options.seconds and time.monotonic() - begun > options.seconds
        if comparison.passed + comparison.failed == most or out_of_time:
            break
        comparison.compare(name, data)

    comparison.fill_the_disk(next(data for _, data in directed(limits)))
    missing = comparison.coverage.missing()
    print(comparison.coverage.report())
    for what in missing:
        print(f"NOT REACHED {what}")
    print(f"{comparison.passed} passed, {comparison.failed} failed")
    return 1 if comparison.failed or missing else 0


if __name__ == "__main__":
    sys.exit(main())

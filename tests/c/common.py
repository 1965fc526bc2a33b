"""What the parts share: where things are, the model, and how a C program is built and run."""

from __future__ import annotations

import os
import resource
import subprocess
import sys
from collections import Counter
from pathlib import Path

ROOT = Path(__file__).resolve().parents[2]
INCLUDE = ROOT / "include"
EXAMPLES = ROOT / "examples" / "c"
LIBRARIES = ROOT / "target" / "staticlib"
PATIENCE = 60  # seconds for one run of a program
MOST_REPORTED = 10

sys.path.insert(0, str(ROOT / "tests" / "model"))


def build_libraries() -> None:
    """The static libraries over the proved crates. C_LIBRARIES=kept takes those that are there."""
    if os.environ.get("C_LIBRARIES") == "kept":
        return
    for name in ("vector", "entrance"):
        print(f"building target/staticlib/lib{name}.a; what is not proved yet is proved first", flush=True)
        done = subprocess.run([ROOT / "tools" / "archive", name], cwd=ROOT, stdout=subprocess.PIPE,
                              stderr=subprocess.STDOUT, text=True)
        if done.returncode:
            sys.exit(f"{done.stdout}0 passed, 1 failed: tools/archive {name} gives no library")


def build_examples() -> None:
    """The example programs, by their Makefile."""
    subprocess.run(["make", "-s", "-C", str(EXAMPLES), "clean", "all", "CC=gcc"], check=True)


def run(program: Path, *arguments: object, stack: int | None = None) -> tuple[bytes, int]:
    """What a program prints, and its exit status; with no more stack than so many KiB if that is said."""
    def lessen() -> None:
        resource.setrlimit(resource.RLIMIT_STACK, (stack * 1024, stack * 1024))

    done = subprocess.run([program, *map(str, arguments)], stdout=subprocess.PIPE, timeout=PATIENCE, env={},
                          preexec_fn=lessen if stack else None)
    return done.stdout, done.returncode


class Tally:
    """What was compared: how often it agreed, and which cases came up."""

    def __init__(self) -> None:
        self.passed = 0
        self.failed = 0
        self.reached: Counter[object] = Counter()

    def compare(self, what: str, found: object, wanted: object) -> None:
        """Counts a comparison, and reports the first ones that fail."""
        if found == wanted:
            self.passed += 1
            return
        self.failed += 1
        if self.failed <= MOST_REPORTED:
            print(f"DIFFERS {what}\n  the model: {wanted!r}\n  the program: {found!r}")

    def require(self, cases: tuple[object, ...]) -> None:
        """Each case that did not come up is a failure."""
        for case in cases:
            if not self.reached[case]:
                self.failed += 1
                print("NOT REACHED", case)

    def report(self, title: str) -> None:
        """Says how often each case came up."""
        print(f"{title}:", ", ".join(f"{case}: {self.reached[case]}" for case in sorted(self.reached)))

#!/usr/bin/env python3
"""The core as C programs meet it; closes with 'N passed, M failed'.

Builds the static libraries and the examples, and compares what they say with the independent model: verdicts on
vectors, and whole runs. Headers, libraries and the page on them are tried, too.

    tests/c/run.py                         builds the libraries from the crates
    C_LIBRARIES=kept tests/c/run.py        takes those that are in target/staticlib
"""
import sys
import tempfile
from pathlib import Path

from common import Tally, build_examples, build_libraries
from headers import compare_headers
from libraries import compare_libraries
from page import compare_page
from runs import compare_runs
from vectors import compare_vectors


def compare_all(folder: Path) -> list[Tally]:
    """All parts, each with a line on what it does."""
    small, verdicts, runs = Tally(), Tally(), Tally()
    print("the headers alone, in C and in C++; what the libraries need; docs/C.md", flush=True)
    compare_headers(small)
    compare_libraries(small)
    compare_page(small, folder)
    print("check_vector on good and spoiled vectors", flush=True)
    compare_vectors(verdicts, folder)
    verdicts.report("verdicts reached")
    print("xm_run on scripts, with more and less room for the answers", flush=True)
    compare_runs(runs, folder)
    runs.report("endings reached")
    return [small, verdicts, runs]


def main() -> int:
    build_libraries()
    build_examples()
    with tempfile.TemporaryDirectory() as name:
        tallies = compare_all(Path(name))
    failed = sum(tally.failed for tally in tallies)
    print(f"{sum(tally.passed for tally in tallies)} passed, {failed} failed")
    return 1 if failed else 0


if __name__ == "__main__":
    sys.exit(main())

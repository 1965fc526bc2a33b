"""The headers as compilers meet them: each alone, in the oldest C that they are for, and in C++."""

from __future__ import annotations

import subprocess

from common import INCLUDE, Tally

COMPILERS = (("gcc", "-xc", "-std=c99"), ("gcc", "-xc", "-std=c17"), ("g++", "-xc++", "-std=c++11"))
STRICT = ("-Wall", "-Wextra", "-Wpedantic", "-Werror", "-fsyntax-only")


def compare_headers(tally: Tally) -> None:
    """Compiles each header twice in one file, with nothing before it."""
    for header in sorted(INCLUDE.glob("*.h")):
        text = f'#include "{header.name}"\n' * 2
        for compiler in COMPILERS:
            command = [*compiler, *STRICT, f"-I{INCLUDE}", "-"]
            done = subprocess.run(command, input=text, capture_output=True, text=True)
            tally.compare(f"{header.name} by {' '.join(compiler)}", done.stderr, "")

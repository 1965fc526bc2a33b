"""What the static libraries need where they are linked: four functions of the C library, and nothing else."""

from __future__ import annotations

import subprocess

from common import LIBRARIES, Tally

NEEDED = {"memcpy", "memset", "memmove", "memcmp"}
EXPORTS = {"vector": {"xm_vector_refusal", "xm_vector_place"}, "entrance": {"xm_run"}}


def symbols(name: str, *which: str) -> set[str]:
    """Names in a library's symbol table."""
    command = ["nm", "--format=just-symbols", *which, LIBRARIES / f"lib{name}.a"]
    found = subprocess.run(command, check=True, capture_output=True, text=True).stdout.split()
    return {symbol for symbol in found if not symbol.endswith(":")}


def compare_libraries(tally: Tally) -> None:
    """Each library gives C the names of its header and no others, and calls nothing but what is needed."""
    for name, exports in EXPORTS.items():
        others = symbols(name, "--undefined-only") - NEEDED
        tally.compare(f"what lib{name}.a needs besides", others, set())
        tally.compare(f"what lib{name}.a exports", symbols(name, "--extern-only", "--defined-only"), exports)

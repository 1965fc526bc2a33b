"""docs/C.md says what the examples print, and its program does what the page says."""

from __future__ import annotations

import re
import subprocess
import sys
from pathlib import Path

from common import EXAMPLES, ROOT, Tally, run

PAGE = (ROOT / "docs" / "C.md").read_text()
SLOT_OF_NOBODY = "partition A standard 16\nplan 1000\nslot @5 0 1000\n"
MAKEFILE = "CORE := {core}\n{lines}\nall: tool\n"


def blocks(language: str) -> list[str]:
    """The page's blocks in a language."""
    return re.findall(rf"^```{language}\n(.*?)^```$", PAGE, re.M | re.S)


def shown(command: str) -> str:
    """What the page shows below a command."""
    return re.search(rf"^    \$ {re.escape(command)}\n((?:    [^$].*\n)+)", PAGE, re.M)[1].replace("\n    ", "\n")[4:]


def encoded(text: str, *options: str) -> bytes:
    """The bytes of a text, by the tool that the page names."""
    command = [sys.executable, ROOT / "tools" / "xmtext", "encode", *options, "-"]
    return subprocess.run(command, input=text.encode(), capture_output=True, check=True).stdout


def compare_page(tally: Tally, folder: Path) -> None:
    """Tries the page's program with its Makefile lines, and its two examples."""
    program, = (block for block in blocks("c") if "int main" in block)
    (folder / "tool.c").write_text(program)
    (folder / "Makefile").write_text(MAKEFILE.format(core=ROOT, lines=blocks("make")[0]))
    subprocess.run(["make", "-s", "-C", folder, "CC=gcc", "CFLAGS=-std=c99 -Wall -Wextra -Werror"], check=True)
    promised = re.search(r"prints `(.*)`", PAGE)[1]
    tally.compare("the program of C.md", run(folder / "tool"), (f"{promised}\n".encode(), 0))

    (folder / "slot.vector").write_bytes(encoded(SLOT_OF_NOBODY, "--vector"))
    says, _ = run(EXAMPLES / "check_vector", folder / "slot.vector")
    tally.compare("check_vector in C.md", shown("examples/c/check_vector slot.vector"), says.decode())

    (folder / "plans.bin").write_bytes(encoded((ROOT / "examples" / "course" / "plans.xm").read_text()))
    lines = shown("examples/c/run_script plans.bin").splitlines()
    says, _ = run(EXAMPLES / "run_script", folder / "plans.bin")
    tally.compare("run_script in C.md", lines, says.decode().splitlines()[:len(lines)])

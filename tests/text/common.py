"""What the tests share: where things are, what the model prints, and how a tool is run."""

from __future__ import annotations

import subprocess
import sys
from pathlib import Path

ROOT = Path(__file__).resolve().parents[2]
sys.path[:0] = [str(ROOT / "tools"), str(ROOT / "tests" / "model")]

import script  # noqa: E402
from machine import System, boot  # noqa: E402
from vector import check  # noqa: E402
from xm.encoder import encode_script  # noqa: E402

EXAMPLES = ROOT / "examples" / "course"
COURSE = EXAMPLES / "course.xm"
PROGRAM = ROOT / "target" / "bin" / "xmscript"
PATIENCE = 60  # seconds for one run of a tool


def example_paths() -> list[Path]:
    """Every example that is shipped as text."""
    return sorted(EXAMPLES.rglob("*.xm"))


def script_of(path: Path) -> bytes:
    """The bytes of an example."""
    return encode_script(path.read_bytes())


def played(data: bytes) -> tuple[System, list[str]]:
    """The model's system after a script, and its answers as lines."""
    vector, events = script.split(data)
    system = boot(check(vector))
    return system, [str(system.take(event)) for event in events]


def model_output(data: bytes, areas: bool = False) -> str:
    """What the model prints for a script that is taken; with the areas at the end if they are asked for."""
    return script.run(data).text(areas)


def run_tool(name: str, *arguments: object, data: bytes = b"") -> subprocess.CompletedProcess[bytes]:
    """Runs one of the tools."""
    command = [sys.executable, str(ROOT / "tools" / name), *map(str, arguments)]
    return subprocess.run(command, input=data, capture_output=True, timeout=PATIENCE)


def run_program(data: bytes, *arguments: str) -> str:
    """What the program prints for a script."""
    run = subprocess.run([PROGRAM, *arguments], input=data, capture_output=True, timeout=PATIENCE)
    return run.stdout.decode()

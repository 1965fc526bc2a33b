"""What the program printed for a script: answers, and areas if they were asked for."""

from __future__ import annotations

import re
from dataclasses import dataclass, field
from typing import NamedTuple

BOARDS = ("fenced", "paged")
ANSWER = re.compile(r"(-?\d+) (\d+) (\d+)")
AREA = re.compile(r"area (\d+) ((?:[0-9a-f]{2})*)")
REFUSED = re.compile(r"refused (\d+) (\d+)")


class NoOutput(Exception):
    """A text that the program does not print, or one without answers."""


class Answer(NamedTuple):
    """The answer to one event."""

    code: int
    a: int
    b: int


@dataclass
class Block:
    """What was printed for one board."""

    answers: list[Answer] = field(default_factory=list)
    areas: dict[int, bytes] = field(default_factory=dict)


def read_output(text: str) -> dict[str, Block]:
    """The blocks of an output by their boards; raises NoOutput."""
    lines = text.splitlines()
    refuse_without_answers(lines)
    blocks: dict[str, Block] = {}
    block = None
    for number, line in enumerate(lines, 1):
        if line in BOARDS and line not in blocks:
            block = blocks[line] = Block()
        elif block is None or not take_line(block, line):
            raise NoOutput(f"line {number} is nothing that the program prints: {line[:40]!r}")
    return blocks


def refuse_without_answers(lines: list[str]) -> None:
    """Refuses the outputs of scripts that were not run."""
    if not lines:
        raise NoOutput("it is empty")
    if lines == ["bad"]:
        raise NoOutput("it says that the script is bad, so there are no answers")
    refused = REFUSED.fullmatch(lines[0])
    if refused:
        raise NoOutput(f"it says that the vector is refused (number {refused[1]} at byte {refused[2]}),"
                       " so there are no answers")


def take_line(block: Block, line: str) -> bool:
    """Takes a line of a block, if it is one."""
    answer = ANSWER.fullmatch(line)
    if answer and not block.areas:
        block.answers.append(Answer(*map(int, answer.groups())))
        return True
    area = AREA.fullmatch(line)
    if area:
        block.areas[int(area[1])] = bytes.fromhex(area[2])
    return area is not None

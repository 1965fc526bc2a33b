"""What xm_run must answer, by the independent model."""

from __future__ import annotations

import struct
from dataclasses import dataclass

import script
from machine import boot
from vector import VectorRefused, check

ANSWER = struct.Struct("<iII")
ANSWER_BYTES = ANSWER.size
FAILED = 2**64 - 1

ANSWERED, REFUSED, MALFORMED, NO_ROOM = "all answered", "vector refused", "malformed record", "no room"


@dataclass(frozen=True)
class Ending:
    """How a run ended, and the answers up to there."""

    how: str
    answers: bytes

    @property
    def number(self) -> int:
        """What the function returns."""
        return len(self.answers) // ANSWER_BYTES if self.how == ANSWERED else FAILED


def play(vector: bytes, records: bytes, room: int) -> Ending:
    """A run with room for so many bytes of answers."""
    try:
        system = boot(check(vector))
    except VectorRefused:
        return Ending(REFUSED, b"")
    answers = b""
    place = 0
    while place < len(records):
        try:
            event, place = script.read_event(records, place)
        except script.BadScript:
            return Ending(MALFORMED, answers)
        if len(answers) + ANSWER_BYTES > room:
            return Ending(NO_ROOM, answers)
        answer = script.step(system, event).answer
        answers += ANSWER.pack(answer.code, answer.a, answer.b)
    return Ending(ANSWERED, answers)

"""The script program: a vector and events come in, answers go out as lines."""

from __future__ import annotations

from dataclasses import dataclass, field

from events import Answer, Call, Event, Fault, Line, Load, Refused, Store, SystemFault, Tick
from limits import WHOLE, Limits
from machine import System, boot
from vector import HEAD_LENGTH, VectorRefused, check

LONGEST_SCRIPT = 32_768
BOARDS = ("fenced", "paged")

# For each kind of event record: the event, and the widths of the numbers in its body.
EVENT_RECORDS = {
    32: (Tick, (4,)),
    33: (Call, (1, 1, 4, 4, 4, 4, 4)),
    34: (Load, (1, 4)),
    35: (Store, (1, 4, 1)),
    36: (Fault, (1, 1)),
    37: (Line, (1,)),
    38: (SystemFault, (1,)),
}


class BadScript(Exception):
    """The input is no script at all."""


@dataclass
class Step:
    """One event of a run, its answer, and the cause if it was refused."""

    event: Event
    answer: Answer
    cause: str = ""


@dataclass
class Run:
    """What became of a script: bad, refused, or a row of steps, and the areas at the end."""

    bad: bool = False
    refusal: VectorRefused | None = None
    steps: list[Step] = field(default_factory=list)
    areas: list[bytes] = field(default_factory=list)

    def text(self, with_areas: bool = False) -> str:
        if self.bad:
            return "bad\n"
        if self.refusal:
            return f"refused {int(self.refusal.number)} {self.refusal.place}\n"
        lines = "".join(f"{step.answer}\n" for step in self.steps)
        if with_areas:
            lines += "".join(f"area {number} {area.hex()}\n" for number, area in enumerate(self.areas))
        return "".join(f"{board}\n{lines}" for board in BOARDS)


def split(data: bytes) -> tuple[bytes, list[Event]]:
    """The vector and the events of a script; raises BadScript if it is malformed."""
    if len(data) > LONGEST_SCRIPT or len(data) < 2:
        raise BadScript
    place = 2 + int.from_bytes(data[:2], "little")
    if place > len(data):
        raise BadScript
    vector = data[2:place]
    events = []
    while place < len(data):
        event, place = read_event(data, place)
        events.append(event)
    return vector, events


def read_event(data: bytes, place: int) -> tuple[Event, int]:
    """The event record at a place, and the place after it."""
    start = place + HEAD_LENGTH
    if start > len(data):
        raise BadScript
    length = int.from_bytes(data[place:place + 2], "little")
    kind = int.from_bytes(data[place + 2:start], "little")
    end = start + length
    if end > len(data) or kind not in EVENT_RECORDS:
        raise BadScript
    make, widths = EVENT_RECORDS[kind]
    if length != sum(widths):
        raise BadScript
    numbers = read_numbers(data[start:end], widths)
    if make is Call:
        return Call(numbers[0], numbers[1], tuple(numbers[2:])), end
    return make(*numbers), end


def read_numbers(body: bytes, widths: tuple[int, ...]) -> list[int]:
    numbers = []
    place = 0
    for width in widths:
        numbers.append(int.from_bytes(body[place:place + width], "little"))
        place += width
    return numbers


def step(system: System, event: Event) -> Step:
    """Sends one event to a system and keeps the cause of a refusal."""
    try:
        return Step(event, system.decide(event))
    except Refused as refused:
        return Step(event, Answer(refused.code), refused.cause)


def run(data: bytes, limits: Limits = WHOLE) -> Run:
    """Runs a whole script."""
    try:
        vector, events = split(data)
    except BadScript:
        return Run(bad=True)
    try:
        system = boot(check(vector, limits), limits)
    except VectorRefused as refusal:
        return Run(refusal=refusal)
    steps = [step(system, event) for event in events]
    return Run(steps=steps, areas=[bytes(area) for area in system.areas])

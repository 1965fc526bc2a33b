"""The sheet of one partition: its own rows of the vector, its events with their answers, its area.

A sheet is made of nothing else. The renderers see the sheet alone, never the script or the output.
"""

from __future__ import annotations

from dataclasses import dataclass

from .group import Group
from .output import Answer, Block
from .script import GUEST_EVENTS, LINE, LOAD, STORE, TICK, Event
from .wording import answer_in_words, bytes_in_words, event_in_words


class NoSheet(Exception):
    """Script and output do not give the sheet that is asked for."""


@dataclass(frozen=True)
class Own:
    """An event of the partition, the time at which it came, and its answer."""

    time: int
    event: Event
    answer: Answer


@dataclass(frozen=True)
class Entry:
    """A line of the sheet: one event, or loads or stores of neighbouring bytes in one go."""

    first: int
    last: int
    time: int
    what: str
    details: str
    answer: str
    numbers: str
    refused: bool

    @property
    def numbering(self) -> str:
        """Which of the partition's events the line is about, counted from 1."""
        return f"{self.first}" if self.first == self.last else f"{self.first}-{self.last}"


@dataclass(frozen=True)
class Sheet:
    """What is printed of one partition."""

    group: Group
    entries: tuple[Entry, ...]
    area: bytes | None


def make_sheet(group: Group, events: list[Event], block: Block, with_area: bool) -> Sheet:
    """The sheet of a partition for a script's events and what was printed for a board."""
    if len(block.answers) != len(events):
        raise NoSheet(f"the output has {len(block.answers)} answers, the script {len(events)} events: they do not"
                      " belong together")
    area = own_area(group, block) if with_area else None
    return Sheet(group, tuple(entries(group, own_events(group, events, block.answers))), area)


def own_area(group: Group, block: Block) -> bytes:
    """The partition's area at the end, from the output."""
    if group.number not in block.areas:
        raise NoSheet("the output has no areas: run the program with the argument 'areas'")
    area = block.areas[group.number]
    if len(area) != group.size:
        raise NoSheet(f"the output's area has {len(area)} bytes, the vector's {group.size}: they do not belong"
                      " together")
    return area


def own_events(group: Group, events: list[Event], answers: list[Answer]) -> list[Own]:
    """The partition's events with their times; a tick that is taken sets the time."""
    found = []
    now = 0
    for event, answer in zip(events, answers):
        if event.kind == TICK and answer.code == 0:
            now = event.numbers[0]
        elif is_own(group, event):
            found.append(Own(now, event, answer))
    return found


def is_own(group: Group, event: Event) -> bool:
    """Whether an event is the partition's: a guest's that names it, or a line that it owns."""
    if event.kind in GUEST_EVENTS:
        return event.numbers[0] == group.number
    return event.kind == LINE and event.numbers[0] in group.lines


def entries(group: Group, events: list[Own]) -> list[Entry]:
    """The lines of the sheet, in order."""
    found = []
    first = 0
    while first < len(events):
        last = end_of_run(events, first)
        found.append(run_entry(events, first, last) if last > first else single_entry(group, events, first))
        first = last + 1
    return found


def end_of_run(events: list[Own], first: int) -> int:
    """The last of the accesses that go on, byte by byte and at the same time, from the first one."""
    last = first
    while last + 1 < len(events) and goes_on(events[last], events[last + 1]):
        last += 1
    return last


def goes_on(before: Own, after: Own) -> bool:
    """Whether two accesses of one sort, both inside the area, are at neighbouring bytes."""
    return (before.event.kind == after.event.kind and before.event.kind in (LOAD, STORE)
            and before.time == after.time and before.answer.code == after.answer.code == 0
            and after.event.numbers[1] == before.event.numbers[1] + 1)


def run_entry(events: list[Own], first: int, last: int) -> Entry:
    """The line of several accesses."""
    run = events[first:last + 1]
    offsets = f"offsets {run[0].event.numbers[1]:,} to {run[-1].event.numbers[1]:,}"
    if run[0].event.kind == STORE:
        data = bytes(own.event.numbers[2] for own in run)
        return Entry(first + 1, last + 1, run[0].time, "store", f"{offsets}, bytes {bytes_in_words(data)}",
                     "stored", "0 0 0", False)
    data = bytes(own.answer.a & 0xFF for own in run)
    return Entry(first + 1, last + 1, run[0].time, "load", offsets, f"bytes {bytes_in_words(data)}",
                 "0 .. 0", False)


def single_entry(group: Group, events: list[Own], index: int) -> Entry:
    """The line of one event."""
    own = events[index]
    what, details = event_in_words(group, own.event)
    return Entry(index + 1, index + 1, own.time, what, details, answer_in_words(group, own.event, own.answer),
                 " ".join(map(str, own.answer)), own.answer.code < 0)

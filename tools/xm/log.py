"""What became of a whole script: every event, whoever's it is, with its answer in words."""

from __future__ import annotations

from . import names
from .decoder import Decoder
from .group import Group, partition_names, read_group
from .output import Answer, Block
from .script import GUEST_EVENTS, LINE, SYSTEM_FAULT, TICK, Event
from .sheet import NoSheet
from .wording import answer_in_words, microseconds, refusal_in_words

WIDEST = 52  # letters of an event that the column of answers stands clear of

# Why the board's own events are refused.
BOARD_REASONS = {
    (TICK, -8): "XM_OP_NOT_ALLOWED: the time is before now, or more than 1,000,000 µs ahead",
    (LINE, -1): "XM_NO_ACTION: nobody owns the line",
    (LINE, -3): "XM_INVALID_PARAM: the lines go from 0 to 15",
    (SYSTEM_FAULT, -3): "XM_INVALID_PARAM: the system's events are 8 to 11",
}

# What the health monitor's actions do to the system.
SYSTEM_ACTIONS = {0: "nothing happens", 3: "the system is halted", 4: "the system is reset, its areas as they are",
                  5: "the system is reset, its areas zeroed"}


def log_lines(vector: bytes, events: list[Event], block: Block) -> list[str]:
    """A line for each event, in the order of the output's lines."""
    if len(block.answers) != len(events):
        raise NoSheet(f"the output has {len(block.answers)} answers, the script {len(events)} events: they do not"
                      " belong together")
    decoder = Decoder(vector)
    groups = [read_group(vector, number) for number in range(len(partition_names(vector)))]
    written = [decoder.event_line(event) for event in events]
    wide = min(max(map(len, written), default=0), WIDEST)
    digits = len(str(len(events)))
    return [f"{number:>{digits}}  {line:<{wide}}  {said(groups, event, answer)}"
            for number, (line, event, answer) in enumerate(zip(written, events, block.answers), 1)]


def said(groups: list[Group], event: Event, answer: Answer) -> str:
    """An answer: whether it is a refusal, its words, and its numbers."""
    sign = "!" if answer.code < 0 else "="
    return f"{sign} {words(groups, event, answer)}  ({' '.join(map(str, answer))})"


def words(groups: list[Group], event: Event, answer: Answer) -> str:
    """An answer in words."""
    if event.kind not in GUEST_EVENTS:
        return board_words(event, answer)
    if event.numbers[0] >= len(groups):
        return refusal_in_words(event, answer.code)
    return answer_in_words(groups[event.numbers[0]], event, answer)


def board_words(event: Event, answer: Answer) -> str:
    """The answer to an event that is no guest's."""
    if answer.code < 0:
        return BOARD_REASONS.get((event.kind, answer.code)) or refusal_in_words(event, answer.code)
    if event.kind == TICK:
        return f"it is {microseconds(event.numbers[0])}"
    if event.kind == LINE:
        return "signalled to its owner"
    action = names.number_word(names.ACTIONS, answer.code)
    return f"health monitor: {action}, {SYSTEM_ACTIONS.get(answer.code, 'of an unknown sort')}"

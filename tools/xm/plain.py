"""A sheet as plain text."""

from __future__ import annotations

import textwrap

from . import names
from .group import PlanRow, PortRow
from .sheet import Entry, Sheet
from .text import named
from .wording import counted, microseconds

BAR = 80  # letters that stand for a frame
ROW = 16  # bytes in a line of the area
WIDTH = 116  # letters in a line
TIED = "\u00a0"  # a blank at which no line is broken


def plain_sheet(sheet: Sheet) -> str:
    """The whole sheet."""
    lines = [f"Sheet of {named(sheet.group.name)}", "", *group_lines(sheet)]
    for number, plan in enumerate(sheet.group.plans):
        lines += ["", *plan_lines(number, plan)]
    lines += ["", "Events", *event_lines(sheet.entries)]
    if sheet.area is not None:
        lines += ["", "Area at the end", *(f"  {row}" for row in area_rows(sheet.area))]
    return "".join(f"{line.rstrip()}\n" for line in lines)


def group_lines(sheet: Sheet) -> list[str]:
    """What the partition is and has, one thing to a line."""
    return [f"{what}: {value}" for what, value in facts(sheet)]


def facts(sheet: Sheet) -> list[tuple[str, str]]:
    """What the partition is and has, as pairs of words."""
    group = sheet.group
    pairs = [("Partition", f"number {group.number}, {names.number_word(names.CLASSES, group.class_)}"),
             ("Area", counted(group.size, "byte"))]
    pairs += [(f"Port {port.number}", port_line(port)) for port in group.ports]
    if group.links:
        pairs.append(("IPVIs it may raise", ", ".join(map(str, group.links))))
    if group.lines:
        pairs.append(("Interrupt lines", ", ".join(map(str, group.lines))))
    pairs += [(f"At {names.number_word(names.FAULTS, event)}", response_line(action, log))
              for event, action, log in group.responses]
    return pairs


def port_line(port: PortRow) -> str:
    """A port in words."""
    holds = f", {counted(port.depth, 'message')} at most" if port.type == names.QUEUING else ""
    return (f"{named(port.name)}, {names.number_word(names.DIRECTIONS, port.direction)} of a"
            f" {names.number_word(names.CHANNEL_TYPES, port.type)} channel, messages of up to"
            f" {counted(port.longest, 'byte')}{holds}")


def response_line(action: int, log: int) -> str:
    """A response of the health monitor in words."""
    return f"{names.number_word(names.ACTIONS, action)}, {'logged' if log else 'not logged'}"


def plan_lines(number: int, plan: PlanRow) -> list[str]:
    """A plan's frame as a bar, and the partition's slots."""
    slots = ", ".join(slot_label(slot) for slot in plan.slots) or "none"
    return [plan_title(number, plan), f"  [{bar(plan)}]", f"  own slots: {slots}"]


def plan_title(number: int, plan: PlanRow) -> str:
    """A plan's heading."""
    return f"Plan {number}, a frame of {microseconds(plan.frame)}"


def slot_label(slot: tuple[int, int]) -> str:
    """Start and end of a slot."""
    return f"{slot[0]:,} to {slot[1]:,}"


def bar(plan: PlanRow) -> str:
    """The frame in letters: where a slot of the partition lies there is a sign, all else is ground."""
    letters = ["."] * BAR
    for start, end in plan.slots:
        for place in range(start * BAR // plan.frame, -(-end * BAR // plan.frame)):
            letters[place] = "#"
    return "".join(letters)


def event_lines(entries: tuple[Entry, ...]) -> list[str]:
    """The events as a table: number, time, event, and the answer below it."""
    if not entries:
        return ["  none"]
    wide = max(len(entry.numbering) for entry in entries)
    times = max(len(f"{entry.time:,}") for entry in entries)
    lines = []
    for entry in entries:
        margin = f"  {entry.numbering:>{wide}}  {entry.time:>{times},} µs  "
        lines += broken(margin, f"{entry.what}  {entry.details}")
        sign = "!" if entry.refused else "="
        numbers = f"({entry.numbers})".replace(" ", TIED)
        lines += broken(" " * len(margin) + f"{sign} ", f"{entry.answer}  {numbers}")
    return lines


def broken(margin: str, text: str) -> list[str]:
    """A text behind a margin, broken into lines that begin below each other."""
    lines = textwrap.wrap(text, WIDTH, initial_indent=margin, subsequent_indent=" " * len(margin),
                          break_long_words=False, break_on_hyphens=False)
    return [line.replace(TIED, " ") for line in lines]


def area_rows(area: bytes) -> list[str]:
    """The area in hexadecimal digits, with the letters that they stand for."""
    rows = []
    for start in range(0, len(area), ROW):
        part = area[start:start + ROW]
        letters = "".join(chr(byte) if 32 <= byte < 127 else "." for byte in part)
        rows.append(f"{start:04x}  {part.hex(' '):<{3 * ROW - 1}}  {letters}")
    return rows

"""A sheet as a page of HTML that needs nothing else: style and pictures are in it."""

from __future__ import annotations

from html import escape

from .group import PlanRow
from .plain import area_rows, facts, plan_title, slot_label
from .sheet import Entry, Sheet
from .text import named
from .wording import microseconds

# The picture of a frame, in units of its own.
WIDTH = 900
EDGE = 10
BAR_TOP = 22
BAR_HEIGHT = 34
FIRST_LABEL = BAR_TOP + BAR_HEIGHT + 18
LABEL_ROW = 16
LETTER = 6.6  # about the width of a letter of a label
THINNEST = 2.0  # a slot is never drawn thinner

STYLE = """
body { font: 15px/1.45 system-ui, sans-serif; color: #1c1f23; }
body { max-width: 62rem; margin: 2rem auto; padding: 0 1rem; }
h1 { font-size: 1.6rem; margin: 0 0 .8rem; border-bottom: 3px solid #0b6e75; padding-bottom: .3rem; }
h2 { font-size: 1.1rem; margin: 1.6rem 0 .4rem; }
table { border-collapse: collapse; width: 100%; }
th, td { text-align: left; vertical-align: top; padding: .25rem .6rem; border-bottom: 1px solid #dfe2e5; }
th { font-weight: 600; }
thead th { border-bottom: 2px solid #8b939b; white-space: nowrap; }
table.facts { width: auto; }
td.number { text-align: right; white-space: nowrap; font-variant-numeric: tabular-nums; }
code, pre { font: 13px/1.4 ui-monospace, Menlo, Consolas, monospace; }
td code { white-space: nowrap; }
.details, .numbers { color: #59626b; }
tr.refused .answer { color: #a3201d; }
pre { background: #f4f5f6; padding: .7rem .9rem; overflow-x: auto; }
svg { display: block; width: 100%; height: auto; }
svg text { font: 12px system-ui, sans-serif; fill: #1c1f23; }
svg .ground { fill: #e4e6e8; }
svg .slot { fill: #0b6e75; }
svg .leader { stroke: #0b6e75; stroke-width: 1; }
svg .label { stroke: #fff; stroke-width: 4px; paint-order: stroke; }
@media print { body { margin: 0; max-width: none; font-size: 11px; } tr { break-inside: avoid; } }
"""


def html_sheet(sheet: Sheet) -> str:
    """The whole page."""
    title = escape(f"Sheet of {named(sheet.group.name)}")
    parts = [f"<h1>{title}</h1>", facts_table(sheet)]
    for number, plan in enumerate(sheet.group.plans):
        parts += [f"<h2>{escape(plan_title(number, plan))}</h2>", picture(plan)]
    parts += ["<h2>Events</h2>", event_table(sheet.entries)]
    if sheet.area is not None:
        parts += ["<h2>Area at the end</h2>", "<pre>" + escape("\n".join(area_rows(sheet.area))) + "</pre>"]
    return ('<!DOCTYPE html>\n<html lang="en">\n<head>\n<meta charset="utf-8">\n'
            '<meta name="viewport" content="width=device-width, initial-scale=1">\n'
            f"<title>{title}</title>\n<style>{STYLE}</style>\n</head>\n<body>\n"
            + "\n".join(parts) + "\n</body>\n</html>\n")


def facts_table(sheet: Sheet) -> str:
    """What the partition is and has."""
    rows = "".join(f"<tr><th>{escape(what)}</th><td>{escape(value)}</td></tr>\n" for what, value in facts(sheet))
    return f'<table class="facts">\n{rows}</table>'


# The picture of a plan


def picture(plan: PlanRow) -> str:
    """A frame with the partition's own slots; all the rest of it is one ground."""
    starts = [place(plan, start) for start, _ in plan.slots]
    labels = [slot_label(slot) for slot in plan.slots]
    rows = label_rows(starts, labels)
    height = FIRST_LABEL + LABEL_ROW * max(rows, default=0) + 6
    spoken = f"own slots: {', '.join(labels) or 'none'}"
    parts = [f'<svg viewBox="0 0 {WIDTH} {height}" role="img" aria-label="{spoken}">',
             f'<text x="{EDGE}" y="{BAR_TOP - 6}">0</text>',
             f'<text x="{WIDTH - EDGE}" y="{BAR_TOP - 6}" text-anchor="end">{microseconds(plan.frame)}</text>',
             f'<rect class="ground" x="{EDGE}" y="{BAR_TOP}" width="{WIDTH - 2 * EDGE}" height="{BAR_HEIGHT}"/>']
    parts += [slot_picture(plan, slot, row) for slot, row in zip(plan.slots, rows)]
    parts += [label_picture(start, label, row) for start, label, row in zip(starts, labels, rows)]
    if not plan.slots:
        parts.append(f'<text x="{EDGE}" y="{FIRST_LABEL}">no slot of its own</text>')
    return "\n".join([*parts, "</svg>"])


def place(plan: PlanRow, time: int) -> float:
    """Where a moment of the frame lies in the picture."""
    return EDGE + (WIDTH - 2 * EDGE) * time / plan.frame


def slot_picture(plan: PlanRow, slot: tuple[int, int], row: int) -> str:
    """A slot, and a line from its start down to its label."""
    left, right = place(plan, slot[0]), place(plan, slot[1])
    bottom = FIRST_LABEL + LABEL_ROW * row
    return (f'<rect class="slot" x="{left:.1f}" y="{BAR_TOP}" width="{max(right - left, THINNEST):.1f}"'
            f' height="{BAR_HEIGHT}"/>'
            f'<line class="leader" x1="{left:.1f}" y1="{BAR_TOP}" x2="{left:.1f}" y2="{bottom}"/>')


def label_picture(start: float, label: str, row: int) -> str:
    """A slot's label."""
    left, _ = label_span(start, label)
    return f'<text class="label" x="{left:.1f}" y="{FIRST_LABEL + LABEL_ROW * row}">{label}</text>'


def label_span(start: float, label: str) -> tuple[float, float]:
    """Left and right end of a label: behind its line, but within the picture."""
    width = LETTER * len(label)
    left = min(start + LETTER / 2, WIDTH - width)
    return left, left + width


def label_rows(starts: list[float], labels: list[str]) -> list[int]:
    """The row of each label: the first in which it stands clear of what is to its right.

    To its right are the labels of the same row, and the lines that go down to labels of deeper rows.
    """
    taken: list[float] = []  # where the leftmost label of each row begins
    rows = []
    for start, label in zip(reversed(starts), reversed(labels)):
        left, right = label_span(start, label)
        row = next((row for row in range(len(taken)) if right + LETTER < min(taken[row:])), len(taken))
        taken[row:row + 1] = [left]
        rows.append(row)
    return rows[::-1]


# The table of events


def event_table(entries: tuple[Entry, ...]) -> str:
    """The events in order, each with its answer."""
    if not entries:
        return "<p>none</p>"
    head = "<tr><th></th><th>time</th><th>event</th><th>answer</th><th>code a b</th></tr>"
    rows = "".join(event_row(entry) for entry in entries)
    return f"<table>\n<thead>{head}</thead>\n<tbody>\n{rows}</tbody>\n</table>"


def event_row(entry: Entry) -> str:
    """The row of one event."""
    refused = ' class="refused"' if entry.refused else ""
    return (f"<tr{refused}>"
            f'<td class="number">{entry.numbering}</td><td class="number">{microseconds(entry.time)}</td>'
            f'<td>{escape(entry.what)} <span class="details">{escape(entry.details)}</span></td>'
            f'<td class="answer">{escape(entry.answer)}</td>'
            f'<td class="numbers"><code>{entry.numbers}</code></td></tr>\n')

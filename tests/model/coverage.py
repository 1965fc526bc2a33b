"""What a set of scripts has reached, and what it has to reach.

The tables below say by hand, from the rules, what can occur: for each vector
refusal its causes, for each call its codes with their causes, for every other
event its codes.  A cause is the model's word for why it refused.
"""

from __future__ import annotations

from collections import Counter
from dataclasses import dataclass, field

from calls import CALL_COUNT
from events import Call, Event, Fault, Line, Load, Store, SystemFault, Tick
from limits import Limits
from script import Run
from vector import Kind

TAKEN = "taken"

# Refusals of a vector: number -> causes, and the kinds of record they speak of.

FRAME_CAUSES = {12: ("head", "body"), 13: ("kind",)}

KIND_CAUSES = {
    Kind.HEADER: {21: ("header partitions", "header plans"), 16: ("header", "partitions")},
    Kind.PARTITION: {21: ("partition class", "partition area size"), 32: ("partition name",),
                     16: ("plans",)},
    Kind.PLAN: {21: ("plan frame",), 16: ("slots",)},
    Kind.SLOT: {21: ("slot partition", "slot start", "slot duration"), 31: ("slots of a plan",),
                33: ("slot before the last one's end", "slot past its frame")},
    Kind.CHANNEL: {21: ("channel type", "channel longest", "sampling channel depth",
                        "queuing channel depth"), 31: ("channels",), 16: ("ports",)},
    Kind.PORT: {21: ("port partition", "first port direction", "later port direction"),
                31: ("ports", "ports of a queue"), 32: ("port name", "partition in a channel")},
    Kind.IPVI: {21: ("ipvi number", "ipvi source", "ipvi mask"), 32: ("ipvi number and source",)},
    Kind.LINE: {21: ("line number", "line partition"), 32: ("line",)},
    Kind.ACTION: {21: ("action scope", "partition event", "partition action", "system event",
                       "system action", "action log"), 32: ("scope and event",)},
}

# Calls: number -> refusal -> causes.  Besides these, every call can be taken, and can
# be refused with -10 and -9.

OF_TARGET = {-3: ("target",), -4: ("another partition",)}
OF_PORT = ("port number", "another's port", "closed port", "port of the other type")
OF_OPENING = (-3, ("range", "direction", "name", "name of the other type"))
OF_SENDING = (-3, OF_PORT + ("range", "nothing to send", "longer than the longest"))
OF_RECEIVING = (-3, OF_PORT + ("range",))

CALL_CAUSES: dict[int, dict[int, tuple[str, ...]]] = {
    0: {},
    1: OF_TARGET,
    2: OF_TARGET,
    3: {**OF_TARGET, -1: ("not READY or IDLE",)},
    4: {**OF_TARGET, -1: ("not SUSPENDED",)},
    5: {-3: ("target", "mode"), -4: ("another partition",)},
    6: {},
    7: {-3: ("plan",), -4: ("system call",)},
    8: {},
    9: dict([OF_OPENING, (-5, ("longest", "direction")), (-1, ("already open",))]),
    10: dict([OF_SENDING, (-6, ("direction",))]),
    11: dict([OF_RECEIVING, (-6, ("direction",)), (-5, ("range shorter than the message",)),
              (-1, ("no sampling message",))]),
    12: dict([OF_OPENING, (-5, ("longest", "direction", "depth")), (-1, ("already open",))]),
    13: dict([OF_SENDING, (-6, ("direction",)), (-7, ("queue full",))]),
    14: dict([OF_RECEIVING, (-6, ("direction",)), (-5, ("range shorter than the message",)),
              (-7, ("queue empty",))]),
    15: {-3: OF_PORT},
    16: {-3: ("ipvi number",), -1: ("no link", "link to nobody")},
    17: {},
    18: {},
    19: {},
    20: {},
    21: {},
    22: {-4: ("system call",), -7: ("log empty",)},
    23: {-3: ("mode",), -4: ("system call",)},
    24: {-4: ("system call",)},
}

# Other events: sort -> codes, first with the whole rules, then with records up to SLOT
# and call 0 alone, where nothing can halt the system or give a line an owner.

EVENT_CODES = {
    Tick: (-10, -8, 0),
    Load: (-10, -9, 0, 1),
    Store: (-10, -9, 0, 1),
    Fault: (-10, -9, -3, 0, 1, 2, 3, 4, 5),
    Line: (-10, -3, -1, 0),
    SystemFault: (-10, -3, 0, 3, 4, 5),
}

FIRST_EVENT_CODES = {
    Tick: (-8, 0),
    Load: (-9, 0, 1),
    Store: (-9, 0, 1),
    Fault: (-9, -3, 1, 2),
    Line: (-3, -1),
    SystemFault: (-3, 0, 4),
}

TICK_CAUSES = ("tick before now", "tick too far ahead")

SORT_NAMES = {Tick: "tick", Call: "call", Load: "load", Store: "store", Fault: "fault",
              Line: "line", SystemFault: "system fault"}


def sort_of(event: Event) -> str:
    return SORT_NAMES[type(event)]


@dataclass
class Coverage:
    """Counts over all the scripts that were run."""

    limits: Limits
    outcomes: Counter = field(default_factory=Counter)  # bad, refused, ran
    vector: Counter = field(default_factory=Counter)  # (number, cause)
    events: Counter = field(default_factory=Counter)  # (sort, code, cause)
    calls: Counter = field(default_factory=Counter)  # (number, code or taken, cause)

    def add(self, run: Run) -> None:
        if run.bad:
            self.outcomes["bad"] += 1
        elif run.refusal:
            self.outcomes["refused"] += 1
            self.vector[int(run.refusal.number), run.refusal.cause] += 1
        else:
            self.outcomes["ran"] += 1
        for step in run.steps:
            code = int(step.answer.code)
            self.events[sort_of(step.event), code, step.cause] += 1
            if isinstance(step.event, Call):
                self.calls[step.event.number, code if code < 0 else TAKEN, step.cause] += 1

    # What has to be reached

    def required_vector(self) -> set[tuple[int, str]]:
        wanted = dict_pairs(FRAME_CAUSES)
        for kind, causes in KIND_CAUSES.items():
            if kind <= self.limits.kinds:
                wanted |= dict_pairs(causes) | {(14, kind.name.lower()), (15, kind.name.lower())}
        return wanted

    def required_calls(self) -> set[tuple[int, int | str, str]]:
        wanted = set()
        for number, causes in CALL_CAUSES.items():
            wanted |= {(number, code, cause) for code, cause in dict_pairs(causes)}
            wanted.add((number, TAKEN, ""))
            wanted.add((number, -9, "not on the processor"))
            if self.can_halt():
                wanted.add((number, -10, "system halted"))
        wanted |= {(number, -2, "no such call") for number in (CALL_COUNT, 255)}
        return wanted

    def required_events(self) -> set[tuple[str, int]]:
        table = EVENT_CODES if self.can_halt() else FIRST_EVENT_CODES
        return {(SORT_NAMES[sort], code) for sort, codes in table.items() for code in codes}

    def can_halt(self) -> bool:
        """Halting takes a call or an action record."""
        return self.limits.kinds >= Kind.ACTION

    def missing(self) -> list[str]:
        """What has to be reached and was not, in words."""
        lines = [f"outcome {name}" for name in ("bad", "refused", "ran")
                 if not self.outcomes[name]]
        lines += [f"vector refusal {number}: {cause}"
                  for number, cause in sorted(self.required_vector() - set(self.vector))]
        lines += [f"call {number} with {code} {cause}" for number, code, cause
                  in sorted(self.required_calls() - set(self.calls), key=str)]
        reached = {(sort, code) for sort, code, _ in self.events}
        lines += [f"{sort} with {code}"
                  for sort, code in sorted(self.required_events() - reached)]
        lines += [f"tick: {cause}" for cause in TICK_CAUSES
                  if not self.events["tick", -8, cause]]
        return lines

    # The report

    def report(self) -> str:
        parts = [f"scripts: {counted(self.outcomes)}",
                 "vector refusals: " + counted(summed(self.vector, lambda key: key[0])),
                 "event sorts: " + counted(summed(self.events, lambda key: key[0])),
                 "", *self.event_table(), "", *self.call_table()]
        return "\n".join(parts)

    def event_table(self) -> list[str]:
        by_code = summed(self.events, lambda key: key[:2])
        lines = ["event, codes reached"]
        for sort in SORT_NAMES.values():
            codes = {code: count for (name, code), count in by_code.items() if name == sort}
            if sort != "call":
                lines.append(f"  {sort:12} {counted(codes)}")
        return lines

    def call_table(self) -> list[str]:
        by_code = summed(self.calls, lambda key: (min(key[0], CALL_COUNT), key[1]))
        codes = [TAKEN, -1, -2, -3, -4, -5, -6, -7, -9, -10]
        lines = ["call " + "".join(f"{code:>7}" for code in codes)]
        for number in range(CALL_COUNT + 1):
            name = f"{number:4}" if number < CALL_COUNT else f"{number:3}+"
            row = (by_code.get((number, code)) for code in codes)
            lines.append(f"{name} " + "".join(f"{count or '.':>7}" for count in row))
        return lines


def dict_pairs(table: dict) -> set[tuple]:
    return {(key, value) for key, values in table.items() for value in values}


def summed(counts: Counter, key) -> Counter:
    """The counts added up over what a key function keeps of each entry."""
    total: Counter = Counter()
    for entry, count in counts.items():
        total[key(entry)] += count
    return total


def counted(counts) -> str:
    return ", ".join(f"{key}: {counts[key]}" for key in sorted(counts, key=order_key))


def order_key(key):
    return (isinstance(key, str), key)

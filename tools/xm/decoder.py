"""From bytes to text."""

from __future__ import annotations

from collections import Counter

from . import names
from .script import (ACTION, CHANNEL, FAULT, HEADER, IPVI, LINE, LINE_OWNER, LOAD, PARTITION, PLAN, PORT,
                     SLOT, STORE, SYSTEM_FAULT, TICK, Event, Record, split_script, split_vector)
from .text import named, quoted

LONG = 10_000  # from here on a number is easier to read with underscores
INDENT = "    "
LETTERS = range(0x20, 0x7F)  # bytes that are written as a text where they are stored one behind the other
BELONGS_TO = {SLOT: PLAN, PORT: CHANNEL}  # which record a record needs above it


def decode_script(data: bytes) -> str:
    """A text that says the script; raises NoScript if the bytes are none."""
    vector, events = split_script(data)
    decoder = Decoder(vector)
    lines = decoder.vector_lines()
    if events:
        lines += ["", "events"] + decoder.event_lines(events)
    return "".join(f"{line}\n" for line in lines)


def decode_vector(vector: bytes) -> str:
    """A text that says the vector."""
    return "".join(f"{line}\n" for line in Decoder(vector).vector_lines())


def spelled(number: int) -> str:
    """A number as the text writes it."""
    return f"{number:_}" if number >= LONG else str(number)


class Decoder:
    """Writes the lines of one vector, and of events that refer to its partitions."""

    def __init__(self, vector: bytes):
        self.records, self.rest = split_vector(vector)
        self.kinds = [record.kind for record in self.records]
        self.names = [self.name_in_words(record) for record in self.records if record.kind == PARTITION]
        self.uses = Counter(self.names)  # of each name

    def name_in_words(self, record: Record) -> bytes | None:
        """The name of a partition, if its record can be said in words."""
        fields = record.fields()
        if fields is None or self.partition_line(*fields) is None:
            return None
        return fields[1]

    def reference(self, number: int) -> str:
        """A partition by its name, or by its number where the name would not tell."""
        name = self.names[number] if number < len(self.names) else None
        if name is None or self.uses[name] > 1:
            return f"@{spelled(number)}"
        return named(name)

    # The vector

    def vector_lines(self) -> list[str]:
        """The lines of the vector; what has no words is written as bytes."""
        lines = [] if HEADER in self.kinds else ["header none"]
        above: Counter[int] = Counter()  # how many records of each kind stand above
        before = None
        for record in self.records[self.header_is_made():]:
            if starts_paragraph(before, record.kind) and lines:
                lines.append("")
            lines.append(self.record_line(record, above))
            above[record.kind] += 1
            before = record.kind
        if self.rest:
            lines.append(f"bytes {self.rest.hex()}")
        return lines

    def header_is_made(self) -> bool:
        """Whether the only header is the first record, with the counts that would be made up anyway."""
        if self.kinds.count(HEADER) != 1 or self.kinds[0] != HEADER:
            return False
        fields = self.records[0].fields()
        return fields is not None and fields[0] == (self.kinds.count(PARTITION), self.kinds.count(PLAN))

    def record_line(self, record: Record, above: Counter[int]) -> str:
        """The line of one record, below so many records of each kind."""
        fields = record.fields()
        line = RECORD_LINES[record.kind](self, *fields) if fields else None
        owner = BELONGS_TO.get(record.kind)
        if line is None or (owner is not None and not above[owner]):
            return f"record {record.kind} {record.body.hex()}".rstrip()
        if record.kind == PORT:  # calls speak of ports by their numbers, which nothing else shows
            return f"{line}    # port {above[PORT]}"
        return line

    def header_line(self, numbers: tuple[int, ...], name: bytes) -> str | None:
        """A header."""
        return f"header {numbers[0]} {numbers[1]}"

    def partition_line(self, numbers: tuple[int, ...], name: bytes) -> str | None:
        """A partition, if its class has a word."""
        class_, size = numbers
        if class_ >= len(names.CLASSES):
            return None
        return f"partition {named(name)} {names.CLASSES[class_]} {spelled(size)}"

    def plan_line(self, numbers: tuple[int, ...], name: bytes) -> str | None:
        """A plan."""
        return f"plan {spelled(numbers[0])}"

    def slot_line(self, numbers: tuple[int, ...], name: bytes) -> str | None:
        """A slot."""
        partition, start, duration = numbers
        return f"{INDENT}slot {self.reference(partition)} {spelled(start)} {spelled(duration)}"

    def channel_line(self, numbers: tuple[int, ...], name: bytes) -> str | None:
        """A channel, if its type has a word and the word allows the depth."""
        type_, longest, depth = numbers
        if type_ == names.SAMPLING and depth == 1:
            return f"channel sampling {spelled(longest)}"
        if type_ == names.QUEUING:
            return f"channel queuing {spelled(longest)} {depth}"
        return None

    def port_line(self, numbers: tuple[int, ...], name: bytes) -> str | None:
        """A port, if its direction has a word."""
        partition, direction = numbers
        if direction >= len(names.DIRECTIONS):
            return None
        return f"{INDENT}port {self.reference(partition)} {names.DIRECTIONS[direction]} {named(name)}"

    def ipvi_line(self, numbers: tuple[int, ...], name: bytes) -> str | None:
        """An IPVI with its receivers."""
        number, source, mask = numbers
        receivers = [self.reference(bit) for bit in range(8) if mask >> bit & 1]
        return " ".join([f"ipvi {number} {self.reference(source)} to", *receivers])

    def line_owner_line(self, numbers: tuple[int, ...], name: bytes) -> str | None:
        """A line with its owner."""
        return f"line {numbers[0]} {self.reference(numbers[1])}"

    def action_line(self, numbers: tuple[int, ...], name: bytes) -> str | None:
        """An action, if action and log flag have words."""
        scope, event, action, log = numbers
        if action >= len(names.ACTIONS) or log >= len(names.LOG_FLAGS):
            return None
        whose = "system" if scope == names.SYSTEM_SCOPE else self.reference(scope)
        fault = names.number_word(names.FAULTS, event)
        return f"action {whose} {fault} {names.ACTIONS[action]} {names.LOG_FLAGS[log]}"

    # The events

    def event_lines(self, events: list[Event]) -> list[str]:
        """The lines of all events; a text that is stored byte by byte is one line."""
        lines = []
        first = 0
        while first < len(events):
            end = end_of_text(events, first)
            lines.append(self.text_line(events[first:end]) if end - first > 1 else self.event_line(events[first]))
            first = max(end, first + 1)
        return lines

    def text_line(self, stores: list[Event]) -> str:
        """Stores of a text, one byte behind the other."""
        guest, offset, _ = stores[0].numbers
        text = quoted(bytes(store.numbers[2] for store in stores))
        return f"{self.reference(guest)} store {spelled(offset)} {text}"

    def event_line(self, event: Event) -> str:
        """The line of one event."""
        if event.kind == TICK:
            return f"tick {spelled(event.numbers[0])}"
        if event.kind == LINE:
            return f"line {event.numbers[0]}"
        if event.kind == SYSTEM_FAULT:
            return f"system_fault {names.number_word(names.FAULTS, event.numbers[0])}"
        guest, *numbers = event.numbers
        return f"{self.reference(guest)} {self.deed(event.kind, numbers)}"

    def deed(self, kind: int, numbers: list[int]) -> str:
        """What a guest does, without its name."""
        if kind == LOAD:
            return f"load {spelled(numbers[0])}"
        if kind == STORE:
            return f"store {spelled(numbers[0])} {numbers[1]}"
        if kind == FAULT:
            return f"fault {names.number_word(names.FAULTS, numbers[0])}"
        return self.call(numbers[0], numbers[1:])

    def call(self, number: int, arguments: list[int]) -> str:
        """A call by its name, or as it is where the name does not say all of it."""
        if number < len(names.CALLS):
            call = names.CALLS[number]
            used = len(call.arguments)
            if not any(arguments[used:]):
                words = [self.argument(what, value) for what, value in zip(call.arguments, arguments)]
                return " ".join([call.name, *words])
        return " ".join(["call", str(number), *map(spelled, arguments)])

    def argument(self, what: str, value: int) -> str:
        """An argument of a call by name, in the words of its sort."""
        if what == "target":
            return self.reference(value)
        if what == "direction":
            return names.number_word(names.DIRECTIONS, value)
        if what == "mode":
            return names.number_word(names.MODES, value)
        return f"0x{value:x}" if what == "bits" else spelled(value)


RECORD_LINES = {
    HEADER: Decoder.header_line,
    PARTITION: Decoder.partition_line,
    PLAN: Decoder.plan_line,
    SLOT: Decoder.slot_line,
    CHANNEL: Decoder.channel_line,
    PORT: Decoder.port_line,
    IPVI: Decoder.ipvi_line,
    LINE_OWNER: Decoder.line_owner_line,
    ACTION: Decoder.action_line,
}


def end_of_text(events: list[Event], first: int) -> int:
    """Where the stores end that put letters one behind the other, beginning with an event; itself if it is none."""
    end = first
    while end < len(events) and events[end].kind == STORE and events[end].numbers[2] in LETTERS:
        guest, offset, _ = events[first].numbers
        if events[end].numbers[:2] != (guest, offset + end - first):
            break
        end += 1
    return end


def starts_paragraph(before: int | None, kind: int) -> bool:
    """Whether a blank line makes the vector easier to read here."""
    return kind in (PLAN, CHANNEL) or (kind in (IPVI, LINE_OWNER, ACTION) and kind != before)

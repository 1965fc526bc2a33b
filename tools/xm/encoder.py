"""From text to bytes."""

from __future__ import annotations

from dataclasses import dataclass

from . import names
from .script import (ACTION, CALL, CHANNEL, FAULT, HEADER, IPVI, LINE, LINE_OWNER, LOAD, LONGEST_NAME,
                     LONGEST_SCRIPT, PARTITION, PLAN, PORT, SLOT, STORE, SYSTEM_FAULT, TICK, VECTOR_LENGTH, Event,
                     Record, record)
from .text import NUMBER, TextError, Word, Words, hint, listed, read_number, split_lines, split_words

BYTE, HALF, WORD = 0xFF, 0xFFFF, 0xFFFF_FFFF
MASK_BITS = 8  # of an IPVI's mask of receivers


@dataclass(frozen=True)
class Piece:
    """Some bytes, and the line that asked for them."""

    line: int
    data: bytes


def encode_script(text: bytes) -> bytes:
    """The bytes of the script that a text says; raises TextError."""
    encoder = Encoder(text)
    encoder.require_length()
    vector = encoder.vector()
    return VECTOR_LENGTH.pack(len(vector)) + vector + joined(encoder.events)


def encode_vector(text: bytes) -> bytes:
    """The bytes of the vector alone; raises TextError."""
    return Encoder(text).vector()


def record_lines(text: bytes) -> list[tuple[int | None, int, int]]:
    """Of each record of a text's vector: its line, or None for a header that is made, and where it begins and ends."""
    encoder = Encoder(text)
    made = encoder.made_header()
    found: list[tuple[int | None, int, int]] = []
    start = 0
    for index, piece in enumerate(made + encoder.records):
        end = start + len(piece.data)
        found.append((None if index < len(made) else piece.line, start, end))
        start = end
    return found


def joined(pieces: list[Piece]) -> bytes:
    """The bytes of all pieces."""
    return b"".join(piece.data for piece in pieces)


class Encoder:
    """One pass over a text: first the lines of the vector, then those of the events."""

    def __init__(self, text: bytes):
        self.names: list[bytes | None] = []  # of the partitions; None where one cannot be called by name
        self.kinds: list[int] = []  # of the vector's records so far
        self.records: list[Piece] = []
        self.events: list[Piece] = []
        self.header_is_made = True
        self.in_events = False
        self.read(text)

    def read(self, text: bytes) -> None:
        """Takes the lines in order; partitions are known from the start."""
        lines = split_lines(text)
        self.names = partition_names(lines)
        for number, line in enumerate(lines, 1):
            found = split_words(number, line)
            if found:
                self.take_line(Words(number, found))

    def take_line(self, words: Words) -> None:
        """Takes one line."""
        if self.in_events:
            self.take_event_line(words)
        elif words.accept("events"):
            self.in_events = True
        else:
            self.take_vector_line(words)
        words.end()

    # The whole

    def vector(self) -> bytes:
        """The bytes of the vector, with the header that is made."""
        return joined(self.made_header() + self.records)

    def made_header(self) -> list[Piece]:
        """The header from the counts, unless the text has a say in it."""
        if not self.header_is_made or HEADER in self.kinds:
            return []
        counts = [self.kinds.count(PARTITION), self.kinds.count(PLAN)]
        for count, what in zip(counts, ("partitions", "plans")):
            if count > BYTE:
                raise TextError(1, 1, f"the header has no room for {count} {what}: write a header of your own")
        return [Piece(1, record(HEADER, *counts).encoded())]

    def require_length(self) -> None:
        """Refuses the line with which a script becomes too long."""
        length = VECTOR_LENGTH.size
        for piece in self.made_header() + self.records + self.events:
            length += len(piece.data)
            if length > LONGEST_SCRIPT:
                raise TextError(piece.line, 1, f"a script has at most {LONGEST_SCRIPT:,} bytes: with this line it"
                                               f" has {length:,}")

    # The vector

    def take_vector_line(self, words: Words) -> None:
        """Takes a line of the vector, by its first word."""
        first = words.take("a word")
        taker = VECTOR_LINES.get(first.bare)
        if taker is None and (first.bare in EVENT_LINES or self.is_partition(first)):
            words.fail(first, f"{first.shown()} begins an event: events stand below a line 'events'")
        if taker is None:
            words.fail(first, f"unknown word {first.shown()}" + hint(first.written, (*VECTOR_LINES, "events")))
        taker(self, words)

    def is_partition(self, word: Word) -> bool:
        """Whether a word names a partition."""
        name = word.written.encode() if word.quoted is None else word.quoted
        return name in self.names or (word.bare or "").startswith("@")

    def add_record(self, words: Words, made: Record) -> None:
        """Puts a record behind the others."""
        self.kinds.append(made.kind)
        self.records.append(Piece(words.line, made.encoded()))

    def take_header(self, words: Words) -> None:
        """header P M, or header none."""
        if words.accept("none"):
            self.header_is_made = False
            return
        self.add_record(words, record(HEADER, words.number("the number of partitions", BYTE),
                                      words.number("the number of plans", BYTE)))

    def take_partition(self, words: Words) -> None:
        """partition NAME standard|system SIZE"""
        name = words.new_name("the partition's name", LONGEST_NAME)
        class_ = words.choice("the class", names.CLASSES)
        self.add_record(words, record(PARTITION, class_, words.number("the size", HALF), name=name))

    def take_plan(self, words: Words) -> None:
        """plan FRAME"""
        self.add_record(words, record(PLAN, words.number("the frame", WORD)))

    def take_slot(self, words: Words) -> None:
        """slot NAME START DURATION"""
        self.require_above(words, PLAN, "a slot needs a plan above it")
        self.add_record(words, record(SLOT, self.partition(words, "the slot's partition", BYTE),
                                      words.number("the start", WORD), words.number("the duration", WORD)))

    def take_channel(self, words: Words) -> None:
        """channel sampling LONGEST, or channel queuing LONGEST DEPTH."""
        type_ = words.choice("the channel's type", names.CHANNEL_TYPES)
        longest = words.number("the longest message", HALF)
        depth = words.number("the depth", BYTE) if type_ == names.QUEUING else 1
        self.add_record(words, record(CHANNEL, type_, longest, depth))

    def take_port(self, words: Words) -> None:
        """port PARTITION source|destination NAME"""
        self.require_above(words, CHANNEL, "a port needs a channel above it")
        owner = self.partition(words, "the port's partition", BYTE)
        direction = words.choice("the direction", names.DIRECTIONS)
        self.add_record(words, record(PORT, owner, direction, name=words.new_name("the port's name", LONGEST_NAME)))

    def require_above(self, words: Words, kind: int, message: str) -> None:
        """Refuses a line whose record has nothing to belong to."""
        if kind not in self.kinds:
            words.fail(words.words[0], message)

    def take_ipvi(self, words: Words) -> None:
        """ipvi NUMBER SOURCE to NAME NAME .."""
        number = words.number("the interrupt's number", BYTE)
        source = self.partition(words, "the source", BYTE)
        words.keyword("to")
        mask = 0
        while words.left():
            word = words.peek("the receiver")
            receiver = self.partition(words, "the receiver's number", MASK_BITS - 1)
            if mask >> receiver & 1:
                words.fail(word, f"{word.shown()} is a receiver already")
            mask |= 1 << receiver
        self.add_record(words, record(IPVI, number, source, mask))

    def take_line_owner(self, words: Words) -> None:
        """line NUMBER NAME"""
        self.add_record(words, record(LINE_OWNER, words.number("the line", BYTE),
                                      self.partition(words, "the line's owner", BYTE)))

    def take_action(self, words: Words) -> None:
        """action NAME|system EVENT ACTION log|silent"""
        if words.accept("system"):
            scope = names.SYSTEM_SCOPE
        else:
            scope = self.partition(words, "the partition (or 'system')", BYTE)
        self.add_record(words, record(ACTION, scope, self.fault(words), words.choice("the action", names.ACTIONS),
                                      words.choice("the log flag", names.LOG_FLAGS)))

    def take_record(self, words: Words) -> None:
        """record KIND HEX, for a record that has no words."""
        kind = words.number("the kind", HALF)
        body = words.hex_bytes()
        if len(body) > HALF:
            words.fail(words.words[0], f"a record's body has room for {HALF:,} bytes, not for {len(body):,}")
        self.add_record(words, Record(kind, body))

    def take_bytes(self, words: Words) -> None:
        """bytes HEX, for bytes that are no record."""
        words.peek("the first byte")
        self.records.append(Piece(words.line, words.hex_bytes()))

    # The events

    def take_event_line(self, words: Words) -> None:
        """Takes a line of the events, by its first word."""
        first = words.peek("a word")
        if first.bare in EVENT_LINES:
            words.take("a word")
            EVENT_LINES[first.bare](self, words)
            return
        if first.bare == "events":
            words.fail(first, "the events have begun already")
        if first.bare in VECTOR_LINES and not self.is_partition(first):
            words.fail(first, f"'{first.bare}' belongs to the vector, above the line 'events'")
        self.take_guest_event(words, self.partition(words, "the partition", BYTE))

    def take_guest_event(self, words: Words, guest: int) -> None:
        """Takes what a guest does: a call, a load, a store or a fault."""
        word = words.take("what the partition does")
        if word.bare in GUEST_LINES:
            GUEST_LINES[word.bare](self, words, guest)
        elif word.bare in names.CALLS_BY_NAME:
            self.take_named_call(words, guest, names.CALLS_BY_NAME[word.bare])
        else:
            candidates = (*GUEST_LINES, *names.CALLS_BY_NAME)
            words.fail(word, f"no call or event is named {word.shown()}" + hint(word.written, candidates))

    def add_event(self, words: Words, kind: int, *numbers: int) -> None:
        """Puts an event behind the others."""
        self.events.append(Piece(words.line, Event(kind, numbers).encoded()))

    def take_tick(self, words: Words) -> None:
        """tick TIME"""
        self.add_event(words, TICK, words.number("the time", WORD))

    def take_line_event(self, words: Words) -> None:
        """line NUMBER"""
        self.add_event(words, LINE, words.number("the line", BYTE))

    def take_system_fault(self, words: Words) -> None:
        """system_fault EVENT"""
        self.add_event(words, SYSTEM_FAULT, self.fault(words))

    def take_named_call(self, words: Words, guest: int, call: names.Call) -> None:
        """NAME CALL ARGS.., with zeros for the spare arguments."""
        arguments = [self.argument(words, f"the {what} of {call.name}", what) for what in call.arguments]
        if words.left():
            word = words.peek("nothing")
            takes = f"takes {len(arguments)}" if arguments else "takes none"
            words.fail(word, f"{word.shown()} is an argument too many: {call.name} {takes}")
        spare = (0,) * (names.ARGUMENTS - len(arguments))
        self.add_event(words, CALL, guest, call.number, *arguments, *spare)

    def argument(self, words: Words, what: str, sort: str) -> int:
        """An argument of a call: a number, or a word where its sort has words."""
        if sort == "target":
            return self.partition(words, what, WORD, or_number=True)
        word = words.take(what)
        choices = {"direction": names.DIRECTIONS, "mode": names.MODES}.get(sort, ())
        if word.bare in choices:
            return choices.index(word.bare)
        if choices and not NUMBER.fullmatch(word.bare or ""):
            words.fail(word, f"{what} is {listed((*choices, 'a number'))}, not {word.shown()}")
        return words.as_number(word, what, WORD)

    def take_raw_call(self, words: Words, guest: int) -> None:
        """NAME call NUMBER A B C D E"""
        number = words.number("the call's number", BYTE)
        arguments = [words.number(f"argument {index} of {names.ARGUMENTS}", WORD)
                     for index in range(1, names.ARGUMENTS + 1)]
        self.add_event(words, CALL, guest, number, *arguments)

    def take_load(self, words: Words, guest: int) -> None:
        """NAME load OFFSET"""
        self.add_event(words, LOAD, guest, words.number("the offset", WORD))

    def take_store(self, words: Words, guest: int) -> None:
        """NAME store OFFSET BYTE, or a text in place of the byte: a store for each of its bytes."""
        offset = words.number("the offset", WORD)
        word = words.take("the byte")
        if word.quoted is None:
            self.add_event(words, STORE, guest, offset, words.as_number(word, "the byte", BYTE))
            return
        if not word.quoted:
            words.fail(word, "the text to store is empty")
        if offset + len(word.quoted) - 1 > WORD:
            words.fail(word, f"the text goes on behind the last offset, {WORD:,}")
        for place, byte in enumerate(word.quoted, offset):
            self.add_event(words, STORE, guest, place, byte)

    def take_fault(self, words: Words, guest: int) -> None:
        """NAME fault EVENT"""
        self.add_event(words, FAULT, guest, self.fault(words))

    # Partitions and fault events

    def partition(self, words: Words, what: str, most: int, or_number: bool = False) -> int:
        """The number of the partition that the next word names."""
        word = words.take(what)
        bare = word.bare or ""
        if bare.startswith("@") and NUMBER.fullmatch(bare[1:]):
            return words.fitting(word, what, read_number(bare[1:]), most)
        if NUMBER.fullmatch(bare):
            if or_number:
                return words.as_number(word, what, most)
            words.fail(word, f"{what} is a name: write @{bare} for partition {bare}")
        return words.fitting(word, what, self.numbered(words, word), most)

    def numbered(self, words: Words, word: Word) -> int:
        """The number of the one partition of a name."""
        name = words.as_name(word)
        numbers = [number for number, known in enumerate(self.names) if known == name]
        if not numbers:
            known = [name.decode() for name in self.names if name and name.isascii()]
            words.fail(word, f"no partition is called {word.shown()}" + hint(word.written, known))
        if len(numbers) > 1:
            ways = listed([f"@{number}" for number in numbers])
            words.fail(word, f"{len(numbers)} partitions are called {word.shown()}: write {ways}")
        return numbers[0]

    def fault(self, words: Words) -> int:
        """The next word as a fault event, by name or by number."""
        word = words.take("the event")
        if word.bare in names.FAULTS:
            return names.FAULTS.index(word.bare)
        if word.bare is None or not NUMBER.fullmatch(word.bare):
            words.fail(word, f"no event is called {word.shown()}" + hint(word.written, names.FAULTS))
        return words.as_number(word, "the event", BYTE)


VECTOR_LINES = {
    "header": Encoder.take_header,
    "partition": Encoder.take_partition,
    "plan": Encoder.take_plan,
    "slot": Encoder.take_slot,
    "channel": Encoder.take_channel,
    "port": Encoder.take_port,
    "ipvi": Encoder.take_ipvi,
    "line": Encoder.take_line_owner,
    "action": Encoder.take_action,
    "record": Encoder.take_record,
    "bytes": Encoder.take_bytes,
}

EVENT_LINES = {
    "tick": Encoder.take_tick,
    "line": Encoder.take_line_event,
    "system_fault": Encoder.take_system_fault,
}

GUEST_LINES = {
    "call": Encoder.take_raw_call,
    "load": Encoder.take_load,
    "store": Encoder.take_store,
    "fault": Encoder.take_fault,
}


def partition_names(lines: list[str]) -> list[bytes | None]:
    """The names of the partitions that the lines of a vector have, in order.

    Lines with mistakes are passed over: whoever takes them in turn refuses them there.
    """
    found: list[bytes | None] = []
    for number, line in enumerate(lines, 1):
        try:
            words = Words(number, split_words(number, line))
        except TextError:
            continue
        first = words.take("a word").bare if words.left() else None
        if first == "events":
            break
        if first == "partition":
            found.append(name_or_none(words))
        elif first == "record" and is_partition_kind(words):
            found.append(None)
    return found


def name_or_none(words: Words) -> bytes | None:
    """The next word as a name, if it is one."""
    try:
        return words.new_name("the name", LONGEST_NAME)
    except TextError:
        return None


def is_partition_kind(words: Words) -> bool:
    """Whether the next word is the kind of a partition's record."""
    kind = words.take("the kind").bare if words.left() else None
    return kind is not None and NUMBER.fullmatch(kind) is not None and read_number(kind) == PARTITION

"""Events and their answers in words, as the partition that they belong to reads them.

Nothing here knows a name of another partition: targets are shown by their numbers.
"""

from __future__ import annotations

from . import names
from .group import Group, PortRow
from .output import Answer
from .script import CALL, FAULT, LOAD, STORE, Event
from .text import named, quoted

ALL_BITS = 0xFFFF_FFFF

# Bits of the interrupt words that have something in common: first, last, one of them, several of them.
BIT_FAMILIES = ((0, 7, "IPVI", "IPVI"), (8, 8, "message", ""), (9, 9, "fault", ""), (10, 15, "bit", "bits"),
                (16, 31, "line", "lines"))
FIRST_LINE_BIT = 16

REFUSALS = {
    -1: ("XM_NO_ACTION", "there is nothing to do it to"),
    -2: ("XM_UNKNOWN_HYPERCALL", "no call has this number"),
    -3: ("XM_INVALID_PARAM", "an argument names nothing that there is"),
    -4: ("XM_PERM_ERROR", "only a system partition may do this"),
    -5: ("XM_INVALID_CONFIG", "it does not agree with the configuration"),
    -6: ("XM_INVALID_MODE", "the port has the other direction"),
    -7: ("XM_NOT_AVAILABLE", "it is full or empty"),
    -8: ("XM_OP_NOT_ALLOWED", "time cannot go there"),
    -9: ("not on the processor", "its slot does not run, or it is not READY"),
    -10: ("system halted", "the whole system is halted"),
}

NO_TARGET = "there is no such partition"
OTHERS = "a standard partition may name itself and nobody else"
NO_PORT = "the port is not its own, not open or of the other type"
RANGE = "the range leaves the area"

# Why a call was refused, where the call leaves fewer reasons than the code.
CALL_REASONS = {
    (1, -3): NO_TARGET, (2, -3): NO_TARGET, (3, -3): NO_TARGET, (4, -3): NO_TARGET,
    (1, -4): OTHERS, (2, -4): OTHERS, (3, -4): OTHERS, (4, -4): OTHERS, (5, -4): OTHERS,
    (3, -1): "the target is neither READY nor IDLE",
    (4, -1): "the target is not SUSPENDED",
    (5, -3): "there is no such partition, or no such mode",
    (7, -3): "there is no such plan",
    (9, -3): f"{RANGE}, the direction is none, or it has no sampling port of this name",
    (9, -5): "longest message or direction is not that of the configuration",
    (9, -1): "the port is open already",
    (10, -3): f"{NO_PORT}, the length is 0 or above the longest, or {RANGE}",
    (10, -6): "the port is not a source",
    (11, -3): f"{NO_PORT}, or {RANGE}",
    (11, -6): "the port is not a destination",
    (11, -5): "the range is too short for the message",
    (11, -1): "the channel holds no message",
    (12, -3): f"{RANGE}, the direction is none, or it has no queuing port of this name",
    (12, -5): "longest message, direction or depth is not that of the configuration",
    (12, -1): "the port is open already",
    (13, -3): f"{NO_PORT}, the length is 0 or above the longest, or {RANGE}",
    (13, -6): "the port is not a source",
    (13, -7): "the queue is full",
    (14, -3): f"{NO_PORT}, or {RANGE}",
    (14, -6): "the port is not a destination",
    (14, -5): "the range is too short for the message",
    (14, -7): "the queue is empty",
    (15, -3): NO_PORT,
    (16, -3): "the numbers go from 0 to 7",
    (16, -1): "it has no link of this number, or one to nobody",
    (22, -7): "the log is empty",
    (23, -3): "there is no such mode",
}
FAULT_REASON = "a guest's fault events are 0 to 6"

# What the health monitor's actions do to a partition.
ACTION_MEANINGS = {
    "ignore": "nothing happens to it",
    "signal": "the fault bit is signalled to it",
    "suspend": "it is SUSPENDED",
    "halt": "it is HALTED, its ports closed and its interrupts cleared",
    "warm_reset": "it starts again: READY, its ports closed and its interrupts cleared",
    "cold_reset": "it starts again: READY, its ports closed, its interrupts cleared and its area zeroed",
}

PLAIN_ANSWERS = {
    2: "the target is HALTED",
    3: "the target is SUSPENDED",
    4: "the target is READY",
    6: "it is IDLE now, unless an interrupt that it does not hide is pending",
    7: "that plan follows where the frame ends",
    10: "the message is in the channel",
    13: "the message is in the queue",
    16: "the interrupt is signalled",
    18: "these interrupts are hidden",
    19: "these interrupts are shown",
    20: "these interrupts are dropped",
    23: "the system is reset",
    24: "the system is halted",
}


def microseconds(time: int) -> str:
    """A time with its unit."""
    return f"{time:,} µs"


def counted(number: int, one: str) -> str:
    """A number of things, one or several."""
    return f"{number:,} {one}" if number == 1 else f"{number:,} {one}s"


def bytes_in_words(data: bytes) -> str:
    """Bytes in hexadecimal digits, and as text where they are one."""
    text = f" {quoted(data)}" if all(32 <= byte < 127 for byte in data) else ""
    return data.hex(" ") + text


def bits_in_words(word: int) -> str:
    """The interrupts of a word."""
    if word == 0:
        return "none"
    if word == ALL_BITS:
        return "all"
    found = [stretch_in_words(*stretch) for stretch in stretches(word)]
    return ", ".join(found)


def stretches(word: int) -> list[tuple[int, int, str, str]]:
    """Runs of ones in an interrupt word, each within a family: first and last bit, and what they are."""
    found = []
    for first, last, one, several in BIT_FAMILIES:
        start = None
        for bit in range(first, last + 2):
            is_set = bit <= last and word >> bit & 1
            if is_set and start is None:
                start = bit
            if not is_set and start is not None:
                found.append((start, bit - 1, one, several))
                start = None
    return found


def stretch_in_words(first: int, last: int, one: str, several: str) -> str:
    """One run of interrupts."""
    if not several:
        return one
    base = FIRST_LINE_BIT if first >= FIRST_LINE_BIT else 0
    if first == last:
        return f"{one} {first - base}"
    return f"{several} {first - base} to {last - base}"


# Events


def event_in_words(group: Group, event: Event) -> tuple[str, str]:
    """What the event is, and its numbers."""
    numbers = event.numbers[1:]
    if event.kind == CALL:
        return names.call_title(numbers[0]), ", ".join(arguments_in_words(group, numbers[0], numbers[1:]))
    if event.kind == LOAD:
        return "load", f"offset {numbers[0]:,}"
    if event.kind == STORE:
        return "store", f"offset {numbers[0]:,}, byte {bytes_in_words(bytes([numbers[1]]))}"
    if event.kind == FAULT:
        return "fault", names.number_word(names.FAULTS, numbers[0])
    return "interrupt line", f"{event.numbers[0]}"


def arguments_in_words(group: Group, number: int, arguments: tuple[int, ...]) -> list[str]:
    """The arguments that a call reads; all five where it is not known what they are."""
    if number >= len(names.CALLS):
        return [f"{value:,}" for value in arguments]
    sorts = names.CALLS[number].arguments
    return [argument_in_words(group, sort, value) for sort, value in zip(sorts, arguments)]


def argument_in_words(group: Group, sort: str, value: int) -> str:
    """One argument with what it is."""
    if sort == "target":
        return "target itself" if value == group.number else f"target partition {value:,}"
    if sort == "bits":
        return f"bits 0x{value:08x} ({bits_in_words(value)})"
    if sort == "direction":
        return f"direction {names.number_word(names.DIRECTIONS, value)}"
    if sort == "mode":
        return f"mode {names.number_word(names.MODES, value)}"
    if sort == "port":
        return port_in_words(group.port(value), value)
    return f"{sort} {value:,}"


def port_in_words(port: PortRow | None, number: int) -> str:
    """A port by its number, and by its name if it is an own one."""
    return f"port {number:,}" if port is None else f"port {number} ({named(port.name)})"


# Answers


def answer_in_words(group: Group, event: Event, answer: Answer) -> str:
    """What an answer means."""
    if answer.code < 0:
        return refusal_in_words(event, answer.code)
    if event.kind == CALL:
        return call_answer_in_words(group, event.numbers[1], event.numbers[2:], answer)
    if event.kind in (LOAD, STORE):
        return access_in_words(group, event.kind, answer)
    if event.kind == FAULT:
        return action_in_words(answer.code)
    return "signalled"


def refusal_in_words(event: Event, code: int) -> str:
    """A refusal's name, and why it is given."""
    name, reason = REFUSALS.get(code, (f"refusal {code}", "of an unknown sort"))
    if event.kind == CALL:
        reason = CALL_REASONS.get((event.numbers[1], code), reason)
    if event.kind == FAULT and code == -3:
        reason = FAULT_REASON
    return f"{name}: {reason}"


def action_in_words(action: int) -> str:
    """An action of the health monitor, and what it does."""
    word = names.number_word(names.ACTIONS, action)
    return f"health monitor: {word}, {ACTION_MEANINGS.get(word, 'of an unknown sort')}"


def access_in_words(group: Group, kind: int, answer: Answer) -> str:
    """The answer to a load or a store."""
    if answer.code:
        action, _ = group.response(names.MEM_PROTECTION)
        return f"outside the area, MEM_PROTECTION; {action_in_words(action)}"
    return f"byte {bytes_in_words(bytes([answer.a & 0xFF]))}" if kind == LOAD else "stored"


def call_answer_in_words(group: Group, number: int, arguments: tuple[int, ...], answer: Answer) -> str:
    """The answer to a call that was taken."""
    code, a, b = answer
    match number:
        case 0:
            return f"the time is {microseconds(a)}"
        case 1:
            return f"the target is {names.STATES.get(code, f'in state {code}')}"
        case 5:
            zeroed = ", its area is zeroed" if arguments[1] else ""
            return f"the target is READY, its ports are closed, its interrupts cleared{zeroed}"
        case 8:
            return f"plan {code} is in force, plan {a} follows; {microseconds(b)} of the frame are in no slot"
        case 9 | 12:
            return f"{port_in_words(group.port(code), code)} is open"
        case 11:
            return f"{counted(code, 'byte')}, sent at {microseconds(a)}"
        case 14:
            return f"{counted(code, 'byte')}, sent at {microseconds(a)}; {counted(b, 'message')} left"
        case 15:
            return f"{counted(a, 'message')} in the queue"
        case 17:
            return f"pending: {bits_in_words(a)}; not hidden: {bits_in_words(~b & ALL_BITS)}"
        case 21:
            return action_in_words(code)
        case 22:
            return log_entry_in_words(code, a, b)
    return PLAIN_ANSWERS.get(number, "taken")


def log_entry_in_words(left: int, time: int, packed: int) -> str:
    """An entry of the log as call 22 shows it."""
    partition, event, action = packed & 0xFF, packed >> 8 & 0xFF, packed >> 16 & 0xFF
    whose = "the system" if partition == names.SYSTEM_SCOPE else f"partition {partition}"
    return (f"at {microseconds(time)} {names.number_word(names.FAULTS, event)} of {whose}, action"
            f" {names.number_word(names.ACTIONS, action)}; {left} left in the log")

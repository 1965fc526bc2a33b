"""What the numbers in vectors, events and answers are called."""

from __future__ import annotations

from dataclasses import dataclass

SYSTEM_SCOPE = 255  # the scope of an action that concerns the whole system

CLASSES = ("standard", "system")
CHANNEL_TYPES = ("sampling", "queuing")
DIRECTIONS = ("source", "destination")
MODES = ("warm", "cold")
LOG_FLAGS = ("silent", "log")
ACTIONS = ("ignore", "signal", "suspend", "halt", "warm_reset", "cold_reset")
STATES = {1: "READY", 2: "IDLE", 3: "SUSPENDED", 4: "HALTED"}

SAMPLING, QUEUING = range(2)

FAULTS = ("ILLEGAL_INST", "PRIVILEGED_INST", "MEM_ADDR_NOT_ALIG", "DATA_ACC_EXCEPTION", "DIVIDE_EXCEPTION",
          "REG_HW_ERROR", "MEM_PROTECTION", "PARTITION_ERROR", "OVERRUN", "SCHED_ERROR", "INTERNAL_ERROR",
          "UNEXPECTED_TRAP")
MEM_PROTECTION = FAULTS.index("MEM_PROTECTION")

# What the health monitor does where the vector says nothing: action and log flag by event.
DEFAULT_RESPONSES = ((1, 0), (1, 1), (1, 0), (1, 1), (1, 0), (2, 1), (2, 1), (3, 1))


@dataclass(frozen=True)
class Call:
    """A call: XtratuM's name without its prefix, and what its arguments are."""

    number: int
    name: str
    arguments: tuple[str, ...] = ()


CALLS = (
    Call(0, "get_time"),
    Call(1, "get_partition_status", ("target",)),
    Call(2, "halt_partition", ("target",)),
    Call(3, "suspend_partition", ("target",)),
    Call(4, "resume_partition", ("target",)),
    Call(5, "reset_partition", ("target", "mode")),
    Call(6, "idle_self"),
    Call(7, "switch_sched_plan", ("plan",)),
    Call(8, "get_plan_status"),
    Call(9, "create_sampling_port", ("address", "length", "longest", "direction")),
    Call(10, "write_sampling_message", ("port", "address", "length")),
    Call(11, "read_sampling_message", ("port", "address", "length")),
    Call(12, "create_queuing_port", ("address", "length", "longest", "direction", "depth")),
    Call(13, "send_queuing_message", ("port", "address", "length")),
    Call(14, "receive_queuing_message", ("port", "address", "length")),
    Call(15, "get_queuing_port_status", ("port",)),
    Call(16, "raise_ipvi", ("number",)),
    Call(17, "get_irqs"),
    Call(18, "set_irqmask", ("bits",)),
    Call(19, "clear_irqmask", ("bits",)),
    Call(20, "clear_irqpend", ("bits",)),
    Call(21, "hm_raise_event"),
    Call(22, "hm_read"),
    Call(23, "reset_system", ("mode",)),
    Call(24, "halt_system"),
)
CALLS_BY_NAME = {call.name: call for call in CALLS}
ARGUMENTS = 5  # that every call record has

GET_IRQS = 17  # the one call that XtratuM does not have


def call_title(number: int) -> str:
    """A call's full name, as XtratuM's guests write it."""
    if number >= len(CALLS):
        return f"call {number}"
    name = CALLS[number].name
    return name if number == GET_IRQS else f"XM_{name}"


def number_word(words: tuple[str, ...], number: int) -> str:
    """The word for a number, or the number itself where there is no word."""
    return words[number] if number < len(words) else str(number)

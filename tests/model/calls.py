"""The calls of a guest that is on the processor.

Each call first tests what can be refused, in the order of the refusals, and then
changes the system.  `system` is the machine, `caller` the calling partition.
"""

from __future__ import annotations

from collections import deque
from typing import TYPE_CHECKING

from events import Answer, Refusal, Refused
from state import MESSAGE_BIT, PARTITION_ERROR, Message, Mode, State
from vector import Channel, ChannelType, Direction, Port

if TYPE_CHECKING:
    from machine import System

IPVI_NUMBERS = 8


def refuse_if(condition: bool, code: Refusal, cause: str) -> None:
    if condition:
        raise Refused(code, cause)


# Tests that several calls share


def require_target(system: System, target: int) -> None:
    refuse_if(target >= len(system.partitions), Refusal.NO_SUCH_THING, "target")


def require_mode(mode: int) -> None:
    refuse_if(mode not in (0, 1), Refusal.NO_SUCH_THING, "mode")


def require_right_over(system: System, caller: int, target: int) -> None:
    """A standard partition may act on itself alone."""
    refuse_if(target != caller and not system.tables.is_system(caller),
              Refusal.NOT_PERMITTED, "another partition")


def require_system_class(system: System, caller: int) -> None:
    refuse_if(not system.tables.is_system(caller), Refusal.NOT_PERMITTED, "system call")


def require_range(system: System, caller: int, address: int, length: int) -> None:
    refuse_if(address + length > len(system.areas[caller]), Refusal.NO_SUCH_THING, "range")


def require_open_port(system: System, caller: int, number: int,
                      type_: ChannelType) -> tuple[Port, Channel, deque[Message]]:
    """The caller's open port of a type, with its channel and what waits there."""
    tables = system.tables
    refuse_if(number >= len(tables.ports), Refusal.NO_SUCH_THING, "port number")
    port = tables.ports[number]
    refuse_if(port.partition != caller, Refusal.NO_SUCH_THING, "another's port")
    refuse_if(number not in system.partitions[caller].open_ports,
              Refusal.NO_SUCH_THING, "closed port")
    channel = tables.channels[port.channel]
    refuse_if(channel.type != type_, Refusal.NO_SUCH_THING, "port of the other type")
    return port, channel, system.channels[port.channel]


def require_direction(port: Port, direction: Direction) -> None:
    refuse_if(port.direction != direction, Refusal.WRONG_DIRECTION, "direction")


# Time, partitions and plans


def get_time(system, caller, arguments):
    return Answer(0, system.now)


def get_state(system, caller, arguments):
    target = arguments[0]
    require_target(system, target)
    require_right_over(system, caller, target)
    return Answer(system.partitions[target].state)


def halt_partition(system, caller, arguments):
    target = arguments[0]
    require_target(system, target)
    require_right_over(system, caller, target)
    system.halt(target)
    return Answer()


def suspend_partition(system, caller, arguments):
    target = arguments[0]
    require_target(system, target)
    require_right_over(system, caller, target)
    state = system.partitions[target].state
    refuse_if(state not in (State.READY, State.IDLE),
              Refusal.WRONG_STATE, "not READY or IDLE")
    system.suspend(target)
    return Answer()


def resume_partition(system, caller, arguments):
    target = arguments[0]
    require_target(system, target)
    require_right_over(system, caller, target)
    partition = system.partitions[target]
    refuse_if(partition.state != State.SUSPENDED, Refusal.WRONG_STATE, "not SUSPENDED")
    partition.state = State.READY
    return Answer()


def reset_partition(system, caller, arguments):
    target, mode = arguments[:2]
    require_target(system, target)
    require_mode(mode)
    require_right_over(system, caller, target)
    system.reset(target, Mode(mode))
    return Answer()


def idle_self(system, caller, arguments):
    partition = system.partitions[caller]
    if not partition.has_unmasked_bit():
        partition.state = State.IDLE
    return Answer()


def switch_plan(system, caller, arguments):
    plan = arguments[0]
    refuse_if(plan >= len(system.tables.plans), Refusal.NO_SUCH_THING, "plan")
    require_system_class(system, caller)
    system.next_plan = plan
    return Answer()


def get_plan(system, caller, arguments):
    plan = system.tables.plans[system.plan]
    slotless = 0
    gap_start = 0
    for slot in plan.slots:
        slotless += slot.start - gap_start
        gap_start = slot.end
    slotless += plan.frame - gap_start
    return Answer(system.plan, system.next_plan, slotless)


# Ports


def open_port(system, caller, arguments, type_):
    address, length, longest, direction, depth = arguments
    tables = system.tables
    require_range(system, caller, address, length)
    refuse_if(direction not in (0, 1), Refusal.NO_SUCH_THING, "direction")
    name = bytes(system.areas[caller][address:address + length])
    number = find_port(system, caller, name, type_)
    port = tables.ports[number]
    channel = tables.channels[port.channel]
    refuse_if(longest != channel.longest, Refusal.DIFFERS, "longest")
    refuse_if(direction != port.direction, Refusal.DIFFERS, "direction")
    refuse_if(type_ == ChannelType.QUEUING and depth != channel.depth,
              Refusal.DIFFERS, "depth")
    open_ports = system.partitions[caller].open_ports
    refuse_if(number in open_ports, Refusal.WRONG_STATE, "already open")
    open_ports.add(number)
    return Answer(number)


def find_port(system, caller, name, type_):
    """The number of the caller's port of that name and type."""
    tables = system.tables
    for number, port in enumerate(tables.ports):
        if port.partition == caller and port.name == name:
            other_type = tables.channels[port.channel].type != type_
            refuse_if(other_type, Refusal.NO_SUCH_THING, "name of the other type")
            return number
    raise Refused(Refusal.NO_SUCH_THING, "name")


def require_message_to_send(system, caller, arguments, type_):
    """The channel's number for a send that may go ahead, and the bytes to send."""
    number, address, length = arguments[:3]
    port, channel, waiting = require_open_port(system, caller, number, type_)
    refuse_if(length == 0, Refusal.NO_SUCH_THING, "nothing to send")
    refuse_if(length > channel.longest, Refusal.NO_SUCH_THING, "longer than the longest")
    require_range(system, caller, address, length)
    require_direction(port, Direction.SOURCE)
    refuse_if(type_ == ChannelType.QUEUING and len(waiting) == channel.depth,
              Refusal.FULL_OR_EMPTY, "queue full")
    return port.channel, bytes(system.areas[caller][address:address + length])


def signal_readers(system, channel):
    """Tells every partition whose destination port of the channel is open."""
    for number in system.tables.channels[channel].ports:
        port = system.tables.ports[number]
        if (port.direction == Direction.DESTINATION
                and number in system.partitions[port.partition].open_ports):
            system.signal(port.partition, MESSAGE_BIT)


def require_message_to_receive(system, caller, arguments, type_):
    """What waits in the channel, for a receive that may go ahead."""
    number, address, length = arguments[:3]
    port, _, waiting = require_open_port(system, caller, number, type_)
    require_range(system, caller, address, length)
    require_direction(port, Direction.DESTINATION)
    refuse_if(len(waiting) > 0 and length < len(waiting[0].data),
              Refusal.DIFFERS, "range shorter than the message")
    return waiting


def copy_to_front(system, caller, address, data):
    system.areas[caller][address:address + len(data)] = data


def open_sampling_port(system, caller, arguments):
    return open_port(system, caller, arguments, ChannelType.SAMPLING)


def write_sampling_message(system, caller, arguments):
    channel, data = require_message_to_send(system, caller, arguments, ChannelType.SAMPLING)
    system.channels[channel].clear()
    system.channels[channel].append(Message(data, system.now))
    signal_readers(system, channel)
    return Answer()


def read_sampling_message(system, caller, arguments):
    waiting = require_message_to_receive(system, caller, arguments, ChannelType.SAMPLING)
    refuse_if(len(waiting) == 0, Refusal.WRONG_STATE, "no sampling message")
    message = waiting[0]
    copy_to_front(system, caller, arguments[1], message.data)
    return Answer(len(message.data), message.time)


def open_queuing_port(system, caller, arguments):
    return open_port(system, caller, arguments, ChannelType.QUEUING)


def send_queuing_message(system, caller, arguments):
    channel, data = require_message_to_send(system, caller, arguments, ChannelType.QUEUING)
    system.channels[channel].append(Message(data, system.now))
    signal_readers(system, channel)
    return Answer()


def receive_queuing_message(system, caller, arguments):
    waiting = require_message_to_receive(system, caller, arguments, ChannelType.QUEUING)
    refuse_if(len(waiting) == 0, Refusal.FULL_OR_EMPTY, "queue empty")
    message = waiting.popleft()
    copy_to_front(system, caller, arguments[1], message.data)
    return Answer(len(message.data), message.time, len(waiting))


def get_queue_status(system, caller, arguments):
    _, _, waiting = require_open_port(system, caller, arguments[0], ChannelType.QUEUING)
    return Answer(0, len(waiting))


# Interrupts


def raise_ipvi(system, caller, arguments):
    number = arguments[0]
    refuse_if(number >= IPVI_NUMBERS, Refusal.NO_SUCH_THING, "ipvi number")
    refuse_if((number, caller) not in system.tables.ipvis, Refusal.WRONG_STATE, "no link")
    mask = system.tables.ipvis[number, caller]
    refuse_if(mask == 0, Refusal.WRONG_STATE, "link to nobody")
    for partition in range(len(system.partitions)):
        if mask >> partition & 1:
            system.signal(partition, number)
    return Answer()


def get_interrupts(system, caller, arguments):
    partition = system.partitions[caller]
    return Answer(0, partition.pending, partition.mask)


def mask_interrupts(system, caller, arguments):
    system.partitions[caller].mask |= arguments[0]
    return Answer()


def unmask_interrupts(system, caller, arguments):
    system.partitions[caller].mask &= ~arguments[0]
    return Answer()


def clear_interrupts(system, caller, arguments):
    system.partitions[caller].pending &= ~arguments[0]
    return Answer()


# Health monitor and system


def raise_partition_error(system, caller, arguments):
    return system.fault(caller, PARTITION_ERROR)


def read_log(system, caller, arguments):
    require_system_class(system, caller)
    refuse_if(len(system.log) == 0, Refusal.FULL_OR_EMPTY, "log empty")
    entry = system.log.popleft()
    return Answer(len(system.log), entry.time, entry.packed())


def reset_system(system, caller, arguments):
    mode = arguments[0]
    require_mode(mode)
    require_system_class(system, caller)
    system.reset_system(Mode(mode))
    return Answer()


def halt_system(system, caller, arguments):
    require_system_class(system, caller)
    system.halt_system()
    return Answer()


CALLS = (
    get_time,
    get_state,
    halt_partition,
    suspend_partition,
    resume_partition,
    reset_partition,
    idle_self,
    switch_plan,
    get_plan,
    open_sampling_port,
    write_sampling_message,
    read_sampling_message,
    open_queuing_port,
    send_queuing_message,
    receive_queuing_message,
    get_queue_status,
    raise_ipvi,
    get_interrupts,
    mask_interrupts,
    unmask_interrupts,
    clear_interrupts,
    raise_partition_error,
    read_log,
    reset_system,
    halt_system,
)
CALL_COUNT = len(CALLS)  # a call's number is below this

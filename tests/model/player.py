"""Random histories that know the state they meet.

Most events are such that they are taken; some are spoiled in one number.
"""

from __future__ import annotations

from random import Random

from calls import CALL_COUNT
from events import Call, Event, Fault, Line, Load, Store, SystemFault, Tick
from limits import WHOLE, Limits
from machine import FARTHEST
from stage import Stage
from state import State
from vector import ChannelType, Direction

WORD = 0xFFFF_FFFF
LATEST = 60_000  # microseconds that a history lasts

# How often each call is made; the last entry stands for calls that do not exist.
CALL_WEIGHTS = {
    0: 3, 1: 4, 2: 1, 3: 3, 4: 4, 5: 3, 6: 4, 7: 4, 8: 4, 9: 9, 10: 9, 11: 9, 12: 9, 13: 12,
    14: 9, 15: 5, 16: 7, 17: 5, 18: 2, 19: 5, 20: 3, 21: 1, 22: 5, 23: 0.7, 24: 0.15, None: 1,
}


class Player(Stage):
    """Goes on with a history, event by event."""

    def __init__(self, rng: Random, vector: bytes, limits: Limits = WHOLE,
                 areas: list[bytearray] | None = None):
        super().__init__(vector, limits, areas)
        self.rng = rng
        self.latest = LATEST  # no tick of the player's own goes further

    def play(self, count: int) -> None:
        """About so many events, and now and then a look at what they have left."""
        after_halt = self.rng.randint(1, 4)
        while len(self.events) < count and after_halt > 0:
            if self.system.halted:
                after_halt -= 1
                self.stray_event()
            else:
                self.act()
        if self.rng.random() < 0.5:
            self.look_around()

    def look_around(self) -> None:
        """Everybody who can run asks what there is to know, and loads some bytes."""
        partitions = range(len(self.tables.partitions))
        for partition in partitions:
            if not self.can_run(partition) or not self.seat_one(partition):
                continue
            for number in (0, 8, 17):
                self.call(partition, number)
            for target in partitions:
                self.call(partition, 1, target)
            size = self.tables.partitions[partition].area_size
            for offset in {*range(min(size, 12)), size - 1, self.rng.randrange(size)}:
                self.send(Load(partition, offset))
            for _ in range(self.rng.choice((0, 1, 33))):
                if self.tables.is_system(partition) and self.call(partition, 22).code < 0:
                    break

    def act(self) -> None:
        running = self.running()
        roll = self.rng.random()
        if roll < 0.04:
            self.stray_event()
        elif roll < 0.09:
            self.odd_tick()
        elif roll < 0.13:
            self.send(Line(self.any_line()))
        elif roll < 0.14:
            self.send(SystemFault(self.rng.choice((8, 9, 10, 11, 8, 9, 11, 7, 12, 0, 255))))
        elif running is None or roll < 0.26:
            self.seat_someone()
        else:
            self.guest_event(running)

    def running(self) -> int | None:
        """The partition on the processor."""
        partition = self.system.slot_partition()
        if partition is None or not self.system.on_processor(partition):
            return None
        return partition

    # Time

    def seat_someone(self) -> None:
        """Passes time until a partition that can run is on the processor."""
        candidates = [partition for partition in range(len(self.tables.partitions))
                      if self.can_run(partition)]
        self.rng.shuffle(candidates)
        if any(self.seat_one(partition) for partition in candidates):
            return
        # Nobody can run in time: only the system's own events are left.
        if self.rng.random() < 0.5:
            self.send(SystemFault(self.rng.choice((8, 9, 10, 11))))
        else:
            self.odd_tick()

    def seat_one(self, partition: int) -> bool:
        """Passes time until the partition is on the processor, if that is not too long."""
        stretches = [stretch for stretch in self.stretches(partition) if stretch[0] <= self.latest]
        if not stretches:
            return False
        first, last = self.rng.choice(stretches[:3])
        moment = self.rng.choice((first, last, self.rng.randint(first, last)))
        self.tick_by(min(moment, max(first, self.latest)) - self.system.now)
        return True

    def odd_tick(self) -> None:
        """A tick that was not asked for: to now, back, to a frame's end, or too far."""
        system = self.system
        frame = self.tables.plans[system.plan].frame
        end = system.frame_start + frame
        moments = [system.now, system.now + 1, system.now - 1, system.now - 1, end, end - 1, end + 1,
                   system.now + FARTHEST + 1, WORD, 0, system.now + frame,
                   system.now + self.rng.randint(0, 3 * frame)]
        moment = self.rng.choice(moments) & WORD
        if system.now <= moment <= system.now + FARTHEST and moment > self.latest:
            moment = system.now
        self.send(Tick(moment))

    # Events of a guest

    def guest_event(self, guest: int) -> None:
        roll = self.rng.random()
        if roll < 0.08:
            self.send(Load(guest, self.any_offset(guest)))
        elif roll < 0.18:
            self.send(Store(guest, self.any_offset(guest), self.rng.randrange(256)))
        elif roll < 0.23:
            self.send(Fault(guest, self.any_fault(guest)))
        else:
            self.random_call(guest)

    def any_offset(self, guest: int) -> int:
        size = self.tables.partitions[guest].area_size
        if self.rng.random() < 0.9:
            return self.rng.choice((0, size - 1, self.rng.randrange(size)))
        return self.rng.choice((size, size + 1, 1_023, 1_024, 65_536, 0x8000_0000, WORD))

    def any_fault(self, guest: int) -> int:
        """A fault number; those that stop the guest are rarer."""
        fault = self.rng.choice((0, 1, 2, 3, 4, 5, 6, 7, 8, 255))
        if fault < 7 and self.system.decision(guest, fault).action in (2, 3):
            return self.rng.choice((fault, 0, 1))
        return fault

    def any_line(self) -> int:
        owned = list(self.tables.lines)
        if owned and self.rng.random() < 0.8:
            return self.rng.choice(owned)
        return self.rng.choice((0, 15, 16, 255, self.rng.randrange(16)))

    def stray_event(self) -> None:
        """An event of any sort, of anybody, whatever the state."""
        partitions = len(self.tables.partitions)
        guest = self.rng.choice((self.rng.randrange(partitions), partitions, 7, 8, 255))
        self.send(self.stray(guest))

    def stray(self, guest: int) -> Event:
        match self.rng.randrange(7):
            case 0:
                return Tick(self.rng.choice((self.system.now, self.system.now + 1)))
            case 1:
                return Load(guest, self.rng.randrange(4))
            case 2:
                return Store(guest, self.rng.randrange(4), 170)
            case 3:
                return Fault(guest, self.rng.randrange(9))
            case 4:
                return Line(self.rng.randrange(18))
            case 5:
                return SystemFault(self.rng.choice((7, 8, 9, 11, 12)))
        return self.a_call(guest, self.rng.randrange(CALL_COUNT + 2), [self.rng.randrange(9) for _ in range(5)])

    def a_call(self, guest: int, number: int, arguments: list[int]) -> Call:
        """A call whose spare arguments hold anything at all."""
        spare = [self.rng.choice((0, self.rng.getrandbits(32))) for _ in range(5 - len(arguments))]
        return Call(guest, number, tuple(arguments + spare))

    # Calls

    def random_call(self, caller: int) -> None:
        purposes = self.purposes(caller)
        if purposes and self.rng.random() < 0.5:
            number = self.rng.choice(purposes)
        else:
            number = self.rng.choices(list(CALL_WEIGHTS), list(CALL_WEIGHTS.values()))[0]
        if number is None:
            number = self.rng.choice((CALL_COUNT, CALL_COUNT + 1, 127, 128, 255, self.rng.randint(CALL_COUNT, 255)))
        arguments = self.good_arguments(caller, number)
        if arguments and self.rng.random() < 0.25:
            self.spoil(caller, arguments)
        self.send(self.a_call(caller, number, arguments))

    def purposes(self, caller: int) -> list[int]:
        """Calls that get the caller further: open, send, receive, help others up."""
        found = []
        for number, port in enumerate(self.tables.ports):
            if port.partition != caller:
                continue
            sampling = self.tables.channels[port.channel].type == ChannelType.SAMPLING
            if number not in self.system.partitions[caller].open_ports:
                found.append(9 if sampling else 12)
            elif port.direction == Direction.SOURCE:
                found.append(10 if sampling else 13)
            elif self.system.channels[port.channel]:
                found += [11 if sampling else 14] * 3
        if self.tables.is_system(caller):
            stopped = any(not self.can_run(other) for other in range(len(self.tables.partitions)))
            found += [4, 5] * stopped
        return found

    def spoil(self, caller: int, arguments: list[int]) -> None:
        index = self.rng.randrange(len(arguments))
        old = arguments[index]
        size = self.tables.partitions[caller].area_size
        arguments[index] = self.rng.choice((
            0, 1, 2, old + 1, old - 1, old ^ 1, old + 256, old + 65_536, size, size + 1,
            WORD, WORD - old, WORD + 1 - old, 0x8000_0000, self.rng.getrandbits(32))) & WORD

    def good_arguments(self, caller: int, number: int) -> list[int]:
        """Arguments with which the call has a fair chance to be taken."""
        rng = self.rng
        match number:
            case 1 | 2 | 3 | 4 | 5:
                target = self.any_target(caller, number)
                return [target, rng.randrange(2)] if number == 5 else [target]
            case 7:
                return [rng.randrange(len(self.tables.plans))]
            case 9:
                return self.opening_arguments(caller, ChannelType.SAMPLING)
            case 12:
                return self.opening_arguments(caller, ChannelType.QUEUING)
            case 10:
                return self.sending_arguments(caller, ChannelType.SAMPLING)
            case 13:
                return self.sending_arguments(caller, ChannelType.QUEUING)
            case 11:
                return self.receiving_arguments(caller, ChannelType.SAMPLING)
            case 14:
                return self.receiving_arguments(caller, ChannelType.QUEUING)
            case 15:
                return [self.any_port(caller, ChannelType.QUEUING)]
            case 16:
                return [self.any_ipvi(caller)]
            case 18 | 19 | 20:
                return [rng.choice((WORD, 0, 1 << rng.randrange(32), 0x300, 0xFF,
                                    rng.getrandbits(32)))]
            case 23:
                return [rng.randrange(2)]
        return []

    def any_target(self, caller: int, number: int) -> int:
        """Mostly one in a state that suits the call; a standard caller takes itself."""
        states = {3: (State.READY, State.IDLE), 4: (State.SUSPENDED,),
                  5: (State.SUSPENDED, State.HALTED)}
        everyone = list(range(len(self.tables.partitions)))
        if not self.tables.is_system(caller) and self.rng.random() < 0.7:
            return caller
        suitable = [target for target in everyone if target != caller
                    and self.system.partitions[target].state in states.get(number, State)]
        return self.rng.choice(suitable or everyone)

    def ports_of(self, caller: int, type_: ChannelType) -> list[int]:
        return [number for number, port in enumerate(self.tables.ports)
                if port.partition == caller and self.tables.channels[port.channel].type == type_]

    def any_port(self, caller: int, type_: ChannelType,
                 direction: Direction | None = None) -> int:
        """Mostly an open port of the caller, of that type and direction."""
        opened = self.system.partitions[caller].open_ports
        ports = [number for number in self.ports_of(caller, type_) if number in opened]
        if direction is not None and self.rng.random() < 0.9:
            ports = [number for number in ports
                     if self.tables.ports[number].direction == direction] or ports
        if ports and self.rng.random() < 0.95:
            return self.rng.choice(ports)
        return self.rng.choice((self.rng.randrange(len(self.tables.ports) + 1), 32, WORD))

    def opening_arguments(self, caller: int, type_: ChannelType) -> list[int]:
        """Stores a port's name in the caller's area, and points there."""
        ports = self.ports_of(caller, type_)
        if not ports or self.rng.random() < 0.05:
            ports = list(range(len(self.tables.ports)))  # another's, or of the other type
        if not ports:
            return [0, 1, 1, 0, 1]
        opened = self.system.partitions[caller].open_ports
        closed = [number for number in ports if number not in opened]
        port = self.tables.ports[self.rng.choice(closed or ports)]
        channel = self.tables.channels[port.channel]
        room = self.tables.partitions[caller].area_size - len(port.name)
        address = self.rng.choice((0, room, self.rng.randint(0, room))) if room >= 0 else 0
        if room >= 0:
            self.write(caller, address, port.name)
        return [address, len(port.name), channel.longest, int(port.direction), channel.depth]

    def sending_arguments(self, caller: int, type_: ChannelType) -> list[int]:
        number = self.any_port(caller, type_, Direction.SOURCE)
        size = self.tables.partitions[caller].area_size
        longest = size
        if number < len(self.tables.ports):
            longest = min(size, self.tables.channels[self.tables.ports[number].channel].longest)
        length = self.rng.choice((1, longest, self.rng.randint(1, longest)))
        return [number, self.rng.choice((0, size - length, self.rng.randint(0, size - length))),
                length]

    def receiving_arguments(self, caller: int, type_: ChannelType) -> list[int]:
        number = self.any_port(caller, type_, Direction.DESTINATION)
        size = self.tables.partitions[caller].area_size
        needed = 1
        if number < len(self.tables.ports):
            waiting = self.system.channels[self.tables.ports[number].channel]
            needed = len(waiting[0].data) if waiting else 1
        length = min(size, self.rng.choice((needed, needed, needed - 1, size, 64)))
        return [number, self.rng.choice((0, size - length)), length]

    def any_ipvi(self, caller: int) -> int:
        linked = [number for number, source in self.tables.ipvis if source == caller]
        if linked and self.rng.random() < 0.8:
            return self.rng.choice(linked)
        return self.rng.choice((0, 7, 8, 256, WORD, self.rng.randrange(8)))

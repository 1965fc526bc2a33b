//! The 25 calls of the guests.
//!
//! The tests of a call stand in the order in which its refusals take precedence.

use crate::machine::{bits, Answer, Channel, Message, Mode, Outcome, Refused, State, System, PARTITION_ERROR};
use crate::vector::{Class, Direction, Name, Port, Transfer};

impl System {
    pub(crate) fn call(&mut self, partition: u8, number: u8, arguments: [u32; 5]) -> Outcome {
        let caller = self.on_processor(partition)?;
        let [first, second, third, fourth, fifth] = arguments;
        match number {
            0 => self.get_time(),
            1 => self.get_partition_status(caller, first),
            2 => self.halt_target(caller, first),
            3 => self.suspend_target(caller, first),
            4 => self.resume_target(caller, first),
            5 => self.reset_target(caller, first, second),
            6 => self.idle_self(caller),
            7 => self.switch_plan(caller, first),
            8 => self.get_plan_status(),
            9 => self.create_port(caller, (first, second), Opening::sampling(third, fourth)),
            10 => self.send(caller, Transfer::Sampling, first, (second, third)),
            11 => self.read_sampling(caller, first, (second, third)),
            12 => self.create_port(caller, (first, second), Opening::queuing(third, fourth, fifth)),
            13 => self.send(caller, Transfer::Queuing, first, (second, third)),
            14 => self.receive_queuing(caller, first, (second, third)),
            15 => self.get_queuing_status(caller, first),
            16 => self.raise_ipvi(caller, first),
            17 => self.read_interrupt_words(caller),
            18 => self.set_irqmask(caller, first),
            19 => self.clear_irqmask(caller, first),
            20 => self.clear_irqpend(caller, first),
            21 => Ok(self.partition_event(caller, PARTITION_ERROR).into()),
            22 => self.read_log(caller),
            23 => self.reset_whole_system(caller, first),
            24 => self.halt_system(caller),
            _ => Err(Refused::UnknownHypercall),
        }
    }

    // Time, partitions and plans

    fn get_time(&self) -> Outcome {
        Ok(Answer { a: self.clock.now, ..Answer::DONE })
    }

    fn get_partition_status(&self, caller: usize, target: u32) -> Outcome {
        let target = self.target(caller, target)?;
        Ok(Answer { code: self.partitions[target].state as i32, ..Answer::DONE })
    }

    fn halt_target(&mut self, caller: usize, target: u32) -> Outcome {
        let target = self.target(caller, target)?;
        self.halt_partition(target);
        Ok(Answer::DONE)
    }

    fn suspend_target(&mut self, caller: usize, target: u32) -> Outcome {
        let target = self.target(caller, target)?;
        match self.partitions[target].state {
            State::Ready | State::Idle => self.set_state(target, State::Suspended),
            State::Suspended | State::Halted => return Err(Refused::NoAction),
        }
        Ok(Answer::DONE)
    }

    fn resume_target(&mut self, caller: usize, target: u32) -> Outcome {
        let target = self.target(caller, target)?;
        if self.partitions[target].state != State::Suspended {
            return Err(Refused::NoAction);
        }
        self.set_state(target, State::Ready);
        Ok(Answer::DONE)
    }

    fn reset_target(&mut self, caller: usize, target: u32, mode: u32) -> Outcome {
        let target = self.existing(target)?;
        let mode = Mode::from_argument(mode)?;
        self.may_name(caller, target)?;
        self.reset_partition(target, mode);
        Ok(Answer::DONE)
    }

    fn idle_self(&mut self, caller: usize) -> Outcome {
        if !self.partitions[caller].has_unhidden() {
            self.set_state(caller, State::Idle);
        }
        Ok(Answer::DONE)
    }

    fn switch_plan(&mut self, caller: usize, plan: u32) -> Outcome {
        let plan = plan as usize;
        if plan >= self.clock.plans() {
            return Err(Refused::InvalidParam);
        }
        self.system_only(caller)?;
        self.clock.next_plan = plan;
        Ok(Answer::DONE)
    }

    fn get_plan_status(&self) -> Outcome {
        let clock = &self.clock;
        Ok(Answer { code: clock.plan as i32, a: clock.next_plan as u32, b: clock.gaps() })
    }

    // Ports and channels

    fn create_port(&mut self, caller: usize, (address, length): (u32, u32), opening: Opening) -> Outcome {
        let name = self.board.range(caller, address, length).ok_or(Refused::InvalidParam)?;
        let direction = opening.direction()?;
        let number = Name::new(name)
            .and_then(|name| self.find_port(caller, opening.transfer, name))
            .ok_or(Refused::InvalidParam)?;
        let port = &self.ports[number];
        let channel = &self.channels[usize::from(port.channel)];
        let as_configured = channel.longest == opening.longest
            && port.direction == direction
            && opening.depth.is_none_or(|depth| depth == channel.depth);
        if !as_configured {
            return Err(Refused::InvalidConfig);
        }
        if self.open >> number & 1 == 1 {
            return Err(Refused::NoAction);
        }
        self.open |= 1 << number;
        Ok(Answer { code: number as i32, ..Answer::DONE })
    }

    /// Calls 10 and 13: a message goes from the caller's area into the channel.
    fn send(&mut self, caller: usize, transfer: Transfer, port: u32, (address, length): (u32, u32)) -> Outcome {
        let port = self.open_port(caller, transfer, port)?;
        let index = usize::from(port.channel);
        let channel = &mut self.channels[index];
        if length == 0 || length > channel.longest {
            return Err(Refused::InvalidParam);
        }
        let bytes = self.board.range(caller, address, length).ok_or(Refused::InvalidParam)?;
        if port.direction != Direction::Source {
            return Err(Refused::InvalidMode);
        }
        match transfer {
            Transfer::Sampling => channel.messages.clear(),
            Transfer::Queuing if channel.is_full() => return Err(Refused::NotAvailable),
            Transfer::Queuing => {}
        }
        channel.messages.push_place().fill(bytes, self.clock.now);
        self.announce(index);
        Ok(Answer::DONE)
    }

    fn read_sampling(&mut self, caller: usize, port: u32, range: (u32, u32)) -> Outcome {
        let (channel, range) = self.incoming(caller, Transfer::Sampling, port, range)?;
        let message = channel.messages.front().ok_or(Refused::NoAction)?;
        let length = deliver(message, range)?;
        Ok(Answer { code: length as i32, a: message.sent, b: 0 })
    }

    fn receive_queuing(&mut self, caller: usize, port: u32, range: (u32, u32)) -> Outcome {
        let (channel, range) = self.incoming(caller, Transfer::Queuing, port, range)?;
        let message = channel.messages.front().ok_or(Refused::NotAvailable)?;
        let length = deliver(message, range)?;
        let sent = message.sent;
        channel.messages.drop_front();
        Ok(Answer { code: length as i32, a: sent, b: channel.messages.len() as u32 })
    }

    fn get_queuing_status(&self, caller: usize, port: u32) -> Outcome {
        let port = self.open_port(caller, Transfer::Queuing, port)?;
        let waiting = self.channels[usize::from(port.channel)].messages.len();
        Ok(Answer { a: waiting as u32, ..Answer::DONE })
    }

    /// The channel that the caller fetches from, and the range that the message goes to.
    fn incoming(
        &mut self,
        caller: usize,
        transfer: Transfer,
        port: u32,
        (address, length): (u32, u32),
    ) -> Result<(&mut Channel, &mut [u8]), Refused> {
        let port = self.open_port(caller, transfer, port)?;
        let range = self.board.range_mut(caller, address, length).ok_or(Refused::InvalidParam)?;
        if port.direction != Direction::Destination {
            return Err(Refused::InvalidMode);
        }
        Ok((&mut self.channels[usize::from(port.channel)], range))
    }

    /// A port of the caller that is open and of this type.
    fn open_port(&self, caller: usize, transfer: Transfer, port: u32) -> Result<Port, Refused> {
        let usable = self.open & self.ports_of(caller, transfer);
        if port < u32::BITS && usable >> port & 1 == 1 {
            Ok(self.ports[port as usize])
        } else {
            Err(Refused::InvalidParam)
        }
    }

    fn find_port(&self, caller: usize, transfer: Transfer, name: Name) -> Option<usize> {
        bits(self.ports_of(caller, transfer)).find(|&port| self.ports[port].name == name)
    }

    // Interrupts

    fn raise_ipvi(&mut self, caller: usize, number: u32) -> Outcome {
        let receivers = *self.partitions[caller].links.get(number as usize).ok_or(Refused::InvalidParam)?;
        if receivers == 0 {
            return Err(Refused::NoAction);
        }
        for receiver in bits(receivers.into()) {
            self.signal(receiver, number);
        }
        Ok(Answer::DONE)
    }

    fn read_interrupt_words(&self, caller: usize) -> Outcome {
        let partition = &self.partitions[caller];
        Ok(Answer { code: 0, a: partition.pending, b: partition.mask })
    }

    fn set_irqmask(&mut self, caller: usize, bits: u32) -> Outcome {
        self.partitions[caller].mask |= bits;
        Ok(Answer::DONE)
    }

    fn clear_irqmask(&mut self, caller: usize, bits: u32) -> Outcome {
        self.partitions[caller].mask &= !bits;
        Ok(Answer::DONE)
    }

    fn clear_irqpend(&mut self, caller: usize, bits: u32) -> Outcome {
        self.partitions[caller].pending &= !bits;
        Ok(Answer::DONE)
    }

    // Health monitor and system

    fn read_log(&mut self, caller: usize) -> Outcome {
        self.system_only(caller)?;
        let entry = self.log.pop().ok_or(Refused::NotAvailable)?;
        Ok(Answer { code: self.log.len() as i32, a: entry.time, b: entry.word() })
    }

    fn reset_whole_system(&mut self, caller: usize, mode: u32) -> Outcome {
        let mode = Mode::from_argument(mode)?;
        self.system_only(caller)?;
        self.reset_system(mode);
        Ok(Answer::DONE)
    }

    fn halt_system(&mut self, caller: usize) -> Outcome {
        self.system_only(caller)?;
        self.halted = true;
        Ok(Answer::DONE)
    }

    // What several calls ask of their arguments

    fn existing(&self, target: u32) -> Result<usize, Refused> {
        let target = target as usize;
        if target < self.partition_count {
            Ok(target)
        } else {
            Err(Refused::InvalidParam)
        }
    }

    /// A standard partition may name nobody but itself.
    fn may_name(&self, caller: usize, target: usize) -> Result<(), Refused> {
        if caller == target {
            Ok(())
        } else {
            self.system_only(caller)
        }
    }

    fn target(&self, caller: usize, target: u32) -> Result<usize, Refused> {
        let target = self.existing(target)?;
        self.may_name(caller, target)?;
        Ok(target)
    }

    fn system_only(&self, caller: usize) -> Result<(), Refused> {
        match self.partitions[caller].class {
            Class::System => Ok(()),
            Class::Standard => Err(Refused::PermError),
        }
    }
}

impl Mode {
    fn from_argument(mode: u32) -> Result<Mode, Refused> {
        match mode {
            0 => Ok(Mode::Warm),
            1 => Ok(Mode::Cold),
            _ => Err(Refused::InvalidParam),
        }
    }
}

/// What the caller says of a port that it opens.
struct Opening {
    transfer: Transfer,
    longest: u32,
    direction: u32,
    /// Only queuing ports are opened with a depth.
    depth: Option<u32>,
}

impl Opening {
    fn sampling(longest: u32, direction: u32) -> Opening {
        Opening { transfer: Transfer::Sampling, longest, direction, depth: None }
    }

    fn queuing(longest: u32, direction: u32, depth: u32) -> Opening {
        Opening { transfer: Transfer::Queuing, longest, direction, depth: Some(depth) }
    }

    fn direction(&self) -> Result<Direction, Refused> {
        match self.direction {
            0 => Ok(Direction::Source),
            1 => Ok(Direction::Destination),
            _ => Err(Refused::InvalidParam),
        }
    }
}

/// Copies a message to the front of a range; answers its length.
fn deliver(message: &Message, range: &mut [u8]) -> Result<usize, Refused> {
    let bytes = message.bytes();
    range.get_mut(..bytes.len()).ok_or(Refused::InvalidConfig)?.copy_from_slice(bytes);
    Ok(bytes.len())
}

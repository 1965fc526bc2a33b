//! The machine: the state of a booted system, its events, and the health monitor.

use crate::board::Board;
use crate::clock::Clock;
use crate::ring::Ring;
use crate::vector::{
    Action, Class, Direction, Port, Response, Tables, Transfer, IPVIS, LINES, MAX_PARTITIONS, PARTITION_EVENTS,
    SYSTEM_EVENTS,
};

/// A tick may pass this much time at most.
const MAX_TICK: u32 = 1_000_000;
/// The pending bit of a message for an open destination port.
const MESSAGE_BIT: u32 = 8;
/// The pending bit of a fault whose action is "signal".
const FAULT_BIT: u32 = 9;
/// The pending bit of interrupt line 0.
const LINE_BIT: u32 = 16;

const MEM_PROTECTION: u8 = 6;
pub(crate) const PARTITION_ERROR: u8 = 7;
/// Stands for the system in a log entry.
const SYSTEM_SCOPE: u8 = 255;

#[derive(Debug, Clone, Copy, PartialEq, Eq)]
pub enum Event {
    Tick { time: u32 },
    Call { partition: u8, number: u8, arguments: [u32; 5] },
    Load { partition: u8, offset: u32 },
    Store { partition: u8, offset: u32, byte: u8 },
    Fault { partition: u8, event: u8 },
    Line { line: u8 },
    SystemFault { event: u8 },
}

#[derive(Debug, Clone, Copy, Default, PartialEq, Eq)]
pub struct Answer {
    pub code: i32,
    pub a: u32,
    pub b: u32,
}

impl Answer {
    pub const BYTES: usize = 12;
    pub(crate) const DONE: Answer = Answer { code: 0, a: 0, b: 0 };
    /// A load or store outside the area.
    const OUTSIDE: Answer = Answer { code: 1, a: 0, b: 0 };

    pub fn to_bytes(self) -> [u8; Answer::BYTES] {
        let mut bytes = [0; Answer::BYTES];
        bytes[0..4].copy_from_slice(&self.code.to_le_bytes());
        bytes[4..8].copy_from_slice(&self.a.to_le_bytes());
        bytes[8..12].copy_from_slice(&self.b.to_le_bytes());
        bytes
    }
}

impl From<Action> for Answer {
    fn from(action: Action) -> Answer {
        Answer { code: action as i32, ..Answer::DONE }
    }
}

/// The refusals. The value is the answer's code.
#[derive(Debug, Clone, Copy, PartialEq, Eq)]
pub enum Refused {
    NoAction = -1,
    UnknownHypercall = -2,
    InvalidParam = -3,
    PermError = -4,
    InvalidConfig = -5,
    InvalidMode = -6,
    NotAvailable = -7,
    OpNotAllowed = -8,
    NotOnProcessor = -9,
    SystemHalted = -10,
}

impl From<Refused> for Answer {
    fn from(refused: Refused) -> Answer {
        Answer { code: refused as i32, ..Answer::DONE }
    }
}

pub(crate) type Outcome = Result<Answer, Refused>;

impl From<Outcome> for Answer {
    fn from(outcome: Outcome) -> Answer {
        outcome.unwrap_or_else(Answer::from)
    }
}

#[derive(Debug, Clone, Copy, PartialEq, Eq)]
pub enum State {
    Ready = 1,
    Idle = 2,
    Suspended = 3,
    Halted = 4,
}

#[derive(Debug, Clone, Copy, PartialEq, Eq)]
pub(crate) enum Mode {
    Warm,
    Cold,
}

/// A partition: its part of the state, and what the vector says of it.
#[derive(Debug)]
pub(crate) struct Partition {
    pub state: State,
    pub pending: u32,
    pub mask: u32,
    pub class: Class,
    /// Its ports, as bits.
    pub ports: u32,
    /// By number of the interrupt: the receivers, as bits. No link is the same as no receiver.
    pub links: [u8; IPVIS],
    responses: [Response; PARTITION_EVENTS],
}

impl Partition {
    fn boot(tables: &Tables, index: usize) -> Partition {
        Partition {
            state: State::Ready,
            pending: 0,
            mask: !0,
            class: tables.partitions.get(index).map_or(Class::Standard, |row| row.class),
            ports: ports_where(tables, |port| usize::from(port.partition) == index),
            links: tables.links[index].map(|mask| mask.unwrap_or(0)),
            responses: tables.responses[index],
        }
    }

    pub fn has_unhidden(&self) -> bool {
        self.pending & !self.mask != 0
    }
}

#[derive(Debug, Clone, Copy)]
pub(crate) struct Message {
    pub sent: u32,
    length: u8,
    bytes: [u8; 64],
}

impl Message {
    const EMPTY: Message = Message { sent: 0, length: 0, bytes: [0; 64] };

    pub fn fill(&mut self, bytes: &[u8], sent: u32) {
        self.bytes[..bytes.len()].copy_from_slice(bytes);
        self.length = bytes.len() as u8;
        self.sent = sent;
    }

    pub fn bytes(&self) -> &[u8] {
        &self.bytes[..usize::from(self.length)]
    }
}

#[derive(Debug)]
pub(crate) struct Channel {
    pub longest: u32,
    pub depth: u32,
    /// Its destination ports, as bits.
    destinations: u32,
    pub messages: Ring<Message, 8>,
}

impl Channel {
    fn boot(tables: &Tables, index: usize) -> Channel {
        let is_destination =
            |port: &Port| usize::from(port.channel) == index && port.direction == Direction::Destination;
        Channel {
            longest: tables.channels[index].longest.into(),
            depth: tables.channels[index].depth.into(),
            destinations: ports_where(tables, is_destination),
            messages: Ring::new(Message::EMPTY),
        }
    }

    pub fn is_full(&self) -> bool {
        self.messages.len() >= self.depth as usize
    }
}

/// An entry of the health monitor's log.
#[derive(Debug, Clone, Copy)]
pub(crate) struct Entry {
    pub time: u32,
    scope: u8,
    event: u8,
    action: u8,
}

impl Entry {
    const EMPTY: Entry = Entry { time: 0, scope: 0, event: 0, action: 0 };

    /// All but the time, in one word.
    pub fn word(&self) -> u32 {
        u32::from_le_bytes([self.scope, self.event, self.action, 0])
    }
}

#[derive(Debug)]
pub struct System {
    pub(crate) clock: Clock,
    pub(crate) halted: bool,
    pub(crate) log: Ring<Entry, 32>,
    pub(crate) partitions: [Partition; MAX_PARTITIONS],
    pub(crate) partition_count: usize,
    /// The IDLE partitions, as bits: the ones that a slot's start wakes.
    idle: u8,
    pub(crate) ports: Vec<Port>,
    /// The open ports, as bits. Which partition has opened a port is clear from the port.
    pub(crate) open: u32,
    /// The ports of queuing channels, as bits; all others are sampling ports.
    queuing: u32,
    pub(crate) channels: Vec<Channel>,
    lines: [Option<u8>; LINES],
    system_responses: [Response; SYSTEM_EVENTS],
    pub(crate) board: Board,
}

impl System {
    /// Boots a checked vector. On a board that does not fit the system is halted from the start.
    pub fn boot(tables: Tables, board: Board) -> System {
        let is_queuing = |port: &Port| tables.channels[usize::from(port.channel)].transfer == Transfer::Queuing;
        System {
            clock: Clock::new(&tables.plans),
            halted: !board.fits(&tables),
            log: Ring::new(Entry::EMPTY),
            partitions: std::array::from_fn(|index| Partition::boot(&tables, index)),
            partition_count: tables.partitions.len(),
            idle: 0,
            open: 0,
            queuing: ports_where(&tables, is_queuing),
            channels: (0..tables.channels.len()).map(|index| Channel::boot(&tables, index)).collect(),
            lines: tables.lines,
            system_responses: tables.system_responses,
            ports: tables.ports,
            board,
        }
    }

    /// Takes one event. A refused event changes nothing.
    pub fn event(&mut self, event: Event) -> Answer {
        if self.halted {
            return Refused::SystemHalted.into();
        }
        match event {
            Event::Tick { time } => self.tick(time).into(),
            Event::Call { partition, number, arguments } => self.call(partition, number, arguments).into(),
            Event::Load { partition, offset } => self.load(partition, offset).into(),
            Event::Store { partition, offset, byte } => self.store(partition, offset, byte).into(),
            Event::Fault { partition, event } => self.fault(partition, event).into(),
            Event::Line { line } => self.line(line).into(),
            Event::SystemFault { event } => self.system_fault(event).into(),
        }
    }

    fn tick(&mut self, time: u32) -> Outcome {
        match time.checked_sub(self.clock.now) {
            Some(passed) if passed <= MAX_TICK => {}
            _ => return Err(Refused::OpNotAllowed),
        }
        let woken = self.clock.pass(time, self.idle);
        for index in bits(woken.into()) {
            self.set_state(index, State::Ready);
        }
        Ok(Answer::DONE)
    }

    fn load(&mut self, partition: u8, offset: u32) -> Outcome {
        let index = self.on_processor(partition)?;
        match self.board.area(index).get(offset as usize) {
            Some(byte) => Ok(Answer { a: u32::from(*byte), ..Answer::DONE }),
            None => Ok(self.access_outside(index)),
        }
    }

    fn store(&mut self, partition: u8, offset: u32, byte: u8) -> Outcome {
        let index = self.on_processor(partition)?;
        match self.board.area_mut(index).get_mut(offset as usize) {
            Some(place) => {
                *place = byte;
                Ok(Answer::DONE)
            }
            None => Ok(self.access_outside(index)),
        }
    }

    /// The answer's code is 1 whatever the action.
    fn access_outside(&mut self, index: usize) -> Answer {
        self.partition_event(index, MEM_PROTECTION);
        Answer::OUTSIDE
    }

    fn fault(&mut self, partition: u8, event: u8) -> Outcome {
        let index = self.on_processor(partition)?;
        if event >= PARTITION_ERROR {
            return Err(Refused::InvalidParam);
        }
        Ok(self.partition_event(index, event).into())
    }

    fn line(&mut self, line: u8) -> Outcome {
        let owner = self.lines.get(usize::from(line)).ok_or(Refused::InvalidParam)?;
        let owner = owner.ok_or(Refused::NoAction)?;
        self.signal(owner.into(), LINE_BIT + u32::from(line));
        Ok(Answer::DONE)
    }

    fn system_fault(&mut self, event: u8) -> Outcome {
        let index = usize::from(event.wrapping_sub(PARTITION_EVENTS as u8));
        let response = *self.system_responses.get(index).ok_or(Refused::InvalidParam)?;
        self.record(SYSTEM_SCOPE, event, response);
        match response.action {
            Action::Halt => self.halted = true,
            Action::WarmReset => self.reset_system(Mode::Warm),
            Action::ColdReset => self.reset_system(Mode::Cold),
            // The check lets no vector signal or suspend the system.
            Action::Ignore | Action::Signal | Action::Suspend => {}
        }
        Ok(response.action.into())
    }

    /// The partition's index, if its slot runs and it is READY.
    pub(crate) fn on_processor(&self, partition: u8) -> Result<usize, Refused> {
        let index = usize::from(partition);
        if self.clock.runs() == Some(partition) && self.partitions[index].state == State::Ready {
            Ok(index)
        } else {
            Err(Refused::NotOnProcessor)
        }
    }

    /// The health monitor deals with an event of a partition: the log entry first, then the action.
    pub(crate) fn partition_event(&mut self, index: usize, event: u8) -> Action {
        let response = self.partitions[index].responses[usize::from(event)];
        self.record(index as u8, event, response);
        match response.action {
            Action::Ignore => {}
            Action::Signal => self.signal(index, FAULT_BIT),
            Action::Suspend => self.set_state(index, State::Suspended),
            Action::Halt => self.halt_partition(index),
            Action::WarmReset => self.reset_partition(index, Mode::Warm),
            Action::ColdReset => self.reset_partition(index, Mode::Cold),
        }
        response.action
    }

    fn record(&mut self, scope: u8, event: u8, response: Response) {
        if response.logged {
            self.log.push(Entry { time: self.clock.now, scope, event, action: response.action as u8 });
        }
    }

    /// Signals a bit; an unhidden one wakes an IDLE partition.
    pub(crate) fn signal(&mut self, index: usize, bit: u32) {
        let partition = &mut self.partitions[index];
        if partition.state == State::Halted {
            return;
        }
        partition.pending |= 1 << bit;
        if partition.state == State::Idle && partition.has_unhidden() {
            self.set_state(index, State::Ready);
        }
    }

    /// Tells each partition with an open destination port on the channel that a message came.
    pub(crate) fn announce(&mut self, channel: usize) {
        for port in bits(self.channels[channel].destinations & self.open) {
            self.signal(self.ports[port].partition.into(), MESSAGE_BIT);
        }
    }

    /// The ports of a partition on channels of this type, as bits.
    pub(crate) fn ports_of(&self, index: usize, transfer: Transfer) -> u32 {
        self.partitions[index].ports & if transfer == Transfer::Queuing { self.queuing } else { !self.queuing }
    }

    /// The only place where a state changes, so that the set of IDLE partitions keeps step.
    pub(crate) fn set_state(&mut self, index: usize, state: State) {
        self.partitions[index].state = state;
        self.idle &= !(1 << index);
        self.idle |= u8::from(state == State::Idle) << index;
    }

    /// Nothing pending, everything hidden, all ports closed.
    fn clear(&mut self, index: usize) {
        let partition = &mut self.partitions[index];
        partition.pending = 0;
        partition.mask = !0;
        self.open &= !partition.ports;
    }

    pub(crate) fn halt_partition(&mut self, index: usize) {
        self.set_state(index, State::Halted);
        self.clear(index);
    }

    pub(crate) fn reset_partition(&mut self, index: usize, mode: Mode) {
        self.set_state(index, State::Ready);
        self.clear(index);
        if mode == Mode::Cold {
            self.board.area_mut(index).fill(0);
        }
    }

    pub(crate) fn reset_system(&mut self, mode: Mode) {
        for index in 0..self.partition_count {
            self.reset_partition(index, mode);
        }
        for channel in &mut self.channels {
            channel.messages.clear();
        }
        self.clock.restart();
        if mode == Mode::Cold {
            self.log.clear();
        }
    }
}

/// The ports that pass the test, as bits.
fn ports_where(tables: &Tables, test: impl Fn(&Port) -> bool) -> u32 {
    tables.ports.iter().enumerate().filter(|(_, port)| test(port)).fold(0, |bits, (index, _)| bits | 1 << index)
}

/// The positions of the ones in a word, from the lowest.
pub(crate) fn bits(mut word: u32) -> impl Iterator<Item = usize> {
    std::iter::from_fn(move || {
        let lowest = word.trailing_zeros();
        (word != 0).then(|| {
            word &= word - 1;
            lowest as usize
        })
    })
}

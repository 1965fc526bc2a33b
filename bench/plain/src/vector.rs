//! The check of a configuration vector: from bytes to tables, or to a refusal.

use std::ops::RangeInclusive;

pub const MAX_PARTITIONS: usize = 8;
pub const MAX_SLOTS: usize = 16;
pub const MAX_CHANNELS: usize = 8;
pub const MAX_PORTS: usize = 32;
pub const MAX_NAME: usize = 16;
pub const LINES: usize = 16;
pub const IPVIS: usize = 8;
/// Events 0 to 7 belong to a partition, events 8 to 11 to the system.
pub const PARTITION_EVENTS: usize = 8;
pub const SYSTEM_EVENTS: usize = 4;

const MAX_FRAME: u32 = 1_000_000;
const MAX_MESSAGE: u16 = 64;
const SYSTEM_SCOPE: u8 = 255;

/// Why a vector is refused. The value is the refusal's number.
#[derive(Debug, Clone, Copy, PartialEq, Eq)]
pub enum Reason {
    Cut = 12,
    UnknownKind = 13,
    WrongLength = 14,
    OutOfTurn = 15,
    Owed = 16,
    BadField = 21,
    TooMany = 31,
    SaidBefore = 32,
    SlotMisplaced = 33,
}

#[derive(Debug, Clone, Copy, PartialEq, Eq)]
pub enum Layer {
    Frame,
    Field,
    Relation,
}

#[derive(Debug, Clone, Copy, PartialEq, Eq)]
pub struct Refusal {
    pub reason: Reason,
    pub place: usize,
}

impl Refusal {
    pub fn number(self) -> u8 {
        self.reason as u8
    }

    pub fn layer(self) -> Layer {
        match self.number() {
            ..=16 => Layer::Frame,
            21 => Layer::Field,
            _ => Layer::Relation,
        }
    }
}

/// A name of 1 to 16 bytes. The bytes behind its end are 0, so that names compare as wholes.
#[derive(Debug, Clone, Copy, PartialEq, Eq)]
pub struct Name {
    len: u8,
    bytes: [u8; MAX_NAME],
}

impl Name {
    /// None for no bytes or too many.
    pub fn new(name: &[u8]) -> Option<Name> {
        if name.is_empty() {
            return None;
        }
        let mut bytes = [0; MAX_NAME];
        bytes.get_mut(..name.len())?.copy_from_slice(name);
        Some(Name { len: name.len() as u8, bytes })
    }

    pub fn as_bytes(&self) -> &[u8] {
        &self.bytes[..usize::from(self.len)]
    }
}

#[derive(Debug, Clone, Copy, PartialEq, Eq)]
pub enum Class {
    Standard,
    System,
}

#[derive(Debug, Clone, Copy, PartialEq, Eq)]
pub enum Transfer {
    Sampling,
    Queuing,
}

#[derive(Debug, Clone, Copy, PartialEq, Eq)]
pub enum Direction {
    Source,
    Destination,
}

/// What the health monitor does. The value is the action's number.
#[derive(Debug, Clone, Copy, PartialEq, Eq)]
pub enum Action {
    Ignore = 0,
    Signal = 1,
    Suspend = 2,
    Halt = 3,
    WarmReset = 4,
    ColdReset = 5,
}

impl Action {
    fn from_number(number: u8) -> Option<Action> {
        use Action::*;
        [Ignore, Signal, Suspend, Halt, WarmReset, ColdReset].get(usize::from(number)).copied()
    }

    /// A system is neither signalled nor suspended.
    fn suits_system(self) -> bool {
        !matches!(self, Action::Signal | Action::Suspend)
    }
}

#[derive(Debug, Clone, Copy, PartialEq, Eq)]
pub struct Response {
    pub action: Action,
    pub logged: bool,
}

const fn response(action: Action, logged: bool) -> Response {
    Response { action, logged }
}

const PARTITION_DEFAULTS: [Response; PARTITION_EVENTS] = [
    response(Action::Signal, false),
    response(Action::Signal, true),
    response(Action::Signal, false),
    response(Action::Signal, true),
    response(Action::Signal, false),
    response(Action::Suspend, true),
    response(Action::Suspend, true),
    response(Action::Halt, true),
];

const SYSTEM_DEFAULTS: [Response; SYSTEM_EVENTS] = [
    response(Action::Ignore, true),
    response(Action::Ignore, true),
    response(Action::WarmReset, true),
    response(Action::Ignore, true),
];

#[derive(Debug, Clone, Copy)]
pub struct Partition {
    pub class: Class,
    pub area: u16,
    pub name: Name,
}

#[derive(Debug, Clone, Copy)]
pub struct Slot {
    pub partition: u8,
    pub start: u32,
    pub duration: u32,
}

impl Slot {
    pub fn end(&self) -> u32 {
        self.start + self.duration
    }
}

#[derive(Debug, Clone)]
pub struct Plan {
    pub frame: u32,
    pub slots: Vec<Slot>,
}

#[derive(Debug, Clone, Copy)]
pub struct Channel {
    pub transfer: Transfer,
    pub longest: u8,
    pub depth: u8,
}

#[derive(Debug, Clone, Copy)]
pub struct Port {
    pub partition: u8,
    pub channel: u8,
    pub direction: Direction,
    pub name: Name,
}

/// Everything that a taken vector says.
#[derive(Debug, Clone)]
pub struct Tables {
    pub partitions: Vec<Partition>,
    pub plans: Vec<Plan>,
    pub channels: Vec<Channel>,
    pub ports: Vec<Port>,
    /// By partition and number of the interrupt: the mask of receivers.
    pub links: [[Option<u8>; IPVIS]; MAX_PARTITIONS],
    pub lines: [Option<u8>; LINES],
    pub responses: [[Response; PARTITION_EVENTS]; MAX_PARTITIONS],
    pub system_responses: [Response; SYSTEM_EVENTS],
}

impl Tables {
    fn empty() -> Tables {
        Tables {
            partitions: Vec::new(),
            plans: Vec::new(),
            channels: Vec::new(),
            ports: Vec::new(),
            links: [[None; IPVIS]; MAX_PARTITIONS],
            lines: [None; LINES],
            responses: [PARTITION_DEFAULTS; MAX_PARTITIONS],
            system_responses: SYSTEM_DEFAULTS,
        }
    }
}

/// Checks a vector from its first byte to its last.
pub fn check(vector: &[u8]) -> Result<Tables, Refusal> {
    let mut checker = Checker::new();
    let mut place = 0;
    while place < vector.len() {
        let record = Record::read(vector, place)?;
        checker.take(&record)?;
        place += HEAD + record.body.len();
    }
    checker.finish(place)
}

/// Bytes of a record's head.
const HEAD: usize = 4;

#[derive(Debug, Clone, Copy, PartialEq, Eq)]
enum Kind {
    Header,
    Partition,
    Plan,
    Slot,
    Channel,
    Port,
    Ipvi,
    Line,
    Action,
}

impl Kind {
    fn from_number(number: u16) -> Option<Kind> {
        use Kind::*;
        let kinds = [Header, Partition, Plan, Slot, Channel, Port, Ipvi, Line, Action];
        kinds.get(usize::from(number).checked_sub(1)?).copied()
    }

    fn body_lengths(self) -> RangeInclusive<usize> {
        match self {
            Kind::Header => 2..=2,
            Kind::Partition => 4..=3 + MAX_NAME,
            Kind::Plan => 4..=4,
            Kind::Slot => 9..=9,
            Kind::Channel => 4..=4,
            Kind::Port => 3..=2 + MAX_NAME,
            Kind::Ipvi => 3..=3,
            Kind::Line => 2..=2,
            Kind::Action => 4..=4,
        }
    }
}

struct Record<'a> {
    place: usize,
    kind: Kind,
    body: &'a [u8],
}

impl<'a> Record<'a> {
    /// Refusals 12 to 14: what can be said of a record without those before it.
    fn read(vector: &'a [u8], place: usize) -> Result<Record<'a>, Refusal> {
        let refused = |reason| Refusal { reason, place };
        let (head, rest) = vector[place..].split_first_chunk::<HEAD>().ok_or(refused(Reason::Cut))?;
        let length = usize::from(u16::from_le_bytes([head[0], head[1]]));
        let body = rest.get(..length).ok_or(refused(Reason::Cut))?;
        let number = u16::from_le_bytes([head[2], head[3]]);
        let kind = Kind::from_number(number).ok_or(refused(Reason::UnknownKind))?;
        if !kind.body_lengths().contains(&length) {
            return Err(refused(Reason::WrongLength));
        }
        Ok(Record { place, kind, body })
    }

    fn u8(&self, at: usize) -> u8 {
        self.body[at]
    }

    fn u16(&self, at: usize) -> u16 {
        u16::from_le_bytes([self.body[at], self.body[at + 1]])
    }

    fn u32(&self, at: usize) -> u32 {
        u32::from(self.u16(at)) | u32::from(self.u16(at + 2)) << 16
    }

    /// A name is the rest of the body; the body's length allows 1 to 16 bytes of it.
    fn name(&self, at: usize) -> Result<Name, Refusal> {
        Name::new(&self.body[at..]).ok_or(self.refusal(Reason::WrongLength))
    }

    fn refusal(&self, reason: Reason) -> Refusal {
        Refusal { reason, place: self.place }
    }

    /// A refusal of the record unless the condition holds.
    fn demand(&self, holds: bool, reason: Reason) -> Result<(), Refusal> {
        if holds {
            Ok(())
        } else {
            Err(self.refusal(reason))
        }
    }

    /// A refusal of the field at this offset unless the condition holds.
    fn field(&self, at: usize, allowed: bool) -> Result<(), Refusal> {
        if allowed {
            Ok(())
        } else {
            Err(self.bad_field(at))
        }
    }

    fn bad_field(&self, at: usize) -> Refusal {
        Refusal { reason: Reason::BadField, place: self.place + HEAD + at }
    }
}

/// What was read so far.
struct Checker {
    last: Option<Kind>,
    partitions: usize,
    plans: usize,
    /// Ports of the last channel.
    ports_here: usize,
    /// One bit for each partition and event, and for each event of the system, that an ACTION record named.
    answered: [u8; MAX_PARTITIONS],
    system_answered: u8,
    tables: Tables,
}

impl Checker {
    fn new() -> Checker {
        Checker {
            last: None,
            partitions: 0,
            plans: 0,
            ports_here: 0,
            answered: [0; MAX_PARTITIONS],
            system_answered: 0,
            tables: Tables::empty(),
        }
    }

    fn take(&mut self, record: &Record) -> Result<(), Refusal> {
        record.demand(self.in_turn(record.kind), Reason::OutOfTurn)?;
        match record.kind {
            Kind::Header => self.header(record)?,
            Kind::Partition => self.partition(record)?,
            Kind::Plan => self.plan(record)?,
            Kind::Slot => self.slot(record)?,
            Kind::Channel => self.channel(record)?,
            Kind::Port => self.port(record)?,
            Kind::Ipvi => self.ipvi(record)?,
            Kind::Line => self.line(record)?,
            Kind::Action => self.action(record)?,
        }
        self.last = Some(record.kind);
        Ok(())
    }

    fn finish(self, place: usize) -> Result<Tables, Refusal> {
        let complete = !matches!(self.last, None | Some(Kind::Plan))
            && self.partitions_complete()
            && self.plans_complete()
            && self.channel_complete();
        if complete {
            Ok(self.tables)
        } else {
            Err(Refusal { reason: Reason::Owed, place })
        }
    }

    fn in_turn(&self, kind: Kind) -> bool {
        let Some(last) = self.last else { return kind == Kind::Header };
        let tail = self.plans_complete() && self.channel_complete();
        match kind {
            Kind::Header => false,
            Kind::Partition => matches!(last, Kind::Header | Kind::Partition) && !self.partitions_complete(),
            Kind::Plan => {
                matches!(last, Kind::Partition | Kind::Slot) && self.partitions_complete() && !self.plans_complete()
            }
            Kind::Slot => matches!(last, Kind::Plan | Kind::Slot),
            Kind::Channel => matches!(last, Kind::Slot | Kind::Port) && tail,
            Kind::Port => matches!(last, Kind::Channel | Kind::Port),
            Kind::Ipvi => matches!(last, Kind::Slot | Kind::Port | Kind::Ipvi) && tail,
            Kind::Line => matches!(last, Kind::Slot | Kind::Port | Kind::Ipvi | Kind::Line) && tail,
            Kind::Action => matches!(last, Kind::Slot | Kind::Port | Kind::Ipvi | Kind::Line | Kind::Action) && tail,
        }
    }

    fn partitions_complete(&self) -> bool {
        self.tables.partitions.len() == self.partitions
    }

    fn plans_complete(&self) -> bool {
        self.tables.plans.len() == self.plans
    }

    fn channel_complete(&self) -> bool {
        self.tables.channels.is_empty() || self.ports_here >= 2
    }

    fn exists(&self, partition: u8) -> bool {
        usize::from(partition) < self.partitions
    }

    fn header(&mut self, record: &Record) -> Result<(), Refusal> {
        let (partitions, plans) = (record.u8(0), record.u8(1));
        record.field(0, (1..=8).contains(&partitions))?;
        record.field(1, (1..=4).contains(&plans))?;
        self.partitions = usize::from(partitions);
        self.plans = usize::from(plans);
        Ok(())
    }

    fn partition(&mut self, record: &Record) -> Result<(), Refusal> {
        let class = match record.u8(0) {
            0 => Class::Standard,
            1 => Class::System,
            _ => return Err(record.bad_field(0)),
        };
        let area = record.u16(1);
        record.field(1, (1..=1024).contains(&area))?;
        let name = record.name(3)?;
        let rows = &mut self.tables.partitions;
        record.demand(rows.iter().all(|row| row.name != name), Reason::SaidBefore)?;
        rows.push(Partition { class, area, name });
        Ok(())
    }

    fn plan(&mut self, record: &Record) -> Result<(), Refusal> {
        let frame = record.u32(0);
        record.field(0, (1..=MAX_FRAME).contains(&frame))?;
        self.tables.plans.push(Plan { frame, slots: Vec::with_capacity(MAX_SLOTS) });
        Ok(())
    }

    fn slot(&mut self, record: &Record) -> Result<(), Refusal> {
        let slot = Slot { partition: record.u8(0), start: record.u32(1), duration: record.u32(5) };
        record.field(0, self.exists(slot.partition))?;
        record.field(1, slot.start < MAX_FRAME)?;
        record.field(5, (1..=MAX_FRAME).contains(&slot.duration))?;
        // A slot is in turn only behind a plan.
        let plan = self.tables.plans.last_mut().ok_or(record.refusal(Reason::OutOfTurn))?;
        record.demand(plan.slots.len() < MAX_SLOTS, Reason::TooMany)?;
        let free_from = plan.slots.last().map_or(0, Slot::end);
        record.demand(free_from <= slot.start && slot.end() <= plan.frame, Reason::SlotMisplaced)?;
        plan.slots.push(slot);
        Ok(())
    }

    fn channel(&mut self, record: &Record) -> Result<(), Refusal> {
        let (transfer, deepest) = match record.u8(0) {
            0 => (Transfer::Sampling, 1),
            1 => (Transfer::Queuing, 8),
            _ => return Err(record.bad_field(0)),
        };
        let (longest, depth) = (record.u16(1), record.u8(3));
        record.field(1, (1..=MAX_MESSAGE).contains(&longest))?;
        record.field(3, (1..=deepest).contains(&depth))?;
        record.demand(self.tables.channels.len() < MAX_CHANNELS, Reason::TooMany)?;
        self.tables.channels.push(Channel { transfer, longest: longest as u8, depth });
        self.ports_here = 0;
        Ok(())
    }

    fn port(&mut self, record: &Record) -> Result<(), Refusal> {
        let partition = record.u8(0);
        record.field(0, self.exists(partition))?;
        let direction = if self.ports_here == 0 { Direction::Source } else { Direction::Destination };
        record.field(1, record.u8(1) == direction as u8)?;
        let name = record.name(2)?;

        // A port is in turn only behind a channel.
        let transfer = self.tables.channels.last().ok_or(record.refusal(Reason::OutOfTurn))?.transfer;
        let ports = &mut self.tables.ports;
        let queue_full = transfer == Transfer::Queuing && self.ports_here == 2;
        record.demand(ports.len() < MAX_PORTS && !queue_full, Reason::TooMany)?;

        let channel = self.tables.channels.len() as u8 - 1;
        let fresh = |port: &Port| port.partition != partition || port.name != name && port.channel != channel;
        record.demand(ports.iter().all(fresh), Reason::SaidBefore)?;
        ports.push(Port { partition, channel, direction, name });
        self.ports_here += 1;
        Ok(())
    }

    fn ipvi(&mut self, record: &Record) -> Result<(), Refusal> {
        let (number, source, mask) = (record.u8(0), record.u8(1), record.u8(2));
        record.field(0, usize::from(number) < IPVIS)?;
        record.field(1, self.exists(source))?;
        let existing = (1u16 << self.partitions) - 1;
        record.field(2, u16::from(mask) & !existing == 0 && mask >> source & 1 == 0)?;
        let link = &mut self.tables.links[usize::from(source)][usize::from(number)];
        record.demand(link.is_none(), Reason::SaidBefore)?;
        *link = Some(mask);
        Ok(())
    }

    fn line(&mut self, record: &Record) -> Result<(), Refusal> {
        let (line, owner) = (record.u8(0), record.u8(1));
        record.field(0, usize::from(line) < LINES)?;
        record.field(1, self.exists(owner))?;
        let entry = &mut self.tables.lines[usize::from(line)];
        record.demand(entry.is_none(), Reason::SaidBefore)?;
        *entry = Some(owner);
        Ok(())
    }

    fn action(&mut self, record: &Record) -> Result<(), Refusal> {
        let (scope, event) = (record.u8(0), record.u8(1));
        let system = scope == SYSTEM_SCOPE;
        record.field(0, system || self.exists(scope))?;
        record.field(1, if system { (8..=11).contains(&event) } else { event <= 7 })?;
        let action = Action::from_number(record.u8(2))
            .filter(|action| !system || action.suits_system())
            .ok_or(record.bad_field(2))?;
        let logged = record.u8(3);
        record.field(3, logged <= 1)?;

        let (answered, rows, index) = if system {
            (&mut self.system_answered, &mut self.tables.system_responses[..], event - 8)
        } else {
            let scope = usize::from(scope);
            (&mut self.answered[scope], &mut self.tables.responses[scope][..], event)
        };
        record.demand(*answered >> index & 1 == 0, Reason::SaidBefore)?;
        *answered |= 1 << index;
        rows[usize::from(index)] = Response { action, logged: logged == 1 };
        Ok(())
    }
}

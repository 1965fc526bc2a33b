//! Scripts: a vector and event records, as bytes.

use crate::machine::Event;

/// The most bytes a script may have.
pub const MAX_SCRIPT: usize = 32_768;

/// A script is not one: too long, cut, or with a record of unknown kind or wrong length.
#[derive(Debug, Clone, Copy, PartialEq, Eq)]
pub struct Malformed;

#[derive(Debug, Clone, Copy)]
pub struct Script<'a> {
    pub vector: &'a [u8],
    records: &'a [u8],
}

impl<'a> Script<'a> {
    /// Reads a whole script; its events are well formed from here on.
    pub fn read(input: &'a [u8]) -> Result<Script<'a>, Malformed> {
        if input.len() > MAX_SCRIPT {
            return Err(Malformed);
        }
        let (length, rest) = input.split_first_chunk().ok_or(Malformed)?;
        let length = usize::from(u16::from_le_bytes(*length));
        let (vector, records) = rest.split_at_checked(length).ok_or(Malformed)?;
        Events::new(records).try_for_each(|event| event.map(drop))?;
        Ok(Script { vector, records })
    }

    pub fn events(&self) -> impl Iterator<Item = Event> + 'a {
        Events::new(self.records).map_while(Result::ok)
    }
}

/// Reads event records, one directly after another. Each is judged when it is met; nothing follows a malformed one.
#[derive(Debug, Clone)]
pub struct Events<'a> {
    rest: &'a [u8],
}

impl<'a> Events<'a> {
    pub fn new(records: &'a [u8]) -> Events<'a> {
        Events { rest: records }
    }

    fn read(&mut self) -> Result<Event, Malformed> {
        let (head, rest) = self.rest.split_first_chunk::<4>().ok_or(Malformed)?;
        let length = usize::from(u16::from_le_bytes([head[0], head[1]]));
        let (body, rest) = rest.split_at_checked(length).ok_or(Malformed)?;
        self.rest = rest;
        event(u16::from_le_bytes([head[2], head[3]]), body).ok_or(Malformed)
    }
}

impl Iterator for Events<'_> {
    type Item = Result<Event, Malformed>;

    fn next(&mut self) -> Option<Self::Item> {
        if self.rest.is_empty() {
            return None;
        }
        let event = self.read();
        if event.is_err() {
            self.rest = &[];
        }
        Some(event)
    }
}

/// The event of a record, if the body has the length of its kind.
fn event(kind: u16, body: &[u8]) -> Option<Event> {
    Some(match kind {
        32 => Event::Tick { time: u32::from_le_bytes(body.try_into().ok()?) },
        33 => call(body.try_into().ok()?),
        34 => {
            let &[partition, ref offset @ ..]: &[u8; 5] = body.try_into().ok()?;
            Event::Load { partition, offset: u32::from_le_bytes(*offset) }
        }
        35 => {
            let &[partition, ref offset @ .., byte]: &[u8; 6] = body.try_into().ok()?;
            Event::Store { partition, offset: u32::from_le_bytes(*offset), byte }
        }
        36 => {
            let &[partition, event]: &[u8; 2] = body.try_into().ok()?;
            Event::Fault { partition, event }
        }
        37 => {
            let &[line]: &[u8; 1] = body.try_into().ok()?;
            Event::Line { line }
        }
        38 => {
            let &[event]: &[u8; 1] = body.try_into().ok()?;
            Event::SystemFault { event }
        }
        _ => return None,
    })
}

fn call(body: &[u8; 22]) -> Event {
    let word = |at: usize| u32::from_le_bytes([body[at], body[at + 1], body[at + 2], body[at + 3]]);
    Event::Call { partition: body[0], number: body[1], arguments: [word(2), word(6), word(10), word(14), word(18)] }
}

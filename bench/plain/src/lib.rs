//! A separation kernel core in ordinary Rust: the configuration vector, the machine and its scripts.
//!
//! The rules are those of `docs/VECTOR.md`, `docs/MACHINE.md`, `docs/BOARDS.md` and `docs/SCRIPT.md`. Nothing here is
//! proved; it is what one writes who knows the rules and wants speed.

#![forbid(unsafe_code)]

pub mod board;
mod calls;
mod clock;
pub mod machine;
mod ring;
pub mod script;
pub mod vector;

use board::Board;
use machine::{Answer, System};
use script::Events;

/// Checks the vector, boots it on a board of zeros, and takes the event records one after another.
///
/// Each answer is written as 12 bytes. The result is the number of events answered, or `usize::MAX` where the vector is
/// refused, a record is malformed, or the room for the answers is too short.
pub fn run(vector: &[u8], records: &[u8], answers: &mut [u8]) -> usize {
    answer_all(vector, records, answers).unwrap_or(usize::MAX)
}

fn answer_all(vector: &[u8], records: &[u8], answers: &mut [u8]) -> Option<usize> {
    let tables = vector::check(vector).ok()?;
    let board = Board::zeroed(&tables);
    let mut system = System::boot(tables, board);
    let mut room = answers.chunks_exact_mut(Answer::BYTES);
    let mut answered = 0;
    for event in Events::new(records) {
        let answer = system.event(event.ok()?);
        room.next()?.copy_from_slice(&answer.to_bytes());
        answered += 1;
    }
    Some(answered)
}

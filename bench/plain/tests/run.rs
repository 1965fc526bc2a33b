//! What the comparison of scripts does not reach: `run` with its refusals, and boards that do not fit.

use plain::board::{Board, Fence};
use plain::machine::{Answer, Event, System};
use plain::vector;

/// One standard partition with 16 bytes, whose slot fills the frame.
const VECTOR: [u8; 35] =
    [2, 0, 1, 0, 1, 1, 4, 0, 2, 0, 0, 16, 0, 0x41, 4, 0, 3, 0, 0xE8, 3, 0, 0, 9, 0, 4, 0, 0, 0, 0, 0, 0, 0xE8, 3, 0, 0];
/// A tick to 5, then a load at 16.
const RECORDS: [u8; 17] = [4, 0, 32, 0, 5, 0, 0, 0, 5, 0, 34, 0, 0, 16, 0, 0, 0];

#[test]
fn answers_stand_one_after_another() {
    let mut answers = [0xFF; 25];
    assert_eq!(plain::run(&VECTOR, &RECORDS, &mut answers), 2);
    assert_eq!(answers[..Answer::BYTES], [0; Answer::BYTES]);
    assert_eq!(answers[Answer::BYTES..2 * Answer::BYTES], [1, 0, 0, 0, 0, 0, 0, 0, 0, 0, 0, 0]);
    assert_eq!(answers[24], 0xFF);
}

#[test]
fn no_records_are_no_events() {
    assert_eq!(plain::run(&VECTOR, &[], &mut []), 0);
}

#[test]
fn refusals_of_a_run() {
    let mut answers = [0; 24];
    assert_eq!(plain::run(&VECTOR[..34], &RECORDS, &mut answers), usize::MAX);
    assert_eq!(plain::run(&VECTOR, &RECORDS[..16], &mut answers), usize::MAX);
    assert_eq!(plain::run(&VECTOR, &RECORDS, &mut answers[..23]), usize::MAX);
    assert_eq!(plain::run(&VECTOR, &[1, 0, 39, 0, 0], &mut answers), usize::MAX);
    assert_eq!(plain::run(&VECTOR, &[2, 0, 37, 0, 0, 0], &mut answers), usize::MAX);
}

fn sizes(memory: usize, named: &[(usize, usize)]) -> Vec<usize> {
    let mut fences = [Fence::default(); 8];
    for (fence, &(base, size)) in fences.iter_mut().zip(named) {
        *fence = Fence { base, size };
    }
    let board = Board::new(vec![0; memory], fences);
    (0..named.len()).map(|partition| board.area(partition).len()).collect()
}

#[test]
fn fences() {
    assert_eq!(sizes(64, &[(0, 16), (16, 48)]), [16, 48]);
    assert_eq!(sizes(64, &[(0, 16), (8, 0)]), [16, 0]);
    assert_eq!(sizes(64, &[(0, 16), (15, 8)]), [0, 0]);
    assert_eq!(sizes(64, &[(0, 16), (60, 8)]), [0, 0]);
    assert_eq!(sizes(64, &[(0, 16), (100, 0)]), [16, 0]);
    assert_eq!(sizes(64, &[(0, 16), (usize::MAX, 8)]), [0, 0]);
    assert_eq!(sizes(4096, &[(0, 16), (1024, 1025)]), [0, 0]);
}

#[test]
fn a_board_that_does_not_fit_boots_halted() {
    let tables = vector::check(&VECTOR).unwrap();
    let mut fences = [Fence::default(); 8];
    fences[0].size = 15;
    let board = Board::new(vec![0; 64], fences);
    let mut system = System::boot(tables, board);
    assert_eq!(system.event(Event::Tick { time: 1 }).code, -10);
}

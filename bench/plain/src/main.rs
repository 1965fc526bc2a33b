//! Reads a script from standard input and prints the answers, as `docs/SCRIPT.md` has it.

use plain::board::Board;
use plain::machine::System;
use plain::script::{Script, MAX_SCRIPT};
use plain::vector::{self, Tables};
use std::io::{self, Read, Write};

fn main() -> io::Result<()> {
    // One byte more than a script may have is enough to see that it is too long.
    let mut input = Vec::with_capacity(MAX_SCRIPT + 1);
    io::stdin().lock().take(MAX_SCRIPT as u64 + 1).read_to_end(&mut input)?;
    let mut output = Vec::new();
    answer(&input, &mut output)?;
    io::stdout().lock().write_all(&output)
}

fn answer(input: &[u8], output: &mut Vec<u8>) -> io::Result<()> {
    let Ok(script) = Script::read(input) else { return writeln!(output, "bad") };
    let tables = match vector::check(script.vector) {
        Ok(tables) => tables,
        Err(refusal) => return writeln!(output, "refused {} {}", refusal.number(), refusal.place),
    };
    // There is one kind of board here; both headings stand for it, since the answers do not depend on the board.
    for heading in ["fenced", "paged"] {
        writeln!(output, "{heading}")?;
        play(&script, tables.clone(), output)?;
    }
    Ok(())
}

fn play(script: &Script, tables: Tables, output: &mut Vec<u8>) -> io::Result<()> {
    let board = Board::zeroed(&tables);
    let mut system = System::boot(tables, board);
    for event in script.events() {
        let answer = system.event(event);
        writeln!(output, "{} {} {}", answer.code, answer.a, answer.b)?;
    }
    Ok(())
}

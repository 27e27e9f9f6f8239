//! The program's highest level, which is to be the independent one's.

use independent::journals::red;
use independent::recorder::Recorder;
use independent::LEVEL;

use crate::check::{run, Feeding};
use crate::program::Program;

/// Whether the program reads a packet with so many older blocks.
fn reads(program: &Program, older: usize) -> Result<bool, String> {
    let packet = red(1, &vec![""; older], "A");
    let journal = Recorder::open(98, 100).packet(&packet).end();
    let ended = run(program, &journal, &Feeding::Whole)?;
    Ok(ended.printed.starts_with(b"A"))
}

/// Says what to do where the levels differ.
pub fn check(program: &Program) -> Result<(), String> {
    match (reads(program, LEVEL)?, reads(program, LEVEL + 1)?) {
        (true, false) => Ok(()),
        (_, more) => Err(format!(
            "the program's highest level is {} {LEVEL}, that of the independent one. Set `LEVEL`\n\
             in reference/independent/src/lib.rs to the program's, or build the program of that level",
            if more { "above" } else { "below" }
        )),
    }
}

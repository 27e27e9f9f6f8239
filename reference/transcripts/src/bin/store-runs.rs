//! Writes the stored runs and the sample anew, from the cases in the
//! independent program, which are spelled from the scope paper.
#![forbid(unsafe_code)]

use std::io;

use transcripts::stored::{directory, made, sample, samples, store};

fn main() -> io::Result<()> {
    store(&directory(), &made())?;
    store(&samples(), &[sample()])
}

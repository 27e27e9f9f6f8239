//! The independent transcript as a program: a journal on standard input,
//! its transcript on standard output.
#![forbid(unsafe_code)]

use std::process::exit;

fn main() {
    if let Err(error) = transcripts::independent_transcript() {
        eprintln!("independent-transcript: {error}");
        exit(1);
    }
}

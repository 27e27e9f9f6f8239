//! Holds the proved program `transcript` against the independent one.
#![forbid(unsafe_code)]

use std::fs::File;
use std::io::{self, stdin, stdout};
use std::os::fd::AsFd;

pub mod check;
pub mod damage;
pub mod draft;
pub mod level;
pub mod live;
pub mod program;
pub mod random_runs;
pub mod stored;
pub mod workload;

/// The status where nobody reads the output any more, as of a program that
/// the signal ends.
pub const UNREAD: i32 = 141;

/// The independent program: a journal from standard input, its transcript to
/// standard output, past the standard library's own buffers.
pub fn independent_transcript() -> io::Result<()> {
    let input = File::from(stdin().as_fd().try_clone_to_owned()?);
    let output = File::from(stdout().as_fd().try_clone_to_owned()?);
    independent::transcript::run(input, output)
}

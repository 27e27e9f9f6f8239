//! Lines on standard output.

use std::fmt;
use std::io::{self, ErrorKind, Write};
use std::process::exit;

/// The status where nobody reads the output any more, as of a program that
/// the signal ends.
const UNREAD: i32 = 141;

/// Prints a line, and ends where nobody reads on.
pub fn print(program: &str, line: fmt::Arguments<'_>) {
    let Err(error) = writeln!(io::stdout(), "{line}") else {
        return;
    };
    if error.kind() == ErrorKind::BrokenPipe {
        exit(UNREAD);
    }
    eprintln!("{program}: cannot write: {error}");
    exit(1);
}

/// Like `println!`, but ends quietly where nobody reads on.
#[macro_export]
macro_rules! say {
    ($($line:tt)*) => {
        $crate::output::print(env!("CARGO_PKG_NAME"), format_args!($($line)*))
    };
}

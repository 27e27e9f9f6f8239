//! The independent transcript with a fault that the variable WRONG names, to
//! see that the comparison finds it.
#![forbid(unsafe_code)]

use std::env;
use std::fs::File;
use std::io::{self, stdin, stdout, Read, Write};
use std::os::fd::AsFd;
use std::process::{abort, exit};

/// Standard output with a fault.
struct Faulty {
    output: File,
    fault: String,
    held: Vec<u8>,
}

impl Write for Faulty {
    fn write(&mut self, bytes: &[u8]) -> io::Result<usize> {
        let replaced = |from: &str, to: &str| {
            let text = String::from_utf8_lossy(bytes);
            text.replace(from, to).into_bytes()
        };
        let written = match self.fault.as_str() {
            "holds" => {
                self.held.extend(bytes);
                return Ok(bytes.len());
            }
            "count" => replaced(" late 1 ", " late 0 "),
            "rare" => replaced(" refused 3\n", " refused 2\n"),
            "newline" => replaced("broken\n", "broken"),
            "mark" => replaced("\u{fffd}\u{fffd}", "\u{fffd}"),
            _ => bytes.to_vec(),
        };
        self.output.write_all(&written)?;
        Ok(bytes.len())
    }

    fn flush(&mut self) -> io::Result<()> {
        Ok(())
    }
}

fn run(fault: &str) -> io::Result<()> {
    let mut input = File::from(stdin().as_fd().try_clone_to_owned()?);
    let mut faulty = Faulty {
        output: File::from(stdout().as_fd().try_clone_to_owned()?),
        fault: fault.into(),
        held: vec![],
    };
    independent::transcript::run(&input, &mut faulty)?;
    faulty.output.write_all(&faulty.held)?;
    match fault {
        "waits" => input.read_to_end(&mut vec![]).map(drop),
        "crashes" => abort(),
        "talks" => writeln!(io::stderr(), "done"),
        _ => Ok(()),
    }
}

fn main() {
    let fault = env::var("WRONG").unwrap_or_default();
    match run(&fault) {
        Err(error) if fault != "silent" => {
            eprintln!("wrong-transcript: {error}");
            exit(1);
        }
        _ => {}
    }
}

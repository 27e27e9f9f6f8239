//! One journal given to the program, and what must come of it.

use std::env;
use std::fmt::{self, Display, Formatter};
use std::fs::{self, File};
use std::path::PathBuf;
use std::process;
use std::thread;
use std::time::Duration;

use crate::program::{Ended, Program};

/// A pipe takes so many bytes without being read.
const PIPE: usize = 60_000;

/// How a journal gets to the program.
#[derive(Clone, Debug, PartialEq, Eq)]
pub enum Feeding {
    /// All of it on a pipe, which is then closed.
    Whole,
    /// Through a regular file.
    File,
    /// On a pipe that stays open; the program has to end by itself.
    StaysOpen,
    /// On a pipe in pieces of these lengths, the rest at once; the pipe is
    /// then closed, or stays open.
    Pieces { lengths: Vec<usize>, closed: bool },
}

/// What went wrong, and with which journal.
#[derive(Debug)]
pub struct Difference {
    pub what: String,
    /// Where the journal was saved.
    pub saved: Option<PathBuf>,
}

impl Display for Difference {
    fn fmt(&self, f: &mut Formatter<'_>) -> fmt::Result {
        write!(f, "{}", self.what)?;
        match &self.saved {
            Some(path) => write!(f, "\nthe journal is saved in {}", path.display()),
            None => Ok(()),
        }
    }
}

impl From<String> for Difference {
    fn from(what: String) -> Self {
        Difference { what, saved: None }
    }
}

/// Gives a journal to the program and compares what it prints.
pub fn check(
    program: &Program,
    journal: &[u8],
    feeding: &Feeding,
    printed: &[u8],
) -> Result<(), Difference> {
    let checked = run(program, journal, feeding).and_then(|ended| judge(&ended, printed));
    checked.map_err(|wrong| Difference {
        what: format!("{wrong}\nfed: {feeding:?}"),
        saved: save(journal),
    })
}

/// Saves a journal for a look at it.
pub fn save(journal: &[u8]) -> Option<PathBuf> {
    let name = format!("transcripts-difference-{}.journal", process::id());
    let path = env::temp_dir().join(name);
    fs::write(&path, journal).ok().map(|()| path)
}

/// Gives a journal to the program and waits for its end.
pub fn run(program: &Program, journal: &[u8], feeding: &Feeding) -> Result<Ended, String> {
    if *feeding == Feeding::File || journal.len() > PIPE {
        return run_on_file(program, journal);
    }
    let mut running = program.start()?;
    let mut rest = journal;
    if let Feeding::Pieces { lengths, .. } = feeding {
        for (place, &length) in lengths.iter().enumerate() {
            let (piece, after) = rest.split_at(length.min(rest.len()));
            running.feed(piece)?;
            rest = after;
            // The first one waits for the program to start.
            let pause = if place == 0 { 2000 } else { 150 };
            thread::sleep(Duration::from_micros(pause));
        }
    }
    running.feed(rest)?;
    if let Feeding::Whole | Feeding::Pieces { closed: true, .. } = feeding {
        running.close_input();
    }
    running.ended()
}

fn run_on_file(program: &Program, journal: &[u8]) -> Result<Ended, String> {
    let path = env::temp_dir().join(format!("transcripts-{}.journal", process::id()));
    let failed = |error| format!("{}: {error}", path.display());
    fs::write(&path, journal).map_err(failed)?;
    let file = File::open(&path).map_err(failed)?;
    fs::remove_file(&path).map_err(failed)?;
    program
        .start_on(file.into(), process::Stdio::piped())?
        .ended()
}

fn judge(ended: &Ended, printed: &[u8]) -> Result<(), String> {
    if ended.printed != printed {
        return Err(format!(
            "expected: {}\nprinted:  {}",
            shown(printed),
            shown(&ended.printed)
        ));
    }
    if !ended.said.is_empty() {
        return Err(format!("on standard error: {}", ended.said));
    }
    // The papers say nothing of the exit status.
    match ended.status.code() {
        Some(_) => Ok(()),
        None => Err(format!("not ended by itself: {}", ended.status)),
    }
}

/// The bytes as text, the middle of a long one left out.
pub fn shown(bytes: &[u8]) -> String {
    const END: usize = 200;
    let quoted = |bytes: &[u8]| format!("{:?}", String::from_utf8_lossy(bytes));
    match bytes.len().checked_sub(2 * END) {
        None | Some(0) => quoted(bytes),
        Some(middle) => format!(
            "{} .. {middle} bytes .. {}",
            quoted(&bytes[..END]),
            quoted(&bytes[bytes.len() - END..])
        ),
    }
}

//! Stored runs: a journal and what must be printed for it, as files.

use std::collections::BTreeMap;
use std::fs;
use std::io;
use std::path::{Path, PathBuf};

use independent::journal::{self, Break, Finish};
use independent::journals::{self, red, t140};
use independent::recorder::Recorder;

use crate::check::{check, Difference, Feeding};
use crate::program::Program;

/// A journal and its transcript.
pub struct Run {
    pub name: String,
    pub journal: Vec<u8>,
    pub printed: Vec<u8>,
    /// The least highest level at which this is printed.
    pub level: usize,
}

pub fn directory() -> PathBuf {
    Path::new(env!("CARGO_MANIFEST_DIR")).join("runs")
}

pub fn samples() -> PathBuf {
    Path::new(env!("CARGO_MANIFEST_DIR")).join("samples")
}

/// The stored runs, by name.
pub fn load(directory: &Path) -> Result<Vec<Run>, String> {
    let wrong = |error: io::Error| format!("{}: {error}", directory.display());
    let made = made().into_iter().chain([sample()]);
    let levels: BTreeMap<String, usize> = made.map(|run| (run.name, run.level)).collect();
    let mut runs = vec![];
    for entry in fs::read_dir(directory).map_err(wrong)? {
        let path = entry.map_err(wrong)?.path();
        if path.extension().is_some_and(|kind| kind == "journal") {
            let name = path.file_stem().unwrap_or_default().to_string_lossy();
            runs.push(Run {
                level: levels.get(&*name).copied().unwrap_or(1),
                name: name.into(),
                journal: fs::read(&path).map_err(wrong)?,
                printed: fs::read(path.with_extension("expected")).map_err(wrong)?,
            });
        }
    }
    runs.sort_by(|one, other| one.name.cmp(&other.name));
    Ok(runs)
}

/// Writes runs as files.
pub fn store(directory: &Path, runs: &[Run]) -> io::Result<()> {
    fs::create_dir_all(directory)?;
    for run in runs {
        let path = directory.join(&run.name);
        fs::write(path.with_extension("journal"), &run.journal)?;
        fs::write(path.with_extension("expected"), &run.printed)?;
    }
    Ok(())
}

/// The runs that are stored: the independent program's cases.
pub fn made() -> Vec<Run> {
    let run = |case: journals::Case| Run {
        name: case.name.into(),
        journal: case.journal,
        printed: case.printed,
        level: case.level,
    };
    journals::all().into_iter().map(run).collect()
}

/// A short line: repeats that fill a gap, a loss, a late packet and a
/// refused one.
pub fn sample() -> Run {
    let mut other = t140(6, "not of this line");
    other[8] ^= 0xff;
    let packets = [
        red(1, &["", ""], "Good "),
        red(2, &["", "Good "], "mor"),
        red(4, &["mor", "ning"], ", "),
        red(3, &["Good ", "mor"], "ning"),
        other,
        red(8, &["de", "sk"], " 7"),
    ];
    let opened = Recorder::open(98, 100);
    let record =
        |recorder: Recorder, (packet, k): (&Vec<u8>, u64)| recorder.time(300 * k).packet(packet);
    Run {
        name: "sample".into(),
        journal: packets.iter().zip(0..).fold(opened, record).end(),
        printed: "Good morning, \u{fffd}desk 7\npackets 4 late 1 lost 1 refused 1\n".into(),
        level: 2,
    }
}

/// Gives each run to the program in every manner that fits it.
pub fn check_all(program: &Program, runs: &[Run]) -> Result<(), Difference> {
    for run in runs {
        let whole = [Feeding::Whole, Feeding::File];
        for feeding in whole.iter().chain(&open_ended(&run.journal)) {
            check(program, &run.journal, feeding, &run.printed).map_err(|difference| {
                Difference {
                    what: format!("stored run {}:\n{}", run.name, difference.what),
                    ..difference
                }
            })?;
        }
        shortest(program, run)?;
    }
    Ok(())
}

/// Without a byte after the one that shows how the journal finishes.
fn shortest(program: &Program, run: &Run) -> Result<(), Difference> {
    let read = journal::read(&run.journal);
    let journal = &run.journal[..read.used];
    match read.finish {
        Finish::Broken(Break::Early) => Ok(()),
        _ => check(program, journal, &Feeding::StaysOpen, &run.printed),
    }
}

/// The manners for a journal that does not end early.
fn open_ended(journal: &[u8]) -> Vec<Feeding> {
    let early = journal::read(journal).finish == Finish::Broken(Break::Early);
    let pieces = Feeding::Pieces {
        lengths: vec![1; journal.len().min(40)],
        closed: early,
    };
    match early {
        true => vec![pieces],
        false => vec![pieces, Feeding::StaysOpen],
    }
}

//! Runs the proved program on a journal, hands its transcript on as it comes,
//! and tells by the exit status how the journal was.
#![forbid(unsafe_code)]

use std::env;
use std::fs::File;
use std::io::{self, ErrorKind, Read, Write};
use std::path::PathBuf;
use std::process::{exit, Child, Command, Stdio};

mod ends;
mod keepalives;
mod options;
mod verdict;

use ends::Journal;
use options::{Asked, Options, USAGE};
use verdict::{Tail, Verdict};

const BROKEN: i32 = 1;
const UNREADABLE: i32 = 2;
const UNWRITTEN: i32 = 3;

/// Why there is no whole transcript: the exit status and what is said.
type Failure = (i32, String);

/// The proved program.
fn program() -> PathBuf {
    let named = env::var_os("STEWPIGEON_TRANSCRIPT").map(PathBuf::from);
    named.unwrap_or_else(|| {
        let beside = env::current_exe().unwrap_or_default();
        beside.with_file_name("transcript")
    })
}

fn unwritten(error: io::Error) -> Failure {
    (UNWRITTEN, format!("standard output: {error}"))
}

fn run(options: &Options) -> Result<Verdict, Failure> {
    let journal = Journal::open(options.journal.as_deref()).map_err(|wrong| (UNREADABLE, wrong))?;
    let mut out = ends::output().map_err(unwritten)?;
    let path = program();
    let not_started = |error| {
        let wrong = format!("cannot run {}: {error}", path.display());
        (UNREADABLE, wrong)
    };
    let mut child = Command::new(&path)
        .stdin(journal.stdio().map_err(not_started)?)
        .stdout(Stdio::piped())
        .stderr(Stdio::piped())
        .spawn()
        .map_err(not_started)?;
    journal.feed(child.stdin.take());
    let mut tail = Tail::default();
    if let Err(error) = pass(&mut child, &mut tail, options, &mut out) {
        let _ = child.kill();
        let _ = child.wait();
        return Err(unwritten(error));
    }
    ended(child, &tail)
}

/// Hands on what the program prints until it has printed all.
fn pass(child: &mut Child, tail: &mut Tail, options: &Options, out: &mut File) -> io::Result<()> {
    let Some(mut printed) = child.stdout.take() else {
        return Ok(());
    };
    let mut space = vec![0; 1 << 16];
    let mut filter = keepalives::Filter::default();
    let mut kept = vec![];
    loop {
        let count = match printed.read(&mut space) {
            Err(error) if error.kind() == ErrorKind::Interrupted => continue,
            count => count?,
        };
        let piece = &space[..count];
        tail.add(piece);
        if !options.keepalives_left_out {
            ends::write_all(out, piece)?;
        } else {
            kept.clear();
            filter.pass(piece, &mut kept);
            if count == 0 {
                filter.end(&mut kept);
            }
            ends::write_all(out, &kept)?;
        }
        if count == 0 {
            return Ok(());
        }
    }
}

/// What the program's end says.
fn ended(mut child: Child, tail: &Tail) -> Result<Verdict, Failure> {
    let mut said = vec![];
    if let Some(mut errors) = child.stderr.take() {
        let _ = errors.read_to_end(&mut said);
    }
    let status = child.wait();
    let said = String::from_utf8_lossy(&said);
    let said = said.trim_end();
    if !said.is_empty() {
        let status = match said.contains("cannot read standard input") {
            true => UNREADABLE,
            false => UNWRITTEN,
        };
        return Err((status, said.into()));
    }
    tail.verdict().ok_or_else(|| {
        let status = match status {
            Ok(status) => status.to_string(),
            Err(error) => error.to_string(),
        };
        let wrong = format!("the program ended before its last line: {status}");
        (UNWRITTEN, wrong)
    })
}

fn main() {
    let asked = options::parse(env::args_os().skip(1));
    let failed = match asked {
        Err(wrong) => Some((UNREADABLE, wrong)),
        Ok(Asked::Help) => {
            let written = ends::output().and_then(|mut out| writeln!(out, "{USAGE}"));
            written.map_err(unwritten).err()
        }
        Ok(Asked::Transcript(options)) => match run(&options) {
            Ok(Verdict::Whole) => None,
            Ok(Verdict::Broken) => exit(BROKEN),
            Err(failure) => Some(failure),
        },
    };
    if let Some((status, wrong)) = failed {
        let _ = writeln!(io::stderr(), "stewpigeon-transcript: {wrong}");
        exit(status);
    }
}

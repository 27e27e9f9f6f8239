//! Times the proved program and the independent one on the same journal.
#![forbid(unsafe_code)]

use std::env;
use std::fs::{self, File};
use std::io::{self, ErrorKind, Write};
use std::path::{Path, PathBuf};
use std::process::{self, exit};
use std::time::Instant;

use independent::LEVEL;
use transcripts::program::{Program, PATIENCE};
use transcripts::workload::{workload, OLDER};
use transcripts::UNREAD;

const USAGE: &str = "\
Usage: bench-transcript [--packets N] [--rounds N]

Makes a journal, gives it to the program `transcript` and to the independent
program in turn, and prints their times, whether they print the same, and the
most memory that each of them held.

  --packets N   packets of the journal (default 1000000)
  --rounds N    rounds, in each of which both programs run (default 7)
  --help        print this text

The program is target/bin/transcript in the repository; the variable
STEWPIGEON_TRANSCRIPT names another one.";

/// Runs this program as the independent transcript.
const INDEPENDENT: &str = "--independent";

const SEED: u64 = 20_260_101;

struct Options {
    packets: usize,
    rounds: usize,
}

fn options() -> Result<Options, String> {
    let mut options = Options {
        packets: 1_000_000,
        rounds: 7,
    };
    let arguments = env::args_os().skip(1);
    let mut arguments = arguments.map(|argument| argument.to_string_lossy().into_owned());
    while let Some(argument) = arguments.next() {
        match argument.as_str() {
            "--packets" => options.packets = number("--packets", arguments.next())?,
            "--rounds" => options.rounds = number("--rounds", arguments.next())?,
            "--help" | "-h" => {
                say(USAGE).unwrap_or_else(|stop| stop.exit());
                exit(0);
            }
            other => return Err(format!("unknown argument {other}; --help lists them")),
        }
    }
    Ok(options)
}

fn number(name: &str, value: Option<String>) -> Result<usize, String> {
    let value = value.ok_or_else(|| format!("{name} wants a number after it"))?;
    match value.parse() {
        Ok(number) if number > 0 => Ok(number),
        _ => Err(format!("{name} {value}: give a whole number above 0")),
    }
}

/// Why the benchmark ends early.
enum Stop {
    /// Nobody reads the output any more.
    Unread,
    Wrong(String),
}

impl From<String> for Stop {
    fn from(wrong: String) -> Stop {
        Stop::Wrong(wrong)
    }
}

impl Stop {
    fn exit(self) -> ! {
        let Stop::Wrong(wrong) = self else {
            exit(UNREAD);
        };
        eprintln!("bench-transcript: {wrong}");
        exit(1);
    }
}

/// Prints a line.
fn say(line: &str) -> Result<(), Stop> {
    writeln!(io::stdout(), "{line}").map_err(|error| match error.kind() {
        ErrorKind::BrokenPipe => Stop::Unread,
        _ => Stop::Wrong(format!("cannot write: {error}")),
    })
}

/// A directory that goes when the benchmark ends.
struct Scratch(PathBuf);

impl Scratch {
    fn new() -> Result<Scratch, String> {
        let path = env::temp_dir().join(format!("bench-transcript-{}", process::id()));
        fs::create_dir(&path).map_err(|error| format!("{}: {error}", path.display()))?;
        Ok(Scratch(path))
    }

    fn file(&self, name: &str) -> PathBuf {
        self.0.join(name)
    }
}

impl Drop for Scratch {
    fn drop(&mut self) {
        let _ = fs::remove_dir_all(&self.0);
    }
}

/// The seconds of one run, as a clock shows them and of the processor.
#[derive(Clone, Copy)]
struct Seconds {
    clock: f64,
    processor: f64,
}

/// The time a program takes from one file to another.
fn timed(program: &Program, journal: &Path, printed: &Path) -> Result<Seconds, String> {
    let failed = |error: io::Error| format!("{}: {error}", program.path().display());
    let mut command = program.command();
    command.stdin(File::open(journal).map_err(failed)?);
    command.stdout(File::create(printed).map_err(failed)?);
    let processor = processor()?;
    let start = Instant::now();
    let status = command.status().map_err(failed)?;
    let seconds = Seconds {
        clock: start.elapsed().as_secs_f64(),
        processor: self::processor()? - processor,
    };
    match status.code() {
        Some(_) => Ok(seconds),
        None => Err(format!("{}: {status}", program.path().display())),
    }
}

/// The seconds of the processor that all ended children have taken, by the
/// hundredth.
fn processor() -> Result<f64, String> {
    let stat = fs::read_to_string("/proc/self/stat");
    let stat = stat.map_err(|error| format!("/proc/self/stat: {error}"))?;
    // The second field, a name in brackets, may hold blanks; the sixteenth
    // and the next are wanted.
    let after_name = stat.rsplit(')').next().unwrap_or_default();
    let fields = after_name.split_whitespace().skip(13).take(2);
    let ticks: Result<u64, _> = fields.map(str::parse::<u64>).sum();
    let ticks = ticks.map_err(|_| "/proc/self/stat: no times of children")?;
    Ok(ticks as f64 / 100.0)
}

/// The most memory in KiB that a program has held before it reads the end
/// record, which it gets only after that was looked up.
fn memory(program: &Program, journal: &[u8], printed: &[u8]) -> Result<u64, String> {
    let counts = printed.iter().rev().skip(1).position(|&byte| byte == b'\n');
    let text = printed.len() - counts.map_or(printed.len(), |counts| counts + 2);
    let (end, before) = journal.split_last().expect("a journal has an end");
    let mut running = program.start()?;
    running.feed(before)?;
    if !running.has_printed(text, PATIENCE) {
        return Err("the text does not come before the end record".into());
    }
    let status = fs::read_to_string(format!("/proc/{}/status", running.id()));
    let status = status.map_err(|error| format!("cannot read its status: {error}"))?;
    running.feed(&[*end])?;
    running.ended()?;
    let most = status.lines().find_map(|line| line.strip_prefix("VmHWM:"));
    let most = most.and_then(|most| most.trim().strip_suffix(" kB"));
    most.and_then(|most| most.parse().ok())
        .ok_or_else(|| "its status names no VmHWM".into())
}

fn median(figures: impl Iterator<Item = f64>) -> f64 {
    let mut figures: Vec<_> = figures.collect();
    figures.sort_by(f64::total_cmp);
    figures[figures.len() / 2]
}

fn processor_mean(times: &[Seconds]) -> f64 {
    times.iter().map(|time| time.processor).sum::<f64>() / times.len() as f64
}

const NAMES: [&str; 2] = ["proved", "independent"];

/// Runs both programs in turn, each going first in every other round, and
/// gives the seconds of each.
fn rounds(
    programs: &[Program; 2],
    scratch: &Scratch,
    journal: &Path,
    rounds: usize,
) -> Result<[Vec<Seconds>; 2], String> {
    let mut times = [vec![], vec![]];
    // The first round warms up.
    for round in 0..=rounds {
        for turn in 0..2 {
            let which = (round + turn) % 2;
            let printed = scratch.file(NAMES[which]);
            let seconds = timed(&programs[which], journal, &printed)?;
            if round > 0 {
                times[which].push(seconds);
            }
        }
    }
    Ok(times)
}

/// What both programs printed, which must be the same.
fn printed(scratch: &Scratch) -> Result<Vec<u8>, String> {
    let [proved, independent] = NAMES.map(|name| fs::read(scratch.file(name)));
    match (proved, independent) {
        (Ok(proved), Ok(independent)) if proved == independent => Ok(proved),
        (Err(error), _) | (_, Err(error)) => Err(format!("cannot read what is printed: {error}")),
        _ => Err("the two programs do not print the same".into()),
    }
}

fn bench(options: &Options) -> Result<(), Stop> {
    let itself = env::current_exe().map_err(|error| format!("cannot find itself: {error}"))?;
    let programs = [Program::find()?, Program::new(itself, &[INDEPENDENT])];
    let scratch = Scratch::new()?;
    let work = workload(SEED, options.packets);
    let journal = scratch.file("journal");
    fs::write(&journal, &work.journal).map_err(|error| format!("the journal: {error}"))?;
    say(&format!(
        "{} packets: {} RED, {} T140, {} after a loss or late, {} damaged; {} bytes",
        options.packets,
        work.red,
        work.t140,
        work.displaced,
        work.damaged,
        work.journal.len()
    ))?;
    if LEVEL < OLDER {
        say(&format!(
            "the RED ones are refused: they have {OLDER} older blocks"
        ))?;
    }
    let times = rounds(&programs, &scratch, &journal, options.rounds)?;
    let printed = printed(&scratch)?;
    say(&format!("both print the same {} bytes", printed.len()))?;
    for which in 0..2 {
        let seconds = median(times[which].iter().map(|time| time.clock));
        let memory = memory(&programs[which], &work.journal, &printed)?;
        say(&format!(
            "{:<12} {seconds:.3} s, {:.0} bytes per second; {:.3} s of the processor; \
             {memory} KiB of memory at most",
            NAMES[which],
            work.journal.len() as f64 / seconds,
            processor_mean(&times[which])
        ))?;
    }
    let [proved, independent] = &times;
    let pairs = proved.iter().zip(independent);
    say(&format!(
        "median of the ratios over {} rounds {:.3}; ratio of the processor's time {:.3}",
        options.rounds,
        median(pairs.map(|(proved, independent)| proved.clock / independent.clock)),
        processor_mean(proved) / processor_mean(independent)
    ))
}

fn main() {
    if env::args_os()
        .nth(1)
        .is_some_and(|argument| argument == INDEPENDENT)
    {
        if let Err(error) = transcripts::independent_transcript() {
            eprintln!("{error}");
            exit(1);
        }
        return;
    }
    let options = options().unwrap_or_else(|wrong| {
        eprintln!("bench-transcript: {wrong}");
        exit(2);
    });
    bench(&options).unwrap_or_else(|stop| stop.exit());
}

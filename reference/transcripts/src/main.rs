//! Runs the proved program `transcript` and the independent one on the same
//! journals.
#![forbid(unsafe_code)]

use std::env;
use std::io::{self, ErrorKind, Write};
use std::process::exit;
use std::time::Instant;

use independent::LEVEL;
use transcripts::check::Difference;
use transcripts::program::Program;
use transcripts::{level, live, random_runs, stored, UNREAD};

const USAGE: &str = "\
Usage: transcripts [--seed N] [--journals N]

Gives journals to the program `transcript` and compares what it prints: the
stored runs, random journals whole and broken, journals that come in pieces
or without an end of input; and looks whether text comes at once and what
happens when the output cannot be written.

  --seed N       seed of the random journals (default 1)
  --journals N   how many of them (default 20000)
  --help         print this text

The program is target/bin/transcript in the repository; the variable
STEWPIGEON_TRANSCRIPT names another one.

The exit status is 0 where nothing differs, 1 at the first difference, whose
journal is saved, 2 where the arguments are wrong or there is no program, and
141 where nobody reads the output any more.";

struct Options {
    seed: u64,
    journals: usize,
}

fn options() -> Result<Options, String> {
    let mut options = Options {
        seed: 1,
        journals: 20_000,
    };
    let arguments = env::args_os().skip(1);
    let mut arguments = arguments.map(|argument| argument.to_string_lossy().into_owned());
    while let Some(argument) = arguments.next() {
        match argument.as_str() {
            "--seed" => options.seed = number("--seed", arguments.next())?,
            "--journals" => options.journals = number("--journals", arguments.next())? as usize,
            "--help" | "-h" => {
                say(USAGE);
                exit(0);
            }
            other => return Err(format!("unknown argument {other}; --help lists them")),
        }
    }
    Ok(options)
}

fn number(name: &str, value: Option<String>) -> Result<u64, String> {
    let value = value.ok_or_else(|| format!("{name} wants a number after it"))?;
    let number = value.parse();
    number.map_err(|_| format!("{name} {value}: give a whole number"))
}

/// Prints a line, and ends where nobody reads on.
fn say(line: &str) {
    let Err(error) = writeln!(io::stdout(), "{line}") else {
        return;
    };
    if error.kind() == ErrorKind::BrokenPipe {
        exit(UNREAD);
    }
    eprintln!("transcripts: cannot write: {error}");
    exit(1);
}

fn run(program: &Program, options: &Options) -> Result<(), Difference> {
    level::check(program)?;
    let mut runs = stored::load(&stored::directory())?;
    if runs.is_empty() {
        return Err(String::from("no stored runs").into());
    }
    runs.extend(stored::load(&stored::samples())?);
    let stored = runs.len();
    runs.retain(|run| run.level <= LEVEL);
    stored::check_all(program, &runs)?;
    say(&format!("{} stored runs: the same", runs.len()));
    if runs.len() < stored {
        let left_out = stored - runs.len();
        say(&format!("{left_out} need a higher level: left out"));
    }

    live::text_at_once(program)?;
    say("text comes at once");
    live::full_device(program)?;
    live::closed_pipe(program)?;
    say("failed writes are told");

    let start = Instant::now();
    let met = random_runs::check_all(program, options.seed, options.journals)?;
    say(&format!(
        "{} random journals of seed {} in {:.1} s: the same{met}",
        options.journals,
        options.seed,
        start.elapsed().as_secs_f64()
    ));
    Ok(())
}

fn main() {
    let found = options().and_then(|options| Ok((Program::find()?, options)));
    let (program, options) = found.unwrap_or_else(|wrong| {
        eprintln!("transcripts: {wrong}");
        exit(2);
    });
    say(&format!("program {}", program.path().display()));
    if let Err(difference) = run(&program, &options) {
        eprintln!("transcripts: {difference}");
        exit(1);
    }
}

//! Times the proved library against ordinary Rust on the same input.
#![forbid(unsafe_code)]

mod blocks;
mod contest;
mod holding;
mod inputs;
mod letters;
mod packets;
mod reading;
mod schedule;
mod sending;
mod stepping;
mod texts;

use std::collections::BTreeSet;
use std::env;
use std::process::ExitCode;

use compare::{level, say};
use contest::ROUNDS;
use inputs::{named, SEED};
use schedule::Schedule;
use sending::Line;
use stewpigeon::{Sender, Settings};

/// The packets of a line or a mixture where they are timed, and where their
/// instructions are counted.
const TIMED: usize = 1_000_000;
const COUNTED: usize = 20_000;

const OFTEN: (u64, u64) = (Schedule::OFTEN, 500_000);
const SELDOM: (u64, u64) = (Schedule::SELDOM, 200_000);

const USAGE: &str = "\
usage: bench
       bench reading|holding|texts
       bench offers|sending|quiet LEVEL TIMES
       bench text|read KIND TIMES
       bench step|holding line TIMES
LEVEL is a repeat level, up to the highest. KIND is the first word of a row that
`bench texts` prints; for read also mixed and line.";

fn schedule((pace, calls): (u64, u64)) -> Schedule {
    Schedule::new(SEED, pace, calls)
}

fn timed(parts: &[fn()]) {
    say!("seed {SEED}, {ROUNDS} rounds after a warm-up, both sides in turn\n");
    for part in parts {
        part();
    }
}

/// Times what is made of inputs, if their packets are read.
fn part<T>(name: &str, inputs: Option<T>, times: fn(&T)) {
    match inputs {
        Some(inputs) => times(&inputs),
        None => say!("{name}: left out, its packets need a higher level\n"),
    }
}

fn reading() {
    part("READING", packets::mixed(SEED, TIMED), reading::packets);
    part("RECEIVING", packets::line(SEED, TIMED), stepping::steps);
}

fn holding() {
    part("HOLDING", packets::reordered(SEED, TIMED), holding::steps);
}

fn sending() {
    let levels = BTreeSet::from([2, 4, Sender::LEVEL]);
    for level in levels.into_iter().filter(|level| *level <= Sender::LEVEL) {
        for pace in [OFTEN, SELDOM] {
            for rate in [Settings::HIGHEST_RATE, Settings::RATE] {
                let schedule = &schedule(pace);
                sending::times(&Line {
                    level,
                    rate,
                    schedule,
                });
            }
        }
    }
}

fn texts() {
    texts::times();
    blocks::times();
}

/// Makes a sender's calls of one kind at a level, so many times over.
fn sends(kind: &str, level: &str, times: usize) -> Option<usize> {
    let level = level.parse().ok().filter(|level| *level <= Sender::LEVEL)?;
    let line = Line {
        level,
        rate: Settings::HIGHEST_RATE,
        schedule: &schedule(OFTEN),
    };
    sending::repeated(kind, &line, times)
}

/// Reads packets of one kind, so many times over.
fn reads(kind: &str, times: usize) -> Option<usize> {
    let packets = match kind {
        "mixed" => packets::mixed(SEED, COUNTED)?,
        "line" => packets::line(SEED, COUNTED)?,
        _ => named(kind, blocks::kinds())?.inputs(),
    };
    Some(reading::repeated(&packets, times))
}

/// Gives a receiver the packets of a line, so many times over.
fn steps(kind: &str, times: usize) -> Option<usize> {
    let packets = (kind == "line").then(|| packets::line(SEED, COUNTED))??;
    Some(stepping::repeated(&packets, times))
}

/// The same with a receiver that holds.
fn holds(kind: &str, times: usize) -> Option<usize> {
    let arrivals = (kind == "line").then(|| packets::reordered(SEED, COUNTED))??;
    Some(holding::repeated(&arrivals, times))
}

/// Makes calls of one kind, so many times over. Answers how many calls, letters
/// or packets a turn has; none where the words name no kind.
fn repeated(calls: &str, of: &str, times: &str) -> Option<usize> {
    let times = times.parse().ok()?;
    match calls {
        "text" => texts::repeated(of, times),
        "read" => reads(of, times),
        "step" => steps(of, times),
        "holding" => holds(of, times),
        _ => sends(calls, of, times),
    }
}

fn main() -> ExitCode {
    if let Err(why) = level::check() {
        eprintln!("bench: {why}");
        return ExitCode::FAILURE;
    }
    let words: Vec<String> = env::args().skip(1).collect();
    let words: Vec<&str> = words.iter().map(String::as_str).collect();
    match words[..] {
        [] => timed(&[reading, holding, sending, texts]),
        ["reading"] => timed(&[reading]),
        ["holding"] => timed(&[holding]),
        ["texts"] => timed(&[texts]),
        [calls, of, times] => match repeated(calls, of, times) {
            Some(count) => say!("{count}"),
            None => return usage(),
        },
        _ => return usage(),
    }
    ExitCode::SUCCESS
}

fn usage() -> ExitCode {
    eprintln!("{USAGE}");
    ExitCode::from(2)
}

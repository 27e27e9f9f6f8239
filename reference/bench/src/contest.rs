//! Two programs timed in turn on the same input.

use std::hint::black_box;
use std::time::{Duration, Instant};

use compare::say;

pub const ROUNDS: usize = 15;

/// Adds one item's figure to the checksum.
#[inline]
pub fn add(sum: u64, figure: u64) -> u64 {
    sum.rotate_left(1).wrapping_add(figure)
}

/// How long a run took and what it gave.
pub struct Run {
    pub time: Duration,
    pub sum: u64,
}

/// Times the same call so many times over.
pub fn passes<T: ?Sized>(times: usize, call: fn(&T) -> u64, on: &T) -> Run {
    let start = Instant::now();
    let mut sum = 0;
    for _ in 0..times {
        sum = add(sum, black_box(call(black_box(on))));
    }
    let time = start.elapsed();
    Run { time, sum }
}

/// Times one call.
pub fn timed<T: ?Sized>(call: fn(&T) -> u64, on: &T) -> Run {
    passes(1, call, on)
}

fn median(mut figures: Vec<f64>) -> f64 {
    figures.sort_by(f64::total_cmp);
    figures[figures.len() / 2]
}

/// A program's name and a run of it.
pub type Side<'a> = (&'a str, &'a dyn Fn() -> Run);

/// Both sides' ns per item, and our time through theirs.
pub struct Outcome {
    pub ours: f64,
    pub theirs: f64,
    pub ratio: f64,
}

/// Times both after a warm-up, each going first in every other round. Answers
/// the medians of the rounds.
pub fn medians(items: usize, ours: Side<'_>, theirs: Side<'_>) -> Outcome {
    let mut times = [vec![], vec![]];
    let mut ratios = vec![];
    for round in 0..=ROUNDS {
        let (our, their) = if round % 2 == 0 {
            let our = ours.1();
            (our, theirs.1())
        } else {
            let their = theirs.1();
            (ours.1(), their)
        };
        assert_eq!(
            our.sum, their.sum,
            "the answers of {} and {} differ",
            ours.0, theirs.0
        );
        if round == 0 {
            continue;
        }
        let [our, their] = [our, their].map(|run| run.time.as_nanos() as f64);
        times[0].push(our / items as f64);
        times[1].push(their / items as f64);
        ratios.push(our / their);
    }
    let [ours, theirs] = times.map(median);
    Outcome {
        ours,
        theirs,
        ratio: median(ratios),
    }
}

/// Prints the medians of both.
pub fn contest(items: usize, what: &str, ours: Side<'_>, theirs: Side<'_>) {
    let medians = medians(items, ours, theirs);
    say!("{:<44} {:>8.3} ns per {what}", ours.0, medians.ours);
    say!("{:<44} {:>8.3} ns per {what}", theirs.0, medians.theirs);
    say!("{:<44} {:>8.3}\n", "median of the ratios", medians.ratio);
}

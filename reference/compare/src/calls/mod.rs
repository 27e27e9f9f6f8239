//! The calls of both receivers, mark writer and sender, given to the library
//! and to the independent program.

pub mod answers;
mod any_state;
pub mod each;
mod expected;
mod held;
mod holding;
mod library;
mod lines;
mod lists;
mod log;
mod named;
mod rates;
mod receiver_rules;
mod receivers;
mod sender_rules;
mod senders;
mod space;
pub mod tally;
mod trail;

pub use expected::library_settings;

use std::fmt::Debug;

use crate::level;
use crate::random::Random;
use tally::Tally;

type Part = fn(&mut Random, usize, &mut Tally) -> Result<(), String>;

const PARTS: [(&str, Part); 12] = [
    ("receiver openings", lists::receiver_openings),
    ("sender openings", lists::sender_openings),
    ("loss marks", lists::marks),
    ("lists of packets", lists::packets),
    ("lists of offers and clock calls", lists::sender_calls),
    ("senders held to their rates", rates::run),
    ("lines of our sender", lines::ours),
    ("lines of another maker's sender", lines::another_makers),
    ("long lines", lines::long),
    ("any state", any_state::run),
    ("lists of packets and waits", holding::calls),
    ("rising numbers", holding::rising),
];

/// What was answered is what is due.
fn same<T: PartialEq + Debug>(answer: T, due: T) -> Result<(), String> {
    match answer == due {
        true => Ok(()),
        false => Err(format!("it is {answer:?}, and {due:?} is due")),
    }
}

/// Compares on the named cases and on at least `calls` calls of each kind, or
/// says where the first difference is.
pub fn run(seed: u64, calls: usize) -> Result<Tally, String> {
    level::check()?;
    let mut tally = Tally::default();
    tally.leaves_out("steps that give some of several older blocks", 2);
    let mut random = Random::new(seed);
    named::run(&mut random, &mut tally)?;
    for (place, (name, part)) in PARTS.iter().enumerate() {
        let mut random = Random::new(seed ^ (place as u64 + 101) << 48);
        part(&mut random, calls, &mut tally)
            .map_err(|difference| format!("{name}: {difference}"))?;
    }
    Ok(tally)
}

//! The scope paper's line tests and other cases by name, on the library and
//! the independent program together, with what the paper says of them.

mod holding;
mod jumping;
mod rates;
mod receiving;
mod sending;

use super::same;
use super::tally::Tally;
use crate::random::Random;

/// What every case is given.
pub struct Given<'a> {
    pub random: &'a mut Random,
    pub tally: &'a mut Tally,
}

type Case = (&'static str, fn(&mut Given<'_>) -> Result<(), String>);

fn cases() -> impl Iterator<Item = &'static Case> {
    let receiving = receiving::CASES.iter().chain(&jumping::CASES);
    let sending = sending::CASES.iter().chain(&rates::CASES);
    receiving.chain(sending).chain(&holding::CASES)
}

/// Runs all cases.
pub fn run(random: &mut Random, tally: &mut Tally) -> Result<(), String> {
    for (name, case) in cases() {
        let mut given = Given { random, tally };
        case(&mut given).map_err(|difference| format!("{name}: {difference}"))?;
        tally.meet(
            "cases by name: T1 to T12, the run-only ones and others",
            true,
        );
    }
    Ok(())
}

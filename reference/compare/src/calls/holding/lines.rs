//! Whole lines to receivers that hold, their records held against demand 3.

use super::super::lines::{marks, Transmission};
use super::super::tally::Tally;
use super::recording::Recording;
use crate::random::Random;
use independent::holding::HOLD_TIME;

/// Gives the deliveries to a receiver, refused calls among them, and checks
/// its record. A packet outside the window waits for the one held to go out,
/// and is lost where it still is outside.
pub fn receive(
    random: &mut Random,
    transmission: &Transmission,
    tally: &mut Tally,
) -> Result<(), String> {
    let mut recording = Recording::open(random, transmission.settings, tally)?;
    let pace = random.pick(&[0, 1, 40, 300, 999, 1_000]);
    let mut clock = random.pick(&[0, 7, u64::MAX - 2_000_000_000]);
    for delivery in &transmission.deliveries {
        clock += pace;
        if !recording.is_near(delivery.number) {
            clock += HOLD_TIME;
            recording.wait(random, clock, tally)?;
        }
        if !recording.is_near(delivery.number) {
            continue;
        }
        if random.once_in(16) {
            recording.disturb(random, clock, tally)?;
        }
        recording.take(random, clock, delivery, tally)?;
        if !random.once_in(8) {
            recording.wait(random, clock, tally)?;
        }
    }
    transmission.check(&recording.record, &recording.given)?;
    recording.wait(random, clock + HOLD_TIME, tally)?;
    transmission.check(&recording.record, &recording.given)?;
    let record = &recording.record;
    tally.meet("lines that hold: marks in records", marks(record));
    tally.meet("lines that hold: entries in records", record.len());
    Ok(())
}

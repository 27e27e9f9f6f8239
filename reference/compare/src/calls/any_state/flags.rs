//! Every byte in a flag, in calls of every outcome: 0 is false and all else
//! true.

use super::super::held::Held;
use super::super::same;
use super::super::tally::{Answer, Tally};
use super::receivers::step_of;
use super::senders::{clock_call_on, offer_to};
use super::{log, sender};
use crate::plan::{Plan, RED, T140};
use crate::random::Random;
use independent::sender::LONGEST_PACKET;
use independent::LEVEL;
use stewpigeon::lent::{Pace, Progress, Receiver, Sender, Settings};

/// Steps of a receiver with these flags that has heard the packet's source
/// or, with 0 in the first, none.
fn steps(
    random: &mut Random,
    has_source: u8,
    has_kept: u8,
    tally: &mut Tally,
) -> Result<(), String> {
    let count = random.within(0, LEVEL);
    let plan = Plan::small_red(random, count);
    let packet = plan.bytes();
    let heard = |due| match has_source {
        0 => Answer::Done("forward"),
        _ => due,
    };
    let another = plan.sequence.wrapping_add(random.within(1, 65_535) as u16);
    for kept in [another, plan.sequence] {
        let at = |distance: usize| Receiver {
            t140: T140,
            red: RED,
            has_source,
            has_kept,
            source: plan.source,
            expected: plan.sequence.wrapping_sub(distance as u16),
            kept,
        };
        let forward = at(random.within(0, 2_998));
        let late = at(random.within(65_436, 65_535));
        let jump = at(random.within(2_999, 65_435));
        let other_source = Receiver {
            source: !plan.source,
            ..jump
        };
        let jumps = match kept == plan.sequence && has_kept != 0 {
            true => Answer::Done("break"),
            false => Answer::Done("jump"),
        };
        for (receiver, packet, due) in [
            (forward, &packet[..], Answer::Done("forward")),
            (late, &packet, heard(Answer::Done("late"))),
            (jump, &packet, heard(jumps)),
            (jump, &packet[..11], Answer::Refused(10)),
            (other_source, &packet, heard(Answer::Refused(16))),
        ] {
            same(step_of(random, receiver, packet, tally)?, due)?;
        }
    }
    Ok(())
}

/// A sender of anything else with this flag, whose last packet was sent at
/// its clock, and no character yet.
fn flagged(random: &mut Random, sent: u8) -> Held {
    let held = sender(random);
    let clock = random.number() >> 1;
    let record = Sender {
        settings: Settings {
            level: random.within(0, LEVEL),
            buffering: random.within(1, 500) as u64,
            rate: random.within(16, 100),
            t140: T140,
            red: RED,
            ..held.record.settings
        },
        clock,
        pace: Pace {
            used: 0,
            ..held.record.pace
        },
        progress: Progress {
            sent,
            last: clock,
            ..held.record.progress
        },
        ..held.record
    };
    Held { record, ..held }
}

fn offers(random: &mut Random, sent: u8, tally: &mut Tally) -> Result<(), String> {
    let mut held = flagged(random, sent);
    let clock = held.record.clock;
    held.record.len = random.below(160);
    let taken = offer_to(random, &held, clock, b"a", tally)?;
    same(taken, Answer::Done("taken"))?;
    let refused = offer_to(random, &held, clock, b"", tally)?;
    same(refused, Answer::Refused(7))
}

fn clock_calls(random: &mut Random, sent: u8, tally: &mut Tally) -> Result<(), String> {
    let mut held = flagged(random, sent);
    let (clock, buffering) = (held.record.clock, held.record.settings.buffering);
    let log = log(random, clock);
    held.record.len = random.within(1, 160);
    // Text waits, and may go at once or when the buffering time is over.
    let early = match sent {
        0 => Answer::Done("sent"),
        _ => Answer::Done("quiet"),
    };
    for (at, space, due) in [
        (clock, LONGEST_PACKET, early),
        (clock + buffering - 1, LONGEST_PACKET, early),
        (clock + buffering, LONGEST_PACKET, Answer::Done("sent")),
        (clock + buffering, 12, Answer::Refused(8)),
        (clock.wrapping_sub(1), LONGEST_PACKET, Answer::Refused(5)),
    ] {
        same(clock_call_on(random, &held, &log, at, space, tally)?, due)?;
    }
    // Nothing waits, and nothing is to be repeated.
    (held.record.len, held.record.count) = (0, 0);
    let at = clock + buffering;
    let quiet = clock_call_on(random, &held, &log, at, LONGEST_PACKET, tally)?;
    same(quiet, Answer::Done("quiet"))
}

pub fn run(random: &mut Random, tally: &mut Tally) -> Result<(), String> {
    for value in 0..=255 {
        let heard = random.within(1, 255) as u8;
        let kept = random.within(1, 255) as u8;
        steps(random, value, kept, tally)
            .and_then(|()| steps(random, heard, value, tally))
            .and_then(|()| offers(random, value, tally))
            .and_then(|()| clock_calls(random, value, tally))
            .map_err(|difference| format!("{value} in a flag: {difference}"))?;
    }
    Ok(())
}

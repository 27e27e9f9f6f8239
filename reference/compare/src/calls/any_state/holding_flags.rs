//! Every byte in a flag of a receiver that holds, in calls of every outcome:
//! 0 is false and all else true.

use super::super::holding::Call;
use super::super::same;
use super::super::tally::Answer::{Done, Refused};
use super::super::tally::Tally;
use super::holding::call_on;
use crate::plan::{Plan, RED, T140};
use crate::random::Random;
use independent::LEVEL;
use stewpigeon::lent::{HoldingReceiver, Receiver};

/// `has_source`, `has_kept` and `has_held`.
type Flags = [u8; 3];

/// A packet of this source and number, with so many older blocks.
fn packet(random: &mut Random, source: u32, number: u16, count: usize) -> Vec<u8> {
    let mut plan = Plan::small_red(random, count);
    (plan.source, plan.sequence) = (source, number);
    plan.bytes()
}

/// A receiver of these flags that expects this number and holds that one,
/// since this clock.
fn receiver(flags: Flags, source: u32, expected: u16, held: u16, clock: u64) -> HoldingReceiver {
    let [has_source, has_kept, has_held] = flags;
    HoldingReceiver {
        receiver: Receiver {
            t140: T140,
            red: RED,
            has_source,
            has_kept,
            source,
            expected,
            kept: 0,
        },
        has_held,
        held,
        arrival: clock,
        clock,
    }
}

fn steps(random: &mut Random, flags: Flags, tally: &mut Tally) -> Result<(), String> {
    let [has_source, has_kept, has_held] = flags.map(|flag| flag != 0);
    let (source, expected) = (random.number() as u32, random.number() as u16);
    let clock = random.number() >> 1;
    let older = random.within(0, LEVEL);
    let held = |held, none| Done(if has_held { held } else { none });
    let first = |due| match has_source {
        false => held("new-before-held", "new"),
        true => due,
    };
    let open = random.within(10, 2_000);
    let jump = random.within(3_000, 65_000);
    let late = random.within(65_436, 65_535);
    let breaks = match has_kept {
        true => held("held-again", "break"),
        false => held("jump-keep-held", "jump"),
    };
    let jumps = held("jump-keep-held", "jump");
    // The new packet's distance and the held one's, whether its number is the
    // one kept, and the answer.
    for (new, held, kept, due) in [
        (older, 2_998, true, held("new-before-held", "new")),
        (open, 2_998, true, held("new-before-held", "keep-new")),
        (open, 5, true, held("held-keep-new", "keep-new")),
        (open, open, true, held("late-keep-held", "keep-new")),
        (late, 5, true, held("late-keep-held", "late")),
        (jump, 5, false, jumps),
        (jump, 5, true, breaks),
    ] {
        let number = |distance: usize| expected.wrapping_add(distance as u16);
        let mut before = receiver(flags, source, expected, number(held), clock);
        before.receiver.kept = number(new).wrapping_sub(u16::from(!kept));
        let held = &packet(random, source, number(held), 1)[..];
        let packet = &packet(random, source, number(new), older)[..];
        let good = Call {
            clock,
            held,
            packet: Some(packet),
        };
        same(call_on(random, before, good, tally)?, first(due))?;
        let bad = Call {
            packet: Some(&packet[..11]),
            ..good
        };
        same(call_on(random, before, bad, tally)?, Refused(10))?;
        before.receiver.source = !source;
        let other_source = match (has_source, has_held) {
            (false, _) => first(due),
            (true, false) => Refused(16),
            (true, true) => Refused(27),
        };
        same(call_on(random, before, good, tally)?, other_source)?;
    }
    Ok(())
}

fn waits(random: &mut Random, flags: Flags, tally: &mut Tally) -> Result<(), String> {
    let (source, expected) = (random.number() as u32, random.number() as u16);
    let clock = random.number() >> 1;
    let older = random.within(0, LEVEL);
    let held = |held| match flags[2] {
        0 => Done("nothing"),
        _ => Done(held),
    };
    for (distance, ms, due) in [
        (older, 0, held("held")),
        (older + 1, 999, held("keep-held")),
        (older + 1, 1_000, held("held")),
    ] {
        let number = expected.wrapping_add(distance as u16);
        let before = receiver(flags, source, expected, number, clock);
        let held = &packet(random, source, number, older)[..];
        let good = Call {
            clock: clock + ms,
            held,
            packet: None,
        };
        same(call_on(random, before, good, tally)?, due)?;
        let early = Call {
            clock: clock.wrapping_sub(1),
            ..good
        };
        same(call_on(random, before, early, tally)?, Refused(5))?;
    }
    Ok(())
}

pub fn run(random: &mut Random, tally: &mut Tally) -> Result<(), String> {
    for value in 0..=255 {
        let set = random.within(1, 255) as u8;
        for flags in [
            [value, set, 0],
            [value, set, set],
            [set, value, 0],
            [set, value, set],
            [set, set, value],
        ] {
            steps(random, flags, tally)
                .and_then(|()| waits(random, flags, tally))
                .map_err(|difference| format!("flags {flags:?}: {difference}"))?;
        }
    }
    Ok(())
}

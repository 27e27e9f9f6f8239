//! Calls on records of any values, held against the rules: each is answered,
//! the same again on the same record, and touches nothing else.

mod flags;
mod holding;
mod holding_flags;
mod receivers;
mod senders;

use std::fmt::Debug;

use super::held::{Held, KEPT, ROOM, SLOTS};
use super::library::Answered;
use super::tally::Tally;
use crate::random::Random;
use independent::LEVEL;
use stewpigeon::lent;

/// A length or count, its bounds being likely.
fn size(random: &mut Random, bound: usize) -> usize {
    let any = random.number() as usize;
    let within = random.within(0, bound);
    random.pick(&[
        0,
        1,
        bound - 1,
        bound,
        bound + 1,
        within,
        within,
        any,
        usize::MAX,
    ])
}

/// A time before, at or after this one, across the clock's end, or any.
fn time(random: &mut Random, clock: u64) -> u64 {
    let any = random.number();
    let near = random.within(0, 1000) as u64;
    let ago = random.pick(&[0, 1, 300, 500, near, 10_000, 10_001, 16_383, 16_384]);
    match random.below(8) {
        0 => any,
        1 => clock.saturating_add(near),
        2 => clock.wrapping_sub(ago),
        _ => clock.saturating_sub(ago),
    }
}

/// A flag: any byte, 0 being likely.
fn flag(random: &mut Random) -> u8 {
    let any = random.byte();
    random.pick(&[0, 1, any, any])
}

fn settings(random: &mut Random) -> lent::Settings {
    let any = random.number();
    let level = random.within(0, LEVEL);
    let mut settings = lent::Settings {
        level: size(random, LEVEL),
        buffering: random.pick(&[0, 1, 300, 500, 501, any]),
        rate: size(random, 100),
        t140: random.byte(),
        red: random.byte(),
        sequence: random.number() as u16,
        timestamp: random.number() as u32,
        source: random.number() as u32,
    };
    // Mostly such that the calls go on.
    if !random.once_in(8) {
        settings.level = level;
    }
    if !random.once_in(8) {
        settings.buffering = random.within(1, 500) as u64;
    }
    if !random.once_in(8) {
        let any = random.within(1, 100);
        settings.rate = random.pick(&[1, 2, 30, 100, any]);
    }
    if !random.once_in(8) {
        settings.t140 = random.within(96, 111) as u8;
        settings.red = random.within(112, 127) as u8;
    }
    settings
}

/// A sender's record and texts with anything in them.
pub fn sender(random: &mut Random) -> Held {
    let any = random.number();
    let clock = random.pick(&[0, 1000, 20_000, any, u64::MAX - 600, u64::MAX]);
    let settings = settings(random);
    let slots = 10 * settings.rate.clamp(1, 100);
    let record = lent::Sender {
        settings,
        clock,
        room: size(random, KEPT),
        len: size(random, ROOM),
        characters: size(random, ROOM),
        since: time(random, clock),
        lens: [(); KEPT].map(|()| size(random, ROOM)),
        ats: [(); KEPT].map(|()| time(random, clock)),
        count: size(random, KEPT),
        pace: lent::Pace {
            next: size(random, slots),
            used: size(random, slots),
        },
        progress: lent::Progress {
            sent: flag(random),
            last: time(random, clock),
            last_text: time(random, clock),
            next: random.number() as u16,
        },
    };
    let texts = texts(random);
    Held { record, texts }
}

/// Texts of any bytes.
pub fn texts(random: &mut Random) -> lent::Texts {
    let mut texts = [0; SLOTS * ROOM];
    random.fill(&mut texts);
    texts
}

/// A log of few times in any order, before, at and after this one.
fn log(random: &mut Random, clock: u64) -> lent::Log {
    let times = [(); 8].map(|()| time(random, clock));
    let mut log = [0; 1000];
    for slots in log.chunks_mut(20) {
        let mut places = random.number();
        for slot in slots {
            *slot = times[places as usize % 8];
            places >>= 3;
        }
    }
    log
}

/// Makes a call twice on the same record: both answers and the records
/// afterwards are those of the rules.
fn twice<R, A>(
    random: &mut Random,
    before: R,
    library: impl Fn(&mut Random, &mut R) -> Answered<A>,
    rules: impl FnOnce(&mut R) -> A,
) -> Result<A, String>
where
    R: Copy + PartialEq + Debug,
    A: Copy + PartialEq + Debug,
{
    let [mut first, mut second, mut wanted] = [before; 3];
    let answers = [library(random, &mut first), library(random, &mut second)];
    let due = rules(&mut wanted);
    if answers != [Ok(due); 2] || [first, second] != [wanted; 2] {
        return Err(format!(
            "before {before:?}\nlibrary: {answers:?}\nrules:   {due:?}\n\
             afterwards\nlibrary: {first:?} and {second:?}\nrules:   {wanted:?}"
        ));
    }
    Ok(due)
}

pub fn run(random: &mut Random, calls: usize, tally: &mut Tally) -> Result<(), String> {
    flags::run(random, tally)?;
    holding_flags::run(random, tally)?;
    for _ in 0..calls / 4 {
        senders::offer(random, tally)?;
        senders::clock_call(random, tally)?;
        receivers::step(random, tally)?;
        holding::step(random, tally)?;
        holding::wait(random, tally)?;
    }
    Ok(())
}

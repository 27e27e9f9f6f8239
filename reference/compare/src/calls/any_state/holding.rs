//! Steps and waits of receivers that hold, of any values.

use super::super::holding::{rules, Call};
use super::super::lists::number_near;
use super::super::tally::{Answer, Tally};
use super::receivers;
use super::{flag, time, twice};
use crate::plan::Plan;
use crate::random::Random;
use independent::LEVEL;
use stewpigeon::lent::{HoldingReceiver, HoldingStep, Step};

/// A call on this receiver, made twice.
pub fn call_on(
    random: &mut Random,
    before: HoldingReceiver,
    call: Call,
    tally: &mut Tally,
) -> Result<Answer, String> {
    let library = |random: &mut Random, receiver: &mut _| call.library(random, receiver);
    let due = twice(random, before, library, |receiver| {
        rules::call(receiver, &call)
    })
    .map_err(|what| format!("{call}\n{what}"))?;
    let answer = call.kind(&due);
    tally.add(call.name(), answer);
    for (flag, value) in [
        ("has_source", before.receiver.has_source),
        ("has_kept", before.receiver.has_kept),
        ("has_held", before.has_held),
    ] {
        tally.flag(call.name(), flag, answer, value);
    }
    if let Ok(step) = due {
        meet(&before, &call, &step, tally);
    }
    Ok(answer)
}

/// What was met on this receiver, which may be such as no call leaves.
fn meet(before: &HoldingReceiver, call: &Call, step: &HoldingStep, tally: &mut Tally) {
    const HELD: u8 = HoldingStep::HELD;
    const NEITHER: u8 = HoldingStep::NEITHER;
    const NEW: u8 = HoldingStep::NEW;
    let has_held = before.has_held != 0;
    let has_source = before.receiver.has_source != 0;
    let behind = before.held.wrapping_sub(before.receiver.expected) > 2_998;
    let held = before.held.to_be_bytes();
    let copied = has_held && call.packet.is_some_and(|packet| packet[2..4] == held);
    let is = |of, keep| (step.of, step.keep) == (of, keep);
    let no_kept = before.receiver.has_kept == 0 && before.receiver.kept != 0;
    let leaves_kept = call.packet.is_none() || step.step.course == Step::LATE;
    for (what, met) in [
        (
            "any state that holds: one held without a source, a first packet",
            !has_source && is(NEW, HELD),
        ),
        (
            "any state that holds: one held without a source, given",
            !has_source && is(HELD, NEITHER),
        ),
        (
            "any state that holds: the held one not ahead, a forward packet",
            has_source && behind && is(NEW, HELD),
        ),
        (
            "any state that holds: the held one not ahead, given",
            behind && is(HELD, NEITHER),
        ),
        (
            "any state that holds: the held one not ahead, its number again",
            has_source && behind && copied && is(NEITHER, HELD),
        ),
        (
            "any state that holds: arrived after the clock",
            has_held && before.arrival > call.clock && is(NEITHER, HELD),
        ),
        (
            "any state that holds: numbers and times where none is held",
            !has_held && before.held != 0 && before.arrival != 0,
        ),
        (
            "any state that holds: a number stays that is not kept",
            no_kept && leaves_kept,
        ),
    ] {
        tally.meet(what, met);
    }
}

/// A receiver of any values, with a packet that may be the one it holds.
fn receiver(random: &mut Random) -> (HoldingReceiver, Plan) {
    let any = random.number();
    let count = random.within(0, LEVEL);
    let mut held = Plan::small_red(random, count);
    let clock = random.pick(&[0, 1_000, 20_000, any, u64::MAX - 600, u64::MAX]);
    let ago = random.pick(&[0, 1, 999, 1_000, 1_001]);
    let near = time(random, clock);
    let mut before = HoldingReceiver {
        receiver: receivers::receiver(random, held.source),
        has_held: flag(random),
        held: random.number() as u16,
        arrival: random.pick(&[near, clock.saturating_sub(ago)]),
        clock,
    };
    if random.once_in(16) {
        held.misdate(random);
    }
    if !random.once_in(4) {
        held.sequence = number_near(random, before.receiver.expected);
    }
    if !random.once_in(12) {
        before.held = held.sequence;
    }
    (before, held)
}

/// A clock mostly not below the latest, often about 1,000 ms after arrival.
fn clock(random: &mut Random, receiver: &HoldingReceiver) -> u64 {
    let any = random.number();
    let later = random.pick(&[0, 0, 1, 500, 999, 1_000, 1_001, any]);
    match random.below(8) {
        0 => receiver.clock.saturating_sub(1),
        1..4 => receiver.arrival.saturating_add(later).max(receiver.clock),
        _ => receiver.clock.saturating_add(later),
    }
}

pub fn step(random: &mut Random, tally: &mut Tally) -> Result<(), String> {
    let (mut before, held) = receiver(random);
    let count = random.within(0, LEVEL);
    let mut plan = Plan::small_red(random, count);
    if !random.once_in(12) {
        plan.source = held.source;
    }
    if random.once_in(16) {
        plan.misdate(random);
    }
    match random.below(4) {
        0 => {}
        1 => plan.sequence = held.sequence.wrapping_add(random.pick(&[0, 1, u16::MAX])),
        _ => plan.sequence = number_near(random, before.receiver.expected),
    }
    if random.once_in(2) {
        before.receiver.kept = plan.sequence;
    }
    let call = Call {
        clock: clock(random, &before),
        held: &held.bytes(),
        packet: Some(&plan.bytes()),
    };
    call_on(random, before, call, tally).map(|_| ())
}

pub fn wait(random: &mut Random, tally: &mut Tally) -> Result<(), String> {
    let (before, held) = receiver(random);
    let call = Call {
        clock: clock(random, &before),
        held: &held.bytes(),
        packet: None,
    };
    call_on(random, before, call, tally).map(|_| ())
}

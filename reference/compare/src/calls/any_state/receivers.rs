//! Steps of receivers of any values.

use super::super::lists::number_near;
use super::super::receivers::kind;
use super::super::tally::{Answer, Call, Tally};
use super::super::{library, receiver_rules as rules};
use super::{flag, twice};
use crate::check::hex;
use crate::plan::{Plan, RED, T140};
use crate::random::Random;
use independent::LEVEL;
use stewpigeon::lent;

/// A step of this receiver, made twice.
pub fn step_of(
    random: &mut Random,
    before: lent::Receiver,
    packet: &[u8],
    tally: &mut Tally,
) -> Result<Answer, String> {
    let library = |random: &mut Random, receiver: &mut _| library::step(random, receiver, packet);
    let due = twice(random, before, library, |receiver| {
        rules::step(receiver, packet)
    })
    .map_err(|what| format!("a step\npacket {}\n{what}", hex(packet)))?;
    let answer = kind(&due);
    tally.add(Call::Step, answer);
    tally.flag(Call::Step, "has_source", answer, before.has_source);
    tally.flag(Call::Step, "has_kept", answer, before.has_kept);
    if let Ok(step) = due {
        let sequence = u16::from_be_bytes([packet[2], packet[3]]);
        meet(&before, &step, sequence, tally);
    }
    Ok(answer)
}

/// What steps were met on this receiver, which may be such as no call leaves,
/// with a packet of this number.
fn meet(before: &lent::Receiver, step: &lent::Step, sequence: u16, tally: &mut Tally) {
    let counts = before.has_source != 0 && before.has_kept != 0;
    let same = before.kept == sequence;
    let is = |course| step.course == course;
    for (what, met) in [
        (
            "steps in any state: without a source, the number kept",
            before.has_source == 0 && before.has_kept != 0 && same,
        ),
        (
            "steps in any state: forward with the number kept",
            counts && same && is(lent::Step::FORWARD),
        ),
        (
            "steps in any state: late with the number kept",
            counts && same && is(lent::Step::LATE),
        ),
        (
            "steps in any state: a jump with a number that is not kept",
            !counts && same && is(lent::Step::JUMP),
        ),
        (
            "steps in any state: a jump while another number is kept",
            counts && !same && is(lent::Step::JUMP),
        ),
        ("steps in any state: a break", is(lent::Step::BREAK)),
    ] {
        tally.meet(what, met);
    }
}

/// A receiver of any values, mostly such that packets of this source are read.
pub fn receiver(random: &mut Random, source: u32) -> lent::Receiver {
    let mut receiver = lent::Receiver {
        t140: random.byte(),
        red: random.byte(),
        has_source: flag(random),
        has_kept: flag(random),
        source: random.number() as u32,
        expected: random.number() as u16,
        kept: random.number() as u16,
    };
    if !random.once_in(8) {
        (receiver.t140, receiver.red) = (T140, RED);
    }
    if !random.once_in(8) {
        receiver.source = source;
    }
    receiver
}

pub fn step(random: &mut Random, tally: &mut Tally) -> Result<(), String> {
    let count = random.within(0, LEVEL);
    let mut plan = Plan::small_red(random, count);
    let mut before = receiver(random, plan.source);
    if random.once_in(12) {
        plan.misdate(random);
    }
    if random.once_in(2) {
        plan.sequence = number_near(random, before.expected);
    }
    if random.once_in(2) {
        before.kept = plan.sequence;
    }
    step_of(random, before, &plan.bytes(), tally).map(|_| ())
}

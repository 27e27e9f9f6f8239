//! Random lists of calls.

use super::space::Space;
use super::tally::{Answer, Call, Tally};
use super::{holding, receivers, senders};
use crate::damage::mutate;
use crate::patterns::Lent;
use crate::plan::{Plan, RED, T140};
use crate::random::Random;
use independent::channel::{self, settings};
use independent::receiver::write_marks;
use independent::sender::Settings;
use independent::LEVEL;
use stewpigeon::lent;

/// Every pair of bytes as payload types, to receivers of both kinds.
pub fn receiver_openings(
    random: &mut Random,
    calls: usize,
    tally: &mut Tally,
) -> Result<(), String> {
    let kinds = [Call::ReceiverOpen, Call::HoldingOpen];
    while kinds.iter().any(|kind| tally.calls(*kind) < calls) {
        for t140 in 0..=255 {
            for red in 0..=255 {
                receivers::Pair::open(random, t140, red, tally)?;
                holding::Pair::open(random, t140, red, tally)?;
            }
        }
    }
    Ok(())
}

/// Settings with one to three parts at or past their bounds.
fn bad_settings(random: &mut Random) -> Settings {
    let level = random.within(0, LEVEL);
    let mut bad = settings(random, level);
    for _ in 0..random.within(1, 3) {
        let any = random.number();
        match random.below(5) {
            0 => {
                let far = random.pick(&[255, 256, 1 << 32, any as usize, usize::MAX]);
                bad.level = random.pick(&[LEVEL, LEVEL + 1, LEVEL + 1, LEVEL + 2, far]);
            }
            1 => bad.buffering = random.pick(&[0, 1, 500, 501, 65_836, any, u64::MAX]),
            2 => bad.rate = random.pick(&[0, 1, 100, 101, 256, 257, 1 << 32, any as usize]),
            3 => bad.t140 = random.pick(&[0, 95, 96, 127, 128, 226, 255, any as u8]),
            _ => bad.red = random.pick(&[0, 95, 96, 127, 128, 255, bad.t140, any as u8]),
        }
    }
    bad
}

pub fn sender_openings(random: &mut Random, calls: usize, tally: &mut Tally) -> Result<(), String> {
    while tally.calls(Call::SenderOpen) < calls {
        let level = random.within(0, LEVEL);
        let settings = match random.once_in(2) {
            true => settings(random, level),
            false => bad_settings(random),
        };
        senders::Pair::open(random, &settings, tally)?;
    }
    Ok(())
}

pub fn marks(random: &mut Random, calls: usize, tally: &mut Tally) -> Result<(), String> {
    for _ in 0..calls {
        let length = match random.below(30) {
            0 => random.below(2000),
            _ => random.below(40),
        };
        let any = random.number() as usize;
        let near = (length / 3 + random.below(3)).saturating_sub(1);
        let few = random.below(12);
        let count = random.pick(&[
            0,
            near,
            few,
            few,
            32_767,
            any,
            usize::MAX / 3 + 1,
            usize::MAX,
        ]);
        let mut ours = Lent::any(random, length);
        let mut theirs = ours.clone();
        let written = lent::write_marks(count, ours.bytes_mut());
        let wanted = write_marks(count, theirs.bytes_mut());
        if written != wanted || ours != theirs {
            return Err(format!(
                "{count} marks into {length} bytes\nlibrary:     {written} {:02x?}\n\
                 independent: {wanted} {:02x?}",
                ours.bytes(),
                theirs.bytes()
            ));
        }
        let kind = if written == 0 { "none" } else { "some" };
        tally.add(Call::WriteMarks, Answer::Done(kind));
        tally.meet("marks that fill their space", {
            written > 0 && 3 * written == length
        });
        tally.meet("marks with a rest of the space", {
            written == length / 3 && 3 * written < length
        });
    }
    Ok(())
}

/// Payload types, mostly those of the packets.
pub fn payload_types(random: &mut Random) -> (u8, u8) {
    match random.below(20) {
        0 => (RED, T140),
        1 => (T140, random.pick(&[T140, 95, 128])),
        _ => (T140, RED),
    }
}

/// A number near the next in order, at the window's ends, far from it, or
/// 65,535.
pub fn number_near(random: &mut Random, expected: u16) -> u16 {
    let any = random.number() as u16;
    let near = random.within(0, LEVEL + 3) as u16;
    let ahead = random.within(2_996, 3_001) as u16;
    let behind = (65_536 - random.within(97, 104)) as u16;
    let far = random.pick(&[32_766, 32_767, 32_768, 32_769, 65_534, 65_535]);
    let to_65_535 = 65_535_u16.wrapping_sub(expected);
    let distance = random.pick(&[0, 0, 0, near, near, ahead, behind, far, any, to_65_535]);
    expected.wrapping_add(distance)
}

/// A number for a receiver: next to the last jump's, or about the next in
/// order.
fn sequence(random: &mut Random, pair: &receivers::Pair) -> Option<u16> {
    let expected = pair.expected()?;
    if let Some(jump) = pair.jump().filter(|_| random.once_in(3)) {
        let on = random.pick(&[0, 1, 1, 1, 2, u16::MAX]);
        return Some(jump.wrapping_add(on));
    }
    Some(number_near(random, expected))
}

/// A packet of this number.
pub fn packet(random: &mut Random, source: u32, sequence: u16) -> Vec<u8> {
    let mut plan = match random.below(16) {
        0 | 1 => Plan::t140(random),
        2 | 3 => Plan::good(random),
        4 => Plan::small_red(random, LEVEL + 1),
        _ => {
            let count = random.within(0, LEVEL);
            Plan::small_red(random, count)
        }
    };
    plan.sequence = sequence;
    plan.source = source;
    if random.once_in(20) {
        plan.source ^= 1 << random.below(32);
    }
    if random.once_in(12) {
        plan.misdate(random);
    }
    let packet = plan.bytes();
    match random.once_in(6) {
        true => mutate(random, packet),
        false => packet,
    }
}

/// Lists of packets, good and bad, near and far, with jumps and breaks, to
/// receivers also of bad payload types.
pub fn packets(random: &mut Random, calls: usize, tally: &mut Tally) -> Result<(), String> {
    let start = tally.calls(Call::Step);
    while tally.calls(Call::Step) < start + calls {
        let (t140, red) = payload_types(random);
        let mut pair = receivers::Pair::open(random, t140, red, tally)?;
        let source = random.number() as u32;
        let first = random.number() as u16;
        for place in 0..random.within(1, 60) {
            let sequence = sequence(random, &pair).unwrap_or(first);
            let packet = packet(random, source, sequence);
            let answer = pair.step(random, &packet, tally);
            answer
                .map_err(|difference| format!("packet {place} of a list: {difference}"))?
                .ok();
        }
    }
    Ok(())
}

/// Gives a list of calls to a pair of senders.
fn sender_list(random: &mut Random, settings: &Settings, tally: &mut Tally) -> Result<(), String> {
    let mut pair = senders::Pair::open(random, settings, tally)?;
    let count = random.within(1, 120);
    let buffering = settings.buffering.clamp(1, 500);
    for (place, call) in channel::calls(random, buffering, count)
        .into_iter()
        .enumerate()
    {
        let answer = match call {
            channel::Call::Offer { clock, text } => {
                pair.offer(random, clock, &text, tally).map(|_| ())
            }
            channel::Call::Clock { clock, .. } => {
                let space = Space::any(random);
                pair.clock(random, clock, space, tally).map(|_| ())
            }
        };
        answer.map_err(|difference| format!("call {place} of {settings:?}: {difference}"))?;
    }
    Ok(())
}

pub fn sender_calls(random: &mut Random, calls: usize, tally: &mut Tally) -> Result<(), String> {
    let start = tally.calls(Call::Offer).max(tally.calls(Call::Clock));
    let met = |tally: &Tally| tally.calls(Call::Offer).min(tally.calls(Call::Clock));
    while met(tally) < start + calls {
        let level = random.within(0, LEVEL);
        let mut settings = settings(random, level);
        if random.once_in(50) {
            settings = bad_settings(random);
        }
        if random.once_in(4) {
            settings.buffering = random.within(1, 500) as u64;
        }
        sender_list(random, &settings, tally)?;
    }
    Ok(())
}

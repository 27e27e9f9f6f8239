//! Packets each of which has a higher number than the one before, given to
//! receivers of both kinds: where all that is held went out, the records are
//! the same.

use super::super::lines::{add, difference};
use super::super::receivers;
use super::super::tally::{Call, Tally};
use super::recording::Recording;
use crate::random::Random;
use independent::channel::{self, Delivery, Line, State};
use independent::holding::HOLD_TIME;
use independent::record::AHEAD;
use independent::sender::Settings;
use independent::LEVEL;

/// The places of some packets in a line, so near to each other that one is in
/// the window even where the two before it were not handed out yet.
fn places(random: &mut Random, count: usize) -> Vec<usize> {
    let mut places = vec![];
    let mut place = random.below(count.div_ceil(2));
    while place < count {
        places.push(place);
        let far = random.within(1, AHEAD / 2);
        place += random.pick(&[1, 1, 1, 2, 3, LEVEL + 1, LEVEL + 2, far, AHEAD / 2]);
    }
    places
}

fn list(
    random: &mut Random,
    settings: &Settings,
    line: &Line,
    tally: &mut Tally,
) -> Result<(), String> {
    let delivery = |number| Delivery {
        number,
        packet: line.packets[number].clone(),
        state: State::Whole,
    };
    let places = places(random, line.packets.len()).into_iter();
    let deliveries: Vec<Delivery> = places.map(delivery).collect();
    let mut plain = receivers::Pair::open(random, settings.t140, settings.red, tally)?;
    let mut recording = Recording::open(random, settings, tally)?;
    let mut record = vec![];
    let mut clock = 0;
    for delivery in &deliveries {
        if !recording.is_near(delivery.number) {
            return Err(format!("packet {} is outside the window", delivery.number));
        }
        let packet = &delivery.packet;
        if let Ok(step) = plain.step(random, packet, tally)? {
            add(&mut record, settings, packet, &step)?;
        }
        recording.take(random, clock, delivery, tally)?;
        if random.once_in(3) {
            clock += random.pick(&[0, 1, 999, 1_000]);
            recording.wait(random, clock, tally)?;
        }
    }
    recording.wait(random, clock + HOLD_TIME, tally)?;
    if recording.record != record {
        let details = difference(&recording.record, &record);
        return Err(format!("against the step that does not hold\n{details}"));
    }
    tally.meet("lists of rising numbers, as without holding", true);
    Ok(())
}

pub fn rising(random: &mut Random, calls: usize, tally: &mut Tally) -> Result<(), String> {
    let start = tally.calls(Call::HoldingStep);
    let mut level = 0;
    while tally.calls(Call::HoldingStep) < start + calls / 8 {
        let (settings, calls) = channel::lettered(random, level, 4_000);
        let line = channel::send(settings, &calls);
        for _ in 0..4 {
            list(random, &settings, &line, tally)?;
        }
        level = (level + 1) % (LEVEL + 1);
    }
    Ok(())
}

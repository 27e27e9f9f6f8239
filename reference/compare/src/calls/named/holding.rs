//! Named cases of the receiver that holds.

use super::super::holding::{Pair, Stepped};
use super::{same, Case, Given};
use independent::holding::cases::{self, packet, step, wait, Call, Seen};
use independent::{paper, read};
use stewpigeon::lent::{HoldingReceiver, HoldingStep, Step};

pub const CASES: [Case; 3] = [
    ("a receiver that holds: calls by hand", by_hand),
    ("8 held after 5: every reader's case", all_of_the_paper),
    ("a refused opening that holds", zero_receiver),
];

fn seen(answer: Stepped) -> Seen {
    let HoldingStep {
        of, again, step, ..
    } = match answer {
        Ok(step) => step,
        Err(number) => return Seen::Refused(number),
    };
    let (loss, distance) = (step.loss, step.distance.into());
    match (step.course, of) {
        (Step::LATE, _) => Seen::Late(distance),
        (Step::JUMP, _) => Seen::Jump(distance),
        (Step::BREAK, _) => Seen::Break,
        (_, HoldingStep::NEITHER) => Seen::Waits(distance),
        (_, HoldingStep::NEW) => Seen::New(loss, distance),
        _ if again != 0 => Seen::Again(loss, distance),
        _ => Seen::Held(loss, distance),
    }
}

fn open(given: &mut Given<'_>) -> Result<Pair, String> {
    Pair::open(given.random, 98, 100, given.tally)
}

fn make(given: &mut Given<'_>, pair: &mut Pair, call: &Call) -> Result<Seen, String> {
    let (lent, packet) = (call.lent.as_deref(), call.packet.as_deref());
    let answer = pair.call(given.random, call.clock, lent, packet, given.tally)?;
    Ok(seen(answer))
}

/// The numbers held and kept in a record.
fn numbers(record: &HoldingReceiver) -> cases::Numbers {
    let held = (record.has_held != 0).then_some(record.held);
    let kept = (record.receiver.has_kept != 0).then_some(record.receiver.kept);
    [held, kept]
}

fn by_hand(given: &mut Given<'_>) -> Result<(), String> {
    for case in cases::all() {
        let mut pair = open(given)?;
        for (place, (call, due, after)) in case.rows.iter().enumerate() {
            make(given, &mut pair, call)
                .and_then(|seen| same(seen, *due))
                .and_then(|()| same(numbers(&pair.record()), *after))
                .map_err(|difference| format!("{}, row {place}: {difference}", case.name))?;
        }
    }
    Ok(())
}

/// As the new packet and as the one held, each from the right source.
fn all_of_the_paper(given: &mut Given<'_>) -> Result<(), String> {
    let eight = packet(8);
    for case in paper::cases() {
        let mut packet = case.packet;
        if let Some(source) = packet.get_mut(8..12) {
            source.copy_from_slice(&eight[8..12]);
        }
        let due = read(None, 98, 100, &packet).err();
        let mut pair = holding_8(given)?;
        let answer = pair.call(given.random, 0, None, Some(&packet), given.tally)?;
        same(answer.err(), due)?;
        if let Some(number) = packet.get_mut(2..4) {
            number.copy_from_slice(&eight[2..4]);
        }
        let mut pair = holding_8(given)?;
        let answer = pair.call(given.random, 0, Some(&packet), None, given.tally)?;
        same(answer.err(), due.map(|_| 27))?;
    }
    Ok(())
}

/// The newest number is 5.
fn holding_8(given: &mut Given<'_>) -> Result<Pair, String> {
    let mut pair = open(given)?;
    for (number, due) in [(5, Seen::New(0, 0)), (8, Seen::Waits(2))] {
        same(make(given, &mut pair, &step(0, packet(number)))?, due)?;
    }
    Ok(pair)
}

fn zero_receiver(given: &mut Given<'_>) -> Result<(), String> {
    for (t140, red) in [(95, 100), (128, 100), (98, 95), (98, 128), (98, 98), (0, 0)] {
        let mut zero = Pair::open(given.random, t140, red, given.tally)?;
        for call in [step(0, packet(5)), step(7, vec![]), wait(0), wait(7)] {
            same(make(given, &mut zero, &call)?, Seen::Refused(3))?;
            same(zero.record(), HoldingReceiver::ZERO)?;
        }
    }
    Ok(())
}

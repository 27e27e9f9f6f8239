//! Which of the calls that must be met were met.

use super::super::each::Each;
use super::super::tally::{Answer, Tally};
use super::call::{Call, Stepped};
use super::rows::{steps, waits, Row};
use independent::holding::{HoldingReceiver, HOLD_TIME};
use independent::{read, Packet};
use stewpigeon::lent::HoldingStep;

/// A call and its answer.
pub struct Seen<'a> {
    /// The receiver before the call.
    before: HoldingReceiver,
    call: Call<'a>,
    /// The packet was asked for again.
    pub again: bool,
    kind: Answer,
    /// All zeros where it is refused.
    pub step: HoldingStep,
}

/// How many blocks are missing before those of the packet where this number is
/// expected; 0 or less where none is.
fn missing(packet: &Packet, expected: u16) -> i32 {
    let distance = packet.sequence.wrapping_sub(expected);
    i32::from(distance) - packet.older().len() as i32
}

impl<'a> Seen<'a> {
    pub fn new(before: HoldingReceiver, call: Call<'a>, again: bool, answer: &Stepped) -> Self {
        Seen {
            before,
            call,
            again,
            kind: call.kind(answer),
            step: answer.unwrap_or(HoldingStep::ZERO),
        }
    }

    /// It was answered so.
    pub fn is(&self, kind: &'static str) -> bool {
        self.kind == Answer::Done(kind)
    }

    pub fn refused(&self, number: u8) -> bool {
        self.kind == Answer::Refused(number)
    }

    pub fn marks(&self) -> bool {
        self.step.step.loss > 0
    }

    pub fn distance(&self) -> i16 {
        self.step.step.distance
    }

    /// Some of the given packet's older blocks are wanted, and not all.
    pub fn some_older(&self) -> bool {
        let step = self.step.step;
        step.given > 1 && step.given <= step.older
    }

    pub fn all_older(&self) -> bool {
        let step = self.step.step;
        step.older > 0 && step.given > step.older
    }

    /// No packet was handed out before.
    pub fn is_first(&self) -> bool {
        self.before.receiver().expected().is_none()
    }

    /// The number of the next jump that is a break is known.
    pub fn keeps_number(&self) -> bool {
        self.before.receiver().kept().is_some()
    }

    pub fn is_last_second(&self) -> bool {
        self.call.clock > u64::MAX - HOLD_TIME
    }

    fn read<'b>(&self, packet: &'b [u8]) -> Result<Packet<'b>, u8> {
        let receiver = self.before.receiver();
        read(receiver.source(), receiver.t140(), receiver.red(), packet)
    }

    fn new_packet(&self) -> Result<Packet<'a>, u8> {
        self.read(self.call.packet.unwrap_or(&[]))
    }

    /// The new packet is one that is refused.
    pub fn is_refused(&self) -> bool {
        self.new_packet().is_err()
    }

    /// The new packet's number.
    pub fn number(&self) -> u16 {
        self.new_packet().map_or(0, |packet| packet.sequence)
    }

    pub fn has_held(&self) -> bool {
        self.before.held().is_some()
    }

    /// What is lent as held is a packet of the source.
    pub fn lends_packet(&self) -> bool {
        self.read(self.call.held).is_ok()
    }

    /// The packet held, where it is the one lent.
    fn lent(&self) -> Option<Packet<'a>> {
        let held = self.before.held()?;
        let lent = self.read(self.call.held).ok();
        lent.filter(|packet| packet.sequence == held.number)
    }

    pub fn lends_held(&self) -> bool {
        self.lent().is_some()
    }

    /// The number of the one held; 0 where none is.
    pub fn held(&self) -> u16 {
        self.before.held().map_or(0, |held| held.number)
    }

    /// The new packet has the number of the one held.
    pub fn copied(&self) -> bool {
        self.has_held() && self.held() == self.number()
    }

    /// How long the one held has been held.
    pub fn age(&self) -> Option<u64> {
        let held = self.before.held()?;
        self.call.clock.checked_sub(held.arrival)
    }

    pub fn is_old(&self) -> bool {
        self.age() >= Some(HOLD_TIME)
    }

    /// The blocks missing before the one held.
    pub fn missing(&self) -> Option<i32> {
        let expected = self.before.receiver().expected()?;
        Some(missing(&self.lent()?, expected))
    }

    /// None is missing before the one held.
    pub fn is_closed(&self) -> bool {
        self.missing().is_some_and(|missing| missing <= 0)
    }

    /// None is missing before the one held, behind the new packet.
    pub fn is_closed_behind_new(&self) -> bool {
        let expected = self.number().wrapping_add(1);
        let held = self.lent();
        held.is_some_and(|held| missing(&held, expected) <= 0)
    }

    /// None is missing before the new packet, behind the one held.
    pub fn new_is_closed(&self) -> bool {
        let expected = self.held().wrapping_add(1);
        let new = self.new_packet();
        new.is_ok_and(|new| missing(&new, expected) <= 0)
    }

    pub fn meet(&self, tally: &mut Tally) {
        tally.add(self.call.name(), self.kind);
        if self.step.of == HoldingStep::HELD {
            tally.each(Each::Held, self.step.step.older);
        }
        match self.call.packet {
            Some(_) => self.meet_rows(steps(), tally),
            None => self.meet_rows(waits(), tally),
        }
    }

    fn meet_rows(&self, rows: impl Iterator<Item = &'static Row>, tally: &mut Tally) {
        for (what, _) in rows.filter(|(_, met)| met(self)) {
            tally.meet(*what, true);
        }
    }
}

/// Everything that must be met.
pub fn all(tally: &mut Tally) {
    for (what, _) in steps().chain(waits()) {
        tally.meet(*what, false);
    }
}

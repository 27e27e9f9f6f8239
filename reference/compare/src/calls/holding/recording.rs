//! A receiver that holds, its caller, and the record of its answers.

use super::super::lines::add;
use super::super::tally::Tally;
use super::pair::Pair;
use crate::random::Random;
use independent::channel::Delivery;
use independent::record::{in_window, Entry, AHEAD, BEHIND};
use independent::sender::Settings;
use stewpigeon::lent::{HoldingStep, Step};

pub struct Recording<'a> {
    settings: &'a Settings,
    pair: Pair,
    held: Option<&'a Delivery>,
    pub record: Vec<Entry>,
    /// The packets handed out, in order.
    pub given: Vec<usize>,
}

impl<'a> Recording<'a> {
    pub fn open(
        random: &mut Random,
        settings: &'a Settings,
        tally: &mut Tally,
    ) -> Result<Recording<'a>, String> {
        Ok(Recording {
            settings,
            pair: Pair::open(random, settings.t140, settings.red, tally)?,
            held: None,
            record: vec![],
            given: vec![],
        })
    }

    /// Within the window about the newest handed out.
    pub fn is_near(&self, k: usize) -> bool {
        in_window(self.given.last().copied(), k)
    }

    /// A packet arrives.
    pub fn take(
        &mut self,
        random: &mut Random,
        clock: u64,
        new: &'a Delivery,
        tally: &mut Tally,
    ) -> Result<(), String> {
        let packet = Some(&new.packet[..]);
        let Ok(step) = self.pair.call(random, clock, None, packet, tally)? else {
            return Ok(());
        };
        if let Some(newest) = self.given.last() {
            let k = new.number;
            tally.meet("lines that hold: 2,999 ahead", k == newest + AHEAD);
            tally.meet("lines that hold: 99 behind", k + BEHIND == *newest);
        }
        let held = step.keep == HoldingStep::NEW;
        tally.meet("lines that hold: packets held", held);
        self.obey(&step, Some(new))
    }

    /// Calls without a packet until nothing is given.
    pub fn wait(
        &mut self,
        random: &mut Random,
        clock: u64,
        tally: &mut Tally,
    ) -> Result<(), String> {
        loop {
            let step = self.pair.call(random, clock, None, None, tally)?;
            let step = step.map_err(|number| format!("a wait at {clock} is refused {number}"))?;
            self.obey(&step, None)?;
            if step.of == HoldingStep::NEITHER {
                return Ok(());
            }
            tally.meet("lines that hold: gaps closed", step.step.loss == 0);
            tally.meet("lines that hold: gaps left open", step.step.loss > 0);
        }
    }

    /// Calls that are refused and change nothing.
    pub fn disturb(
        &mut self,
        random: &mut Random,
        clock: u64,
        tally: &mut Tally,
    ) -> Result<(), String> {
        let early = self.pair.clock().checked_sub(1);
        let early = early.map(|clock| (clock, None));
        let altered = self.held.map(|_| (clock, Some(&[][..])));
        for (clock, held) in early.into_iter().chain(altered) {
            let packet = random.pick(&[None, Some(&[0x80; 11][..])]);
            let answer = self.pair.call(random, clock, held, packet, tally)?;
            tally.meet("lines that hold: refused calls", answer.is_err());
        }
        Ok(())
    }

    /// Records what is given, and keeps what is to be kept. Inside the window
    /// there are no jumps.
    fn obey(&mut self, step: &HoldingStep, new: Option<&'a Delivery>) -> Result<(), String> {
        let given = match step.of {
            HoldingStep::NEITHER => None,
            HoldingStep::HELD => self.held,
            _ => new,
        };
        if let Some(given) = given {
            if self.given.last() >= Some(&given.number) {
                return Err(format!("packet {} is not the newest", given.number));
            }
            add(&mut self.record, self.settings, &given.packet, &step.step)?;
            self.given.push(given.number);
        } else if step.step.course == Step::JUMP {
            return Err(format!("{step:?} inside the window"));
        }
        match step.keep {
            HoldingStep::NEITHER => self.held = None,
            HoldingStep::NEW => self.held = new,
            _ => {}
        }
        Ok(())
    }
}

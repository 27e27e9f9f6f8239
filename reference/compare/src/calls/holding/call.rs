//! A call on a receiver that holds: on the library's and on an independent
//! one.

use std::fmt::{self, Display, Formatter};

use super::super::answers::holding_step;
use super::super::library::{self, Answered};
use super::super::tally::{self, Answer};
use crate::check::hex;
use crate::random::Random;
use independent::holding::HoldingReceiver;
use stewpigeon::lent::{self, HoldingStep, Step};

/// A step or wait as answered, or the refusal's number.
pub type Stepped = Result<HoldingStep, u8>;

/// A step, or without a packet a wait.
#[derive(Clone, Copy)]
pub struct Call<'a> {
    pub clock: u64,
    /// What is lent as held.
    pub held: &'a [u8],
    pub packet: Option<&'a [u8]>,
}

impl Display for Call<'_> {
    fn fmt(&self, f: &mut Formatter<'_>) -> fmt::Result {
        let (clock, held) = (self.clock, hex(self.held));
        match self.packet {
            Some(packet) => write!(f, "a step at {clock}\nheld {held}\npacket {}", hex(packet)),
            None => write!(f, "a wait at {clock}\nheld {held}"),
        }
    }
}

impl Call<'_> {
    pub fn library(
        &self,
        random: &mut Random,
        receiver: &mut lent::HoldingReceiver,
    ) -> Answered<Stepped> {
        let clock = self.clock;
        let answer = match self.packet {
            Some(packet) => library::receive(
                random,
                receiver,
                [self.held, packet],
                |receiver, [held, packet], step| {
                    lent::holding_receiver_step(receiver, clock, held, packet, step)
                },
            ),
            None => library::receive(random, receiver, [self.held], |receiver, [held], step| {
                lent::holding_receiver_wait(receiver, clock, held, step)
            }),
        }?;
        Ok(answer.map(|accepted| accepted.step))
    }

    pub fn independent(&self, receiver: &mut HoldingReceiver) -> Stepped {
        let answer = match self.packet {
            Some(packet) => receiver.step(self.clock, self.held, packet),
            None => receiver.wait(self.clock, self.held),
        };
        holding_step(&answer, |step| step)
    }

    pub fn name(&self) -> tally::Call {
        match self.packet {
            Some(_) => tally::Call::HoldingStep,
            None => tally::Call::HoldingWait,
        }
    }

    /// The kind of its answer.
    pub fn kind(&self, answer: &Stepped) -> Answer {
        match (answer, self.packet) {
            (Ok(step), Some(_)) => Answer::Done(step_kind(step)),
            (Ok(step), None) => Answer::Done(wait_kind(step)),
            (Err(number), _) => Answer::Refused(*number),
        }
    }
}

const NEITHER: u8 = HoldingStep::NEITHER;
const HELD: u8 = HoldingStep::HELD;
const NEW: u8 = HoldingStep::NEW;

fn step_kind(step: &HoldingStep) -> &'static str {
    match (step.step.course, step.of, step.keep) {
        (Step::FORWARD, NEW, NEITHER) => "new",
        (Step::FORWARD, NEW, HELD) => "new-before-held",
        (Step::FORWARD, HELD, NEW) => "held-keep-new",
        (Step::FORWARD, HELD, NEITHER) => "held-again",
        (Step::FORWARD, NEITHER, NEW) => "keep-new",
        (Step::LATE, NEITHER, NEITHER) => "late",
        (Step::LATE, NEITHER, HELD) => "late-keep-held",
        (Step::JUMP, NEITHER, NEITHER) => "jump",
        (Step::JUMP, NEITHER, HELD) => "jump-keep-held",
        (Step::BREAK, NEW, NEITHER) => "break",
        _ => unreachable!("{step:?} differs from every due one"),
    }
}

fn wait_kind(step: &HoldingStep) -> &'static str {
    match (step.of, step.keep) {
        (HELD, NEITHER) => "held",
        (NEITHER, HELD) => "keep-held",
        (NEITHER, NEITHER) => "nothing",
        _ => unreachable!("{step:?} differs from every due one"),
    }
}

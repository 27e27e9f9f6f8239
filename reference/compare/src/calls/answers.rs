//! What the library's receivers must be and answer, by independent ones.

use std::fmt::Debug;

use super::library::Answered;
use independent::holding::{self, HoldingReceiver, Outcome, Which};
use independent::receiver::{self, Added, Course, Receiver};
use stewpigeon::lent::{self, HoldingStep, Step};

/// A step, or the refusal's number.
pub type Stepped = Result<Step, u8>;

/// The record of an independent receiver.
pub fn record(receiver: &Receiver) -> lent::Receiver {
    lent::Receiver {
        t140: receiver.t140(),
        red: receiver.red(),
        has_source: receiver.source().is_some().into(),
        has_kept: receiver.kept().is_some().into(),
        source: receiver.source().unwrap_or(0),
        expected: receiver.expected().unwrap_or(0),
        kept: receiver.kept().unwrap_or(0),
    }
}

/// The same of one that holds.
pub fn holding_record(receiver: &HoldingReceiver) -> lent::HoldingReceiver {
    let held = receiver.held();
    lent::HoldingReceiver {
        receiver: record(receiver.receiver()),
        has_held: held.is_some().into(),
        held: held.map_or(0, |held| held.number),
        arrival: held.map_or(0, |held| held.arrival),
        clock: receiver.clock(),
    }
}

/// A step that gives nothing.
#[inline]
pub fn nothing(course: u8, distance: i16) -> Step {
    Step {
        course,
        distance,
        ..Step::ZERO
    }
}

#[inline]
fn given(course: u8, added: &Added) -> Step {
    let (from, to) = added.place();
    Step {
        course,
        loss: added.loss,
        distance: added.distance as i16,
        older: added.older(),
        given: added.wanted + 1,
        from,
        to,
    }
}

/// The library's form of an independent answer.
#[inline]
pub fn step(answer: &receiver::Answer) -> Stepped {
    Ok(match answer {
        receiver::Answer::Refused(number) => return Err(*number),
        receiver::Answer::Late { distance } => nothing(Step::LATE, *distance as i16),
        receiver::Answer::Jump { distance } => nothing(Step::JUMP, *distance as i16),
        receiver::Answer::Forward(added) => given(Step::FORWARD, added),
        receiver::Answer::Break(added) => given(Step::BREAK, added),
    })
}

#[inline]
fn number(course: Course) -> u8 {
    match course {
        Course::Forward => Step::FORWARD,
        Course::Late => Step::LATE,
        Course::Jump => Step::JUMP,
        Course::Break => Step::BREAK,
    }
}

#[inline]
fn which(which: Which) -> u8 {
    match which {
        Which::Neither => HoldingStep::NEITHER,
        Which::Held => HoldingStep::HELD,
        Which::New => HoldingStep::NEW,
    }
}

/// The same of a receiver that holds, and what is made of it. It is made in
/// each case apart, so that in `bench` none pays for the others.
#[inline(always)]
pub fn holding_step<T>(
    answer: &Result<holding::Step, u8>,
    make: impl Fn(HoldingStep) -> T,
) -> Result<T, u8> {
    let answer = match answer {
        Ok(step) => step,
        Err(number) => return Err(*number),
    };
    let keep = which(answer.keep);
    Ok(match &answer.outcome {
        Outcome::Nothing { course, distance } => make(HoldingStep {
            of: HoldingStep::NEITHER,
            keep,
            again: 0,
            step: nothing(number(*course), *distance as i16),
        }),
        Outcome::New { course, added } => make(HoldingStep {
            of: HoldingStep::NEW,
            keep,
            again: 0,
            step: given(number(*course), added),
        }),
        Outcome::Held { added, again } => make(HoldingStep {
            of: HoldingStep::HELD,
            keep,
            again: (*again).into(),
            step: given(Step::FORWARD, added),
        }),
    })
}

/// The library's answer, where it is the one due and so is its record
/// afterwards.
pub fn compared<A, R>(answer: Answered<A>, due: A, record: &R, due_record: &R) -> Result<A, String>
where
    A: Copy + PartialEq + Debug,
    R: PartialEq + Debug,
{
    let what = match answer {
        Err(what) => what,
        Ok(answer) if answer != due => "the answers differ",
        Ok(_) if record != due_record => "the receivers differ afterwards",
        Ok(answer) => return Ok(answer),
    };
    Err(format!(
        "{what}\nlibrary:     {answer:?}\nindependent: {due:?}\n\
         afterwards\nlibrary:     {record:?}\nindependent: {due_record:?}"
    ))
}

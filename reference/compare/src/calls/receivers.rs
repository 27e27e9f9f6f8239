//! A receiver of the library beside an independent one.

use super::answers::{self, compared, record, Stepped};
use super::each::Each;
use super::library;
use super::tally::{Answer, Call, Tally};
use super::trail::Trail;
use crate::check::hex;
use crate::random::Random;
use independent::receiver::Receiver;
use independent::LEVEL;
use stewpigeon::lent::{self, Step};

pub struct Pair {
    library: lent::Receiver,
    independent: Receiver,
    trail: Trail,
}

impl Pair {
    /// Opens both; where they refuse, both are all zeros.
    pub fn open(random: &mut Random, t140: u8, red: u8, tally: &mut Tally) -> Result<Pair, String> {
        let mut library = lent::Receiver::ZERO;
        let answer = library::receiver_open(random, &mut library, t140, red);
        let (due, independent) = match Receiver::open(t140, red) {
            Ok(receiver) => (0, receiver),
            Err(number) => (number, Receiver::zero()),
        };
        let number = compared(answer, due, &library, &record(&independent))
            .map_err(|what| format!("opening a receiver, T140 {t140} RED {red}: {what}"))?;
        tally.add(Call::ReceiverOpen, Answer::opened(number));
        Ok(Pair {
            library,
            independent,
            trail: Trail::default(),
        })
    }

    pub fn expected(&self) -> Option<u16> {
        self.independent.expected()
    }

    /// The last jump's number, unless a break came since.
    pub fn jump(&self) -> Option<u16> {
        self.trail.jump()
    }

    /// The library's record.
    pub fn record(&self) -> lent::Receiver {
        self.library
    }

    /// Gives a packet to both.
    pub fn step(
        &mut self,
        random: &mut Random,
        packet: &[u8],
        tally: &mut Tally,
    ) -> Result<Stepped, String> {
        let kept = self.independent.kept();
        let answer = library::step(random, &mut self.library, packet);
        let due = answers::step(&self.independent.step(packet));
        let answer =
            compared(answer, due, &self.library, &record(&self.independent)).map_err(|what| {
                let (length, packet) = (packet.len(), hex(packet));
                format!("a step\npacket ({length} bytes): {packet}\n{what}")
            })?;
        meet(&answer, tally);
        self.trail.add(kept, packet, &answer, tally);
        Ok(answer)
    }
}

/// The kind of an answer.
pub fn kind(answer: &Stepped) -> Answer {
    match answer {
        Ok(step) => Answer::Done(course(step.course)),
        Err(number) => Answer::Refused(*number),
    }
}

fn course(course: u8) -> &'static str {
    match course {
        Step::FORWARD => "forward",
        Step::LATE => "late",
        Step::JUMP => "jump",
        Step::BREAK => "break",
        _ => unreachable!("course {course} differs from every due one"),
    }
}

fn meet(answer: &Stepped, tally: &mut Tally) {
    tally.add(Call::Step, kind(answer));
    let step = answer.unwrap_or(Step::ZERO);
    tally.meet("steps with loss 2,998", step.loss == 2_998);
    tally.meet("steps at distance 2,998", step.distance == 2_998);
    tally.meet("steps at distance 2,999", step.distance == 2_999);
    tally.meet("steps at distance 32,767", step.distance == 32_767);
    tally.meet("steps at distance -32,768", step.distance == -32_768);
    tally.meet("steps at distance -101", step.distance == -101);
    tally.meet("steps at distance -100", step.distance == -100);
    tally.meet("steps at distance -1", step.distance == -1);
    if LEVEL > 1 {
        tally.meet("steps that give no older block of several", {
            step.older > 1 && step.given == 1
        });
        tally.meet("steps that give some older blocks", {
            step.given > 1 && step.given <= step.older
        });
    }
    if step.given > 0 {
        tally.each(Each::Taken, step.older);
        tally.each(Each::Given, step.given - 1);
    }
    if step.given > 0 && step.older == LEVEL {
        tally.each(Each::Lost, step.distance as usize);
    }
}

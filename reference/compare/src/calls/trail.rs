//! What came to a receiver since its last jump.

use super::answers::Stepped;
use super::tally::Tally;
use stewpigeon::lent::Step;

/// The last jump's number, and what came since then. A break ends it.
#[derive(Default)]
pub struct Trail {
    jump: Option<u16>,
    forward: bool,
    late: bool,
    refused: bool,
    /// This jump is a copy of the one before.
    copied: bool,
}

impl Trail {
    /// The last jump's number, unless a break came since.
    pub fn jump(&self) -> Option<u16> {
        self.jump
    }

    /// A packet came to a receiver that kept this number, and was answered
    /// so.
    pub fn add(&mut self, kept: Option<u16>, packet: &[u8], answer: &Stepped, tally: &mut Tally) {
        let header = packet.first_chunk::<4>();
        let number = header.map(|[_, _, high, low]| u16::from_be_bytes([*high, *low]));
        let is_kept = kept.is_some() && kept == number;
        let Ok(step) = answer else {
            tally.meet("refused packets with the number kept", is_kept);
            self.refused = true;
            return;
        };
        match step.course {
            Step::LATE => {
                tally.meet("late packets with the number kept", is_kept);
                self.late = true;
            }
            Step::JUMP => self.jumped(kept, number, tally),
            Step::BREAK => self.broke(number, step, tally),
            _ => {
                tally.meet("forward packets while a number is kept", kept.is_some());
                self.forward = true;
            }
        }
    }

    fn jumped(&mut self, kept: Option<u16>, number: Option<u16>, tally: &mut Tally) {
        let copied = kept.is_some() && self.jump == number;
        let next = self.jump.map(|jump| jump.wrapping_add(1));
        let cleared = self.forward && next == number;
        tally.meet("jumps copied", copied);
        tally.meet(
            "jumps elsewhere while a number is kept",
            kept.is_some() && !copied,
        );
        tally.meet("jumps whose number a forward packet cleared", cleared);
        tally.meet("jumps that keep 0", number == Some(65_535));
        *self = Trail {
            jump: number,
            copied,
            ..Trail::default()
        };
    }

    fn broke(&mut self, number: Option<u16>, step: &Step, tally: &mut Tally) {
        tally.meet("breaks right behind the jump", !self.late && !self.refused);
        tally.meet("breaks behind a late packet", self.late);
        tally.meet("breaks behind a refused packet", self.refused);
        tally.meet("breaks behind a copied jump", self.copied);
        tally.meet("breaks with number 0", number == Some(0));
        tally.meet("breaks that give older blocks", step.given > 1);
        *self = Trail::default();
    }
}

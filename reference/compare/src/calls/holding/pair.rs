//! A receiver of the library that holds beside an independent one, and the
//! packet that their caller keeps.

use super::super::answers::{compared, holding_record};
use super::super::library;
use super::super::tally::{self, Answer, Tally};
use super::call::{Call, Stepped};
use super::met::Seen;
use crate::random::Random;
use independent::holding::{Held, HoldingReceiver};
use stewpigeon::lent::{self, HoldingStep};

pub struct Pair {
    library: lent::HoldingReceiver,
    independent: HoldingReceiver,
    /// What the last accepted call said to keep.
    kept: Vec<u8>,
    /// The packet that the last accepted step asked for again.
    again: Option<Vec<u8>>,
}

impl Pair {
    /// Opens both; where they refuse, both are all zeros.
    pub fn open(random: &mut Random, t140: u8, red: u8, tally: &mut Tally) -> Result<Pair, String> {
        let mut library = lent::HoldingReceiver::ZERO;
        let answer = library::open(random, &mut library, |record| {
            lent::holding_receiver_open(record, t140, red)
        });
        let (due, independent) = match HoldingReceiver::open(t140, red) {
            Ok(receiver) => (0, receiver),
            Err(number) => (number, HoldingReceiver::zero()),
        };
        let number = compared(answer, due, &library, &holding_record(&independent))
            .map_err(|what| format!("opening one that holds, T140 {t140} RED {red}: {what}"))?;
        tally.add(tally::Call::HoldingOpen, Answer::opened(number));
        Ok(Pair {
            library,
            independent,
            kept: vec![],
            again: None,
        })
    }

    /// The library's record.
    pub fn record(&self) -> lent::HoldingReceiver {
        self.library
    }

    pub fn expected(&self) -> Option<u16> {
        self.independent.receiver().expected()
    }

    /// The packet that is held.
    pub fn held(&self) -> Option<Held> {
        self.independent.held()
    }

    /// The latest accepted clock.
    pub fn clock(&self) -> u64 {
        self.independent.clock()
    }

    /// The bytes that the caller keeps.
    pub fn kept(&self) -> &[u8] {
        &self.kept
    }

    /// The packet that is to be given again.
    pub fn again(&self) -> Option<&[u8]> {
        self.again.as_deref()
    }

    /// Gives a packet to both, and lends as held the packet kept or these
    /// bytes instead of it. Without a packet it is a wait.
    pub fn call(
        &mut self,
        random: &mut Random,
        clock: u64,
        held: Option<&[u8]>,
        packet: Option<&[u8]>,
        tally: &mut Tally,
    ) -> Result<Stepped, String> {
        let before = self.independent;
        let held = held.unwrap_or(&self.kept);
        let call = Call {
            clock,
            held,
            packet,
        };
        let answer = call.library(random, &mut self.library);
        let due = call.independent(&mut self.independent);
        let due_record = holding_record(&self.independent);
        let answer = compared(answer, due, &self.library, &due_record)
            .map_err(|what| format!("{call}\nbefore {before:?}\n{what}"))?;
        let again = packet.is_some() && packet == self.again();
        Seen::new(before, call, again, &answer).meet(tally);
        if let Ok(step) = &answer {
            self.obey(step, packet);
        }
        Ok(answer)
    }

    /// Keeps what the caller is told to.
    fn obey(&mut self, step: &HoldingStep, packet: Option<&[u8]>) {
        if let Some(packet) = packet {
            self.again = (step.again != 0).then(|| packet.to_vec());
        }
        match step.keep {
            HoldingStep::NEITHER => self.kept.clear(),
            HoldingStep::NEW => self.kept = packet.unwrap_or(&[]).to_vec(),
            _ => {}
        }
    }
}

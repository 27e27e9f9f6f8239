//! A line of packets, and the steps that they must give.

use std::ptr;

use stewpigeon::{HoldingReceiver, HoldingStep, Refusal, Which};
use Which::{Held, Neither, New};

pub struct Line {
    pub receiver: HoldingReceiver,
    /// What it last said to keep.
    held: Vec<u8>,
}

impl Line {
    /// 5 is its newest number.
    pub fn open() -> Line {
        let mut line = Line {
            receiver: HoldingReceiver::open(98, 100).unwrap(),
            held: vec![],
        };
        line.step(0, 5, given(New, Neither, 0));
        line
    }

    /// A packet of type T140, and the step that it must give.
    pub fn step(&mut self, clock: u64, sequence: u16, wanted: HoldingStep) {
        self.take(clock, packet(sequence), wanted);
    }

    pub fn take(&mut self, clock: u64, packet: Vec<u8>, wanted: HoldingStep) {
        let step = self.receiver.step(clock, &self.held, &packet).unwrap();
        assert_eq!(step, wanted);
        assert!(is_part(step, &self.held, &packet));
        match step.keep() {
            Neither => self.held.clear(),
            Held => {}
            New => self.held = packet,
        }
        assert_eq!(self.receiver.held().is_some(), wanted.keep() != Neither);
    }

    pub fn wait(&mut self, clock: u64, wanted: HoldingStep) {
        let step = self.receiver.wait(clock, &self.held).unwrap();
        assert_eq!(step, wanted);
        assert!(is_part(step, &self.held, &[]));
        assert_eq!(self.receiver.held().is_some(), wanted.keep() == Held);
    }

    /// A refused call changes nothing.
    pub fn refused(&mut self, clock: u64, held: &[u8], packet: &[u8], refusal: Refusal) {
        let before = self.receiver.clone();
        let step = self.receiver.step(clock, held, packet);
        assert_eq!((step, &self.receiver), (Err(refusal), &before));
    }

    pub fn refused_to_wait(&mut self, clock: u64, held: &[u8], refusal: Refusal) {
        let before = self.receiver.clone();
        let step = self.receiver.wait(clock, held);
        assert_eq!((step, &self.receiver), (Err(refusal), &before));
    }

    /// The numbers expected, kept and held.
    pub fn numbers(&self) -> (Option<u16>, Option<u16>, Option<u16>) {
        let receiver = &self.receiver;
        (receiver.expected(), receiver.kept(), self.receiver.held())
    }
}

/// A text given is the end of its packet, and no copy of it.
fn is_part(step: HoldingStep, held: &[u8], packet: &[u8]) -> bool {
    let (bytes, text) = match step {
        HoldingStep::Forward { of: Held, text, .. } => (held, text),
        HoldingStep::Forward { text, .. } | HoldingStep::Break { text, .. } => (packet, text),
        _ => return true,
    };
    ptr::eq(text, &bytes[bytes.len() - text.len()..])
}

/// A packet of type T140.
pub fn packet(sequence: u16) -> Vec<u8> {
    let [high, low] = sequence.to_be_bytes();
    vec![0x80, 98, high, low, 0, 0, 0, 0, 0, 0, 0, 7, b'A']
}

/// A packet of type RED with one older block.
pub fn with_repeat(sequence: u16) -> Vec<u8> {
    let mut packet = packet(sequence);
    packet[1] = 100;
    packet.pop();
    packet.extend([0xe2, 0x04, 0xb0, 1, 98]);
    packet.extend(b"AB");
    packet
}

/// It is given for itself, without older blocks.
pub const fn given(of: Which, keep: Which, distance: i16) -> HoldingStep<'static> {
    HoldingStep::Forward {
        of,
        keep,
        again: false,
        loss: distance as u16,
        distance,
        older: 0,
        given: 1,
        text: b"A",
    }
}

/// It is given with its older block.
pub const fn both(of: Which, distance: i16) -> HoldingStep<'static> {
    HoldingStep::Forward {
        of,
        keep: Neither,
        again: false,
        loss: 0,
        distance,
        older: 1,
        given: 2,
        text: b"AB",
    }
}

/// The held one is given, and the packet is to be given again.
pub const fn again(distance: i16) -> HoldingStep<'static> {
    HoldingStep::Forward {
        of: Held,
        keep: Neither,
        again: true,
        loss: distance as u16,
        distance,
        older: 0,
        given: 1,
        text: b"A",
    }
}

pub const fn held(distance: i16) -> HoldingStep<'static> {
    HoldingStep::Waits {
        distance,
        keep: New,
    }
}

pub const fn nothing(keep: Which) -> HoldingStep<'static> {
    HoldingStep::Waits { distance: 0, keep }
}

pub const fn late(distance: i16, keep: Which) -> HoldingStep<'static> {
    HoldingStep::Late { distance, keep }
}

pub const fn jump(distance: i16, keep: Which) -> HoldingStep<'static> {
    HoldingStep::Jump { distance, keep }
}

pub const BREAK: HoldingStep = HoldingStep::Break {
    older: 0,
    given: 1,
    text: b"A",
};

//! Calls on a receiver that holds, with their answers worked out by hand. Its
//! payload types are 98 and 100.

mod breaks;
mod clocks;
mod gaps;
mod refusals;

use crate::packets::red;

/// A call at a clock: a step, or without a packet a wait.
#[derive(Clone, Debug)]
pub struct Call {
    pub clock: u64,
    /// What is lent as held in place of the packet kept.
    pub lent: Option<Vec<u8>>,
    pub packet: Option<Vec<u8>>,
}

/// What is seen of an answer: its distance, and before it the loss where text
/// is given.
#[derive(Clone, Copy, Debug, PartialEq, Eq)]
pub enum Seen {
    Refused(u8),
    Waits(i32),
    Late(i32),
    Jump(i32),
    New(u16, i32),
    Break,
    Held(u16, i32),
    /// The one held, and the new packet is to come again.
    Again(u16, i32),
}

/// A number held and a number kept.
pub type Numbers = [Option<u16>; 2];

const NONE: Numbers = [None, None];

fn holds(held: u16) -> Numbers {
    [Some(held), None]
}

fn keeps(kept: u16) -> Numbers {
    [None, Some(kept)]
}

fn both(held: u16, kept: u16) -> Numbers {
    [Some(held), Some(kept)]
}

/// A call, its answer, and the numbers afterwards.
pub type Row = (Call, Seen, Numbers);

/// Calls on a fresh receiver, in order.
#[derive(Clone, Debug)]
pub struct Case {
    pub name: &'static str,
    pub rows: Vec<Row>,
}

/// A packet without older blocks.
pub fn packet(number: u16) -> Vec<u8> {
    red(number, &[], b"x")
}

pub fn step(clock: u64, packet: Vec<u8>) -> Call {
    Call {
        packet: Some(packet),
        ..wait(clock)
    }
}

pub fn wait(clock: u64) -> Call {
    Call {
        clock,
        lent: None,
        packet: None,
    }
}

/// A step with the packet of a number, without older blocks.
fn at(clock: u64, number: u16) -> Call {
    step(clock, packet(number))
}

fn lending(held: &[u8], call: Call) -> Call {
    let lent = Some(held.to_vec());
    Call { lent, ..call }
}

/// Rows on a receiver whose newest number is this.
fn after(newest: u16, name: &'static str, rows: impl IntoIterator<Item = Row>) -> Case {
    let mut all = vec![(at(0, newest), Seen::New(0, 0), NONE)];
    all.extend(rows);
    Case { name, rows: all }
}

fn after_5(name: &'static str, rows: impl IntoIterator<Item = Row>) -> Case {
    after(5, name, rows)
}

pub fn all() -> Vec<Case> {
    [
        vec![refusals::case()],
        gaps::cases(),
        clocks::cases(),
        breaks::cases(),
    ]
    .concat()
}

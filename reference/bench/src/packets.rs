//! Packets as they come: of all kinds, and of one line; none where their older
//! blocks are more than are read.

use crate::inputs::Inputs;
use crate::letters::letter;
use compare::damage::mutate;
use compare::plan::{Plan, RED, T140};
use compare::random::Random;
use stewpigeon::Packet;

/// The older blocks of a typed RED packet, and the most of a longer one.
const TYPED: usize = 2;
const LONGER: usize = 4;

/// Packets that have nothing to do with each other.
pub fn mixed(seed: u64, count: usize) -> Option<Inputs> {
    let mut random = Random::new(seed);
    (LONGER <= Packet::LEVEL).then(|| Inputs::of(count, || packet(&mut random)))
}

/// Packets of one line, in the order of arrival.
pub fn line(seed: u64, count: usize) -> Option<Inputs> {
    let mut random = Random::new(seed);
    let mut number = 65_000;
    (TYPED <= Packet::LEVEL).then(|| Inputs::of(count, || arrival(&mut random, &mut number)))
}

/// Packets of one line that change places on their way, and when each of them
/// arrives.
pub struct Arrivals {
    pub packets: Inputs,
    clocks: Vec<u64>,
}

impl Arrivals {
    pub fn iter(&self) -> impl Iterator<Item = (u64, &[u8])> {
        self.clocks.iter().copied().zip(self.packets.iter())
    }
}

/// So many arrivals of a line that sends every 300 ms. Of 100 packets 3 are
/// lost and 10 come 100 to 1,500 ms later than the others.
pub fn reordered(seed: u64, count: usize) -> Option<Arrivals> {
    if TYPED > Packet::LEVEL {
        return None;
    }
    let mut random = Random::new(seed);
    let mut arrivals = vec![];
    let mut sent = 0;
    while arrivals.len() < count {
        let delay = match random.below(100) {
            0..3 => None,
            3..13 => Some(random.within(100, 1_500)),
            _ => Some(random.below(60)),
        };
        arrivals.extend(delay.map(|delay| (300 * sent + delay, sent)));
        sent += 1;
    }
    arrivals.sort();
    let clocks = arrivals.iter().map(|(clock, _)| *clock as u64).collect();
    let mut numbers = arrivals.into_iter().map(|(_, sent)| 65_000 + sent);
    let packets = Inputs::of(count, || {
        let number = numbers.next().expect("as many numbers");
        numbered(&mut random, number as u16)
    });
    Some(Arrivals { packets, clocks })
}

/// A packet of a line: 60 in 100 typed RED, 35 T140, 5 damaged so that they
/// are refused.
fn numbered(random: &mut Random, number: u16) -> Vec<u8> {
    let kind = random.below(20);
    let mut plan = match kind {
        0..7 => plain(random),
        _ => typed(random),
    };
    (plan.source, plan.sequence) = (SOURCE, number);
    match kind {
        19 => damaged(random, plan.bytes()),
        _ => plan.bytes(),
    }
}

/// 60 in 100 typed RED, 20 T140, 10 longer, 10 damaged.
fn packet(random: &mut Random) -> Vec<u8> {
    match random.below(10) {
        0..=5 => typed(random).bytes(),
        6 | 7 => plain(random).bytes(),
        8 => longer(random).bytes(),
        _ => {
            let packet = typed(random).bytes();
            mutate(random, packet)
        }
    }
}

const SOURCE: u32 = 0x11223344;

/// The next arrival of a line: 60 in 100 typed RED and 20 T140 in order, 10
/// behind losses or late, 10 damaged so that they are refused.
fn arrival(random: &mut Random, number: &mut u16) -> Vec<u8> {
    let kind = random.below(10);
    let mut plan = match kind {
        6 | 7 => plain(random),
        _ => typed(random),
    };
    let behind = random.within(1, 8) as u16;
    let late = kind == 8 && random.once_in(2);
    if kind == 8 && !late {
        *number = number.wrapping_add(behind);
    }
    plan.source = SOURCE;
    plan.sequence = match late {
        true => number.wrapping_sub(behind),
        false => *number,
    };
    if !late {
        *number = number.wrapping_add(1);
    }
    match kind {
        9 => damaged(random, plan.bytes()),
        _ => plan.bytes(),
    }
}

fn damaged(random: &mut Random, packet: Vec<u8>) -> Vec<u8> {
    loop {
        let damaged = mutate(random, packet.clone());
        if independent::read(Some(SOURCE), T140, RED, &damaged).is_err() {
            return damaged;
        }
    }
}

/// T140 with up to 12 letters.
fn plain(random: &mut Random) -> Plan {
    let mut plan = Plan::new(random, T140);
    plan.primary = letters(random, 12);
    plan
}

/// RED with two older blocks, each block of 0 to 6 letters.
fn typed(random: &mut Random) -> Plan {
    let mut plan = Plan::new(random, RED);
    for age in (1..=TYPED).rev() {
        plan.older.push((300 * age as u16, letters(random, 6)));
    }
    plan.primary = letters(random, 6);
    plan
}

/// RED with pasted text, or T140 with a lot of it.
fn longer(random: &mut Random) -> Plan {
    if random.once_in(4) {
        let mut plan = Plan::new(random, T140);
        plan.primary = letters(random, 500);
        return plan;
    }
    let mut plan = Plan::new(random, RED);
    for older in (1..=random.within(2, LONGER)).rev() {
        plan.older.push((300 * older as u16, letters(random, 150)));
    }
    plan.primary = letters(random, 150);
    plan
}

/// Up to so many letters, nine of ten of them ASCII.
fn letters(random: &mut Random, most: usize) -> Vec<u8> {
    let count = random.within(0, most);
    let text: String = (0..count).map(|_| letter(random, 10)).collect();
    text.into_bytes()
}

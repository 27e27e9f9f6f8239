//! What is lent as held in place of the packet held.

use super::call::Stepped;
use super::pair::Pair;
use crate::damage::{mutate, BAD};
use crate::plan::Plan;
use crate::random::Random;
use independent::LEVEL;

/// A way to alter the packet held.
#[derive(Clone, Copy)]
pub struct Alteration {
    pub name: &'static str,
    /// The answer is the one that must be met.
    pub is_due: fn(&Stepped) -> bool,
    /// The bytes lent in place of the packet that the pair's caller keeps.
    pub bytes: fn(&mut Random, &Pair) -> Vec<u8>,
}

const fn refused(name: &'static str, bytes: fn(&mut Random, &Pair) -> Vec<u8>) -> Alteration {
    Alteration {
        name,
        is_due: |answer| *answer == Err(27),
        bytes,
    }
}

pub const ALTERATIONS: [Alteration; 8] = [
    // Nobody can tell it from the one held.
    Alteration {
        name: "held ones altered: another text, accepted",
        is_due: |answer| answer.is_ok(),
        bytes: |random, pair| another(random, pair, 0),
    },
    refused("held ones altered: another number, 27", |random, pair| {
        let near = random.pick(&[1, 1, u16::MAX, 255, 256]);
        another(random, pair, near)
    }),
    refused("held ones altered: another source, 27", |random, pair| {
        let mut bytes = pair.kept().to_vec();
        bytes[8 + random.below(4)] ^= 1 << random.below(8);
        bytes
    }),
    refused("held ones altered: a bad letter, 27", |random, pair| {
        let mut bytes = pair.kept().to_vec();
        // What was padding is text then.
        bytes[0] &= !0x20;
        bytes.extend(random.pick(&BAD));
        bytes
    }),
    refused("held ones altered: under 12 bytes, 27", |random, pair| {
        pair.kept()[..random.below(12)].to_vec()
    }),
    refused("held ones altered: over 1,472 bytes, 27", |_, pair| {
        let mut bytes = pair.kept().to_vec();
        bytes.resize(1_473, 0);
        bytes
    }),
    refused("held ones altered: some bytes, 27", |random, pair| {
        mutate(random, pair.kept().to_vec())
    }),
    refused("held ones altered: empty, 27", |_, _| vec![]),
];

/// A good packet of the source, so many numbers above the one held.
fn another(random: &mut Random, pair: &Pair, above: u16) -> Vec<u8> {
    let count = random.within(0, LEVEL);
    let mut plan = Plan::small_red(random, count);
    let record = pair.record();
    plan.sequence = record.held.wrapping_add(above);
    plan.source = record.receiver.source;
    plan.bytes()
}

/// What is lent where none is held: anything.
pub fn anything(random: &mut Random, pair: &Pair, packet: &[u8]) -> Vec<u8> {
    match random.below(4) {
        0 => vec![],
        1 => packet.to_vec(),
        2 => {
            let length = random.below(40);
            random.bytes(length)
        }
        _ => {
            let number = random.number() as u16;
            another(random, pair, number)
        }
    }
}

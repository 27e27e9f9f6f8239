//! Another maker's sender. It keeps the sending rules, and is free where
//! they say nothing: padding, source lists, extensions, offsets, also such as
//! are refused, the marker, the timestamp, the source, T140 packets where
//! nothing is repeated, longer blocks, and blocks that are not UTF-8.

use crate::channel::Line;
use crate::offsets;
use crate::random::Random;
use crate::record::{run, Sent};
use crate::sender::Settings;

/// A line of `count` packets. Of the settings it keeps the level, the types,
/// the first number and the source.
pub fn line(random: &mut Random, settings: &Settings, count: usize) -> Line {
    let mut line = Line::default();
    let mut clock = random.below(1000) as u64;
    let new_source = match random.once_in(4) {
        true => random.below(count.max(1)),
        false => count,
    };
    for k in 0..count {
        clock += match random.below(6) {
            0 => 0,
            1 => random.pick(&[4_095, 8_191, 16_383, 16_384]),
            _ => random.below(1000) as u64,
        };
        let block = block(random);
        line.sent.push(Sent { clock, block });
        let source = settings.source.wrapping_add(u32::from(k >= new_source));
        let packet = packet(random, settings, &line.sent, source);
        line.packets.push(packet);
    }
    line
}

fn block(random: &mut Random) -> Vec<u8> {
    let length = match random.below(40) {
        0..=9 => 0,
        10 => random.pick(&[160, 161, 1022, 1023]),
        11..=14 => random.below(300),
        _ => random.within(1, 6),
    };
    match random.once_in(80) {
        true => random.bytes(length),
        false => random.text(length),
    }
}

/// The packet of the last block sent.
fn packet(random: &mut Random, settings: &Settings, sent: &[Sent], source: u32) -> Vec<u8> {
    let k = sent.len() - 1;
    let run = run(sent, settings.level, k);
    let plain = run == 0 && random.once_in(2);
    let payload_type = if plain { settings.t140 } else { settings.red };
    let sources = random.pick(&[0, 0, 0, 1, 15]);
    let extended = random.once_in(5);
    let padded = random.once_in(5);
    let first = 0x80 | u8::from(padded) << 5 | u8::from(extended) << 4 | sources;
    let marker = u8::from(random.once_in(2)) << 7;
    let mut packet = vec![first, marker | payload_type];
    packet.extend(settings.sequence.wrapping_add(k as u16).to_be_bytes());
    packet.extend((random.number() as u32).to_be_bytes());
    packet.extend(source.to_be_bytes());
    packet.extend(random.bytes(4 * usize::from(sources)));
    if extended {
        let words = random.below(4);
        packet.extend(random.bytes(2));
        packet.extend([0, words as u8]);
        packet.extend(random.bytes(4 * words));
    }
    if !plain {
        let ages = match run > 0 && random.once_in(20) {
            true => offsets::wrong(random, run),
            false => offsets::falling(random, run),
        };
        for (older, age) in sent[k - run..k].iter().zip(ages) {
            let start = u32::from(settings.t140 | 0x80) << 24;
            let header = start | u32::from(age) << 10 | older.block.len() as u32;
            packet.extend(header.to_be_bytes());
        }
        packet.push(settings.t140);
        for older in &sent[k - run..k] {
            packet.extend(&older.block);
        }
    }
    packet.extend(&sent[k].block);
    if padded {
        let count = random.pick(&[1, 2, 4, 20]);
        packet.extend(random.bytes(count - 1));
        packet.push(count as u8);
    }
    packet
}

//! Changes to packets and texts.

use crate::random::Random;

/// One to several bytes flipped, set, inserted, removed or copied, most often
/// near the front.
pub fn mutate(random: &mut Random, mut bytes: Vec<u8>) -> Vec<u8> {
    const TELLING: [u8; 12] = [
        0x00, 0x01, 0x20, 0x41, 0x62, 0x64, 0x7f, 0x80, 0xbf, 0xe2, 0xed, 0xff,
    ];
    for _ in 0..random.within(1, 4) {
        let place = place(random, bytes.len());
        let value = match random.below(2) {
            0 => random.byte(),
            _ => random.pick(&TELLING),
        };
        if place == bytes.len() {
            bytes.push(value);
            continue;
        }
        match random.below(6) {
            0 | 1 => bytes[place] ^= 1 << random.below(8),
            2 => bytes[place] = value,
            3 => bytes[place] = bytes[place].wrapping_add(random.pick(&[1, 255])),
            4 => bytes.insert(place, value),
            _ => {
                bytes.remove(place);
            }
        }
    }
    bytes
}

fn place(random: &mut Random, length: usize) -> usize {
    match random.below(3) {
        0 => random.within(0, length),
        _ => random.within(0, length.min(40)),
    }
}

/// Ends that cannot stand where a letter begins, or not at a block's end.
pub const BAD: [&[u8]; 14] = [
    &[0x80],
    &[0xbf],
    &[0xc0, 0x80],
    &[0xc1, 0xbf],
    &[0xc3],
    &[0xe0, 0x9f, 0xbf],
    &[0xe2, 0x82],
    &[0xed, 0xa0, 0x80],
    &[0xf0, 0x8f, 0xbf, 0xbf],
    &[0xf0, 0x9f, 0x98],
    &[0xf4, 0x90, 0x80, 0x80],
    &[0xf5, 0x80, 0x80, 0x80],
    &[0xfe],
    &[0xff],
];

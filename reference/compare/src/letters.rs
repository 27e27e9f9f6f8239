//! What is not ASCII, to be laid among it.

use crate::random::Random;

/// The bytes of a letter, or of what is none.
#[derive(Clone, Copy)]
pub struct Letter {
    pub bytes: &'static [u8],
    /// Where among them, or just behind them, the first bad byte lies if
    /// ASCII or the end follows; none where the letter is whole.
    pub bad: Option<usize>,
}

const fn whole(bytes: &'static [u8]) -> Letter {
    Letter { bytes, bad: None }
}

/// Bad from this byte on.
const fn wrong(bytes: &'static [u8], place: usize) -> Letter {
    Letter {
        bytes,
        bad: Some(place),
    }
}

/// Bad as nothing of the letter follows.
const fn cut(bytes: &'static [u8]) -> Letter {
    wrong(bytes, bytes.len())
}

/// The first and the last letter of 2, of 3 and of 4 bytes, and some between.
pub const WHOLE: [Letter; 8] = [
    whole(&[0xc2, 0x80]),
    whole(&[0xc3, 0xa5]),
    whole(&[0xdf, 0xbf]),
    whole(&[0xe0, 0xa0, 0x80]),
    whole(&[0xed, 0x9f, 0xbf]),
    whole(&[0xef, 0xbf, 0xbf]),
    whole(&[0xf0, 0x90, 0x80, 0x80]),
    whole(&[0xf4, 0x8f, 0xbf, 0xbf]),
];

/// Bytes that no letter begins with.
pub const BYTES: [Letter; 8] = [
    wrong(&[0x80], 0),
    wrong(&[0x8f], 0),
    wrong(&[0xbf], 0),
    wrong(&[0xc0], 0),
    wrong(&[0xc1], 0),
    wrong(&[0xf5], 0),
    wrong(&[0xfe], 0),
    wrong(&[0xff], 0),
];

/// Letters cut short after each of their bytes.
pub const CUT: [Letter; 6] = [
    cut(&[0xc3]),
    cut(&[0xe2]),
    cut(&[0xe2, 0x82]),
    cut(&[0xf0]),
    cut(&[0xf0, 0x9f]),
    cut(&[0xf0, 0x9f, 0x98]),
];

/// Letters written too long, surrogates and letters beyond the last one.
pub const WRONG: [Letter; 8] = [
    wrong(&[0xc0, 0x80], 0),
    wrong(&[0xc1, 0xbf], 0),
    wrong(&[0xe0, 0x80, 0x80], 1),
    wrong(&[0xe0, 0x9f, 0xbf], 1),
    wrong(&[0xed, 0xa0, 0x80], 1),
    wrong(&[0xf0, 0x80, 0x80, 0x80], 1),
    wrong(&[0xf0, 0x8f, 0xbf, 0xbf], 1),
    wrong(&[0xf4, 0x90, 0x80, 0x80], 1),
];

/// So many letters of ASCII, any of 00 to 7F.
pub fn ascii(random: &mut Random, length: usize) -> Vec<u8> {
    let mut text = vec![0; length];
    random.fill(&mut text);
    for byte in &mut text {
        *byte &= 0x7f;
    }
    text
}

/// Lays some bytes over others, from this place on.
pub fn lay(bytes: &mut [u8], place: usize, over: &[u8]) {
    bytes[place..place + over.len()].copy_from_slice(over);
}

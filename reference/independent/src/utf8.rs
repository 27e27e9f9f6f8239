use std::ops::RangeInclusive;

const TAIL: RangeInclusive<u8> = 0x80..=0xbf;

/// The number of characters; or, where the text is not UTF-8 (RFC 3629), the
/// place of the first byte at which it can no longer become so. Text that
/// stops inside a letter gives its own length.
pub fn text(bytes: &[u8]) -> Result<usize, usize> {
    let mut place = 0;
    let mut characters = 0;
    while let Some(lead) = bytes.get(place) {
        let (mut allowed, tails) = match lead {
            0x00..=0x7f => (TAIL, 0),
            0xc2..=0xdf => (TAIL, 1),
            0xe0 => (0xa0..=0xbf, 2),
            0xe1..=0xec | 0xee..=0xef => (TAIL, 2),
            0xed => (0x80..=0x9f, 2),
            0xf0 => (0x90..=0xbf, 3),
            0xf1..=0xf3 => (TAIL, 3),
            0xf4 => (0x80..=0x8f, 3),
            0x80..=0xc1 | 0xf5..=0xff => return Err(place),
        };
        place += 1;
        for _ in 0..tails {
            match bytes.get(place) {
                Some(tail) if allowed.contains(tail) => place += 1,
                _ => return Err(place),
            }
            allowed = TAIL;
        }
        characters += 1;
    }
    Ok(characters)
}

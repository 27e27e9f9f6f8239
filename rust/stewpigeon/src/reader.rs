//! Single packets and texts.

use crate::{lent, Refusal};

/// An older block of a RED packet.
#[derive(Clone, Copy, Debug, Default, PartialEq, Eq)]
pub struct Older<'a> {
    /// The timestamp offset: 1 or more, and above that of the block behind it.
    pub offset: u16,
    pub text: &'a [u8],
}

/// An accepted packet; its texts are parts of the caller's bytes.
#[derive(Clone, Copy, Debug, PartialEq, Eq)]
pub struct Packet<'a> {
    pub marker: bool,
    pub sequence: u16,
    pub timestamp: u32,
    pub source: u32,
    pub primary: &'a [u8],
    older: [Older<'a>; Packet::LEVEL],
    count: usize,
}

impl<'a> Packet<'a> {
    /// The most older blocks a packet may carry: the highest level, from 1 to
    /// 7, that the library was built with.
    pub const LEVEL: usize = 7;
    /// The bytes of the shortest packet that is read.
    pub const SHORTEST: usize = 12;
    /// The bytes of the longest packet that is read.
    pub const LONGEST: usize = 1472;

    /// The older blocks, oldest first.
    pub fn older(&self) -> &[Older<'a>] {
        &self.older[..self.count]
    }
}

/// Reads one packet. With `expected`, only packets of that source are
/// accepted.
///
/// ```
/// let packet = [
///     0x80, 0xe4, 0x00, 0x05, 0x00, 0x00, 0x03, 0xe8, 0x11, 0x22, 0x33, 0x44, // RTP
///     0xe2, 0x04, 0xb0, 0x01, 0x62, b'A', b'B', // RED
/// ];
/// let packet = stewpigeon::read(None, 98, 100, &packet)?;
/// assert_eq!(packet.sequence, 5);
/// assert_eq!(packet.older()[0].offset, 300);
/// assert_eq!(packet.older()[0].text, b"A");
/// assert_eq!(packet.primary, b"B");
/// # Ok::<(), stewpigeon::Refusal>(())
/// ```
pub fn read(
    expected: Option<u32>,
    t140: u8,
    red: u8,
    packet: &[u8],
) -> Result<Packet<'_>, Refusal> {
    let expects = u8::from(expected.is_some());
    let source = expected.unwrap_or(0);
    let mut answer = lent::Packet::ZERO;
    let number = lent::read_into(expects, source, t140, red, packet, &mut answer);
    Refusal::check(number)?;
    Ok(accepted(packet, &answer))
}

fn accepted<'a>(packet: &'a [u8], answer: &lent::Packet) -> Packet<'a> {
    let older = |block: lent::Block| Older {
        offset: block.offset,
        text: &packet[block.at..block.at + block.len],
    };
    Packet {
        marker: answer.marker != 0,
        sequence: answer.sequence,
        timestamp: answer.timestamp,
        source: answer.source,
        primary: &packet[answer.primary..answer.end],
        older: answer.older.map(older),
        count: answer.count,
    }
}

/// The number of characters, or the place of the first byte at which the
/// text can no longer be UTF-8.
///
/// ```
/// assert_eq!(stewpigeon::text("aé€".as_bytes()), Ok(3));
/// assert_eq!(stewpigeon::text(&[b'a', 0xff]), Err(1));
/// ```
pub fn text(text: &[u8]) -> Result<usize, usize> {
    let mut answer = lent::TextAnswer::ZERO;
    lent::text_into(text, &mut answer);
    match answer.is_text {
        0 => Err(answer.place),
        _ => Ok(answer.characters),
    }
}

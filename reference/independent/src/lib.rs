//! A second reader, receiver and sender of RTP text packets (RFC 4103), a
//! second receiver that holds packets, and a second journal reader and
//! transcript, to hold the proved ones against. They were written from the
//! buyer's papers and the RFCs alone.
#![forbid(unsafe_code)]

use std::io::{stderr, Write};

pub mod block;
pub mod channel;
pub mod holding;
pub mod journal;
pub mod journals;
pub mod maker;
pub mod offsets;
mod older;
pub mod packets;
pub mod paper;
pub mod random;
pub mod receiver;
pub mod record;
pub mod recorder;
pub mod refusal;
pub mod sender;
pub mod stream;
pub mod transcript;
mod utf8;

pub use older::{Older, OlderBlocks};
pub use utf8::text;

/// The highest number of repeats sent, and of older blocks read: from 1 to 7.
pub const LEVEL: usize = 7;

/// Whether a test is left out because its data need a higher level. It is said
/// also where the tests pass.
pub fn left_out(test: &str, level: usize) -> bool {
    let low = LEVEL < level;
    if low {
        let line = format!("{test}: left out, it needs level {level}\n");
        let _ = stderr().write_all(line.as_bytes());
    }
    low
}

const HEADER: usize = 12;
const LONGEST: usize = 1472;

/// An accepted packet.
#[derive(Clone, Copy, Debug, PartialEq, Eq)]
pub struct Packet<'a> {
    bytes: &'a [u8],
    pub marker: bool,
    pub sequence: u16,
    pub timestamp: u32,
    pub source: u32,
    /// Where the headers of its older blocks start.
    headers: u16,
    /// How many these are.
    count: u8,
    /// Where the primary starts.
    pub start: u16,
    /// Where the primary ends, before any padding.
    pub end: u16,
}

/// What an accepted packet holds, its blocks as places in it.
#[derive(Clone, Debug, PartialEq, Eq)]
pub struct Contents {
    pub marker: bool,
    pub sequence: u16,
    pub timestamp: u32,
    pub source: u32,
    /// The older blocks, oldest first.
    pub older: Vec<Older>,
    /// Where the primary starts.
    pub start: u16,
    /// Where the primary ends.
    pub end: u16,
}

impl<'a> Packet<'a> {
    /// The older blocks, oldest first.
    #[inline]
    pub fn older(&self) -> OlderBlocks<'a> {
        let start = usize::from(self.headers);
        let headers = &self.bytes[start..start + 4 * usize::from(self.count)];
        // The primary's header lies between.
        OlderBlocks::new(headers, self.headers + headers.len() as u16 + 1)
    }

    /// The bytes of one of this packet's older blocks.
    #[inline]
    pub fn block(&self, older: &Older) -> &'a [u8] {
        let start = usize::from(older.start);
        &self.bytes[start..start + usize::from(older.length)]
    }

    #[inline]
    pub fn primary(&self) -> &'a [u8] {
        &self.bytes[usize::from(self.start)..usize::from(self.end)]
    }

    pub fn contents(&self) -> Contents {
        Contents {
            marker: self.marker,
            sequence: self.sequence,
            timestamp: self.timestamp,
            source: self.source,
            older: self.older().collect(),
            start: self.start,
            end: self.end,
        }
    }
}

/// Reads one packet, or gives the number of its refusal. With `expected`,
/// only packets of that source are accepted.
pub fn read(expected: Option<u32>, t140: u8, red: u8, packet: &[u8]) -> Result<Packet<'_>, u8> {
    payload_types(t140, red)?;
    let Some(header) = packet.first_chunk::<HEADER>() else {
        return Err(refusal::SHORT);
    };
    if packet.len() > LONGEST {
        return Err(refusal::LONG);
    }
    if header[0] >> 6 != 2 {
        return Err(refusal::VERSION);
    }
    let start = payload_start(packet)?;
    let end = payload_end(packet, start)?;
    let payload_type = header[1] & 0x7f;
    if payload_type != t140 && payload_type != red {
        return Err(refusal::PAYLOAD_TYPE);
    }
    let source = u32::from_be_bytes([header[8], header[9], header[10], header[11]]);
    if expected.is_some_and(|expected| expected != source) {
        return Err(refusal::SOURCE);
    }
    let mut read = Packet {
        bytes: packet,
        marker: header[1] >> 7 == 1,
        sequence: u16::from_be_bytes([header[2], header[3]]),
        timestamp: u32::from_be_bytes([header[4], header[5], header[6], header[7]]),
        source,
        headers: start as u16,
        count: 0,
        start: start as u16,
        end: end as u16,
    };
    if payload_type == red {
        read.block_headers(t140)?;
        read.pass_older()?;
    }
    for older in read.older() {
        well_formed(read.block(&older))?;
    }
    well_formed(read.primary())?;
    Ok(read)
}

/// Both payload types are dynamic ones, and they differ.
#[inline]
fn payload_types(t140: u8, red: u8) -> Result<(), u8> {
    let dynamic = 96..=127;
    if !dynamic.contains(&t140) || !dynamic.contains(&red) || t140 == red {
        return Err(refusal::SETTINGS);
    }
    Ok(())
}

/// Where the payload starts, past the source list and the extension.
#[inline]
fn payload_start(packet: &[u8]) -> Result<usize, u8> {
    let sources = usize::from(packet[0] & 0x0f);
    let mut start = HEADER + 4 * sources;
    if packet[0] & 0x10 != 0 {
        let Some(count) = packet.get(start + 2..start + 4) else {
            return Err(refusal::HEADER_END);
        };
        start += 4 + 4 * usize::from(u16::from_be_bytes([count[0], count[1]]));
    }
    if start > packet.len() {
        return Err(refusal::HEADER_END);
    }
    Ok(start)
}

/// Where the payload ends, before any padding.
#[inline]
fn payload_end(packet: &[u8], start: usize) -> Result<usize, u8> {
    if packet[0] & 0x20 == 0 {
        return Ok(packet.len());
    }
    let Some(&count) = packet[start..].last() else {
        return Err(refusal::PADDING);
    };
    let count = usize::from(count);
    if count == 0 || count > packet.len() - start {
        return Err(refusal::PADDING);
    }
    Ok(packet.len() - count)
}

#[inline]
fn well_formed(block: &[u8]) -> Result<(), u8> {
    match std::str::from_utf8(block) {
        Ok(_) => Ok(()),
        Err(_) => Err(refusal::UTF8),
    }
}

impl Packet<'_> {
    /// Reads the RED block headers (RFC 2198) and moves `start` past them;
    /// from there to `end` is what is left of the payload.
    #[inline]
    fn block_headers(&mut self, t140: u8) -> Result<(), u8> {
        loop {
            let left = &self.bytes[usize::from(self.start)..usize::from(self.end)];
            let Some(&first) = left.first() else {
                return Err(refusal::BLOCK_HEADERS_END);
            };
            if first & 0x80 == 0 {
                if first != t140 {
                    return Err(refusal::BLOCK_TYPE);
                }
                self.start += 1;
                return Ok(());
            }
            if usize::from(self.count) == LEVEL {
                return Err(refusal::OLDER_TOO_MANY);
            }
            if left.len() < 4 {
                return Err(refusal::BLOCK_HEADERS_END);
            }
            if first & 0x7f != t140 {
                return Err(refusal::BLOCK_TYPE);
            }
            self.count += 1;
            self.start += 4;
        }
    }

    /// Moves `start` past the older blocks. Each must be older than the next,
    /// and the last than the primary.
    #[inline]
    fn pass_older(&mut self) -> Result<(), u8> {
        let mut falls = true;
        let mut least = u16::MAX;
        for older in self.older() {
            self.start += older.length;
            falls &= older.offset < least;
            least = older.offset;
        }
        if self.start > self.end {
            return Err(refusal::BLOCKS_END);
        }
        if !falls || least == 0 {
            return Err(refusal::BLOCK_AGES);
        }
        Ok(())
    }
}

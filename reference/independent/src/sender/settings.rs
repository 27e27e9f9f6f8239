//! What a sender is opened with.

use crate::{payload_types, refusal, LEVEL};

const LONGEST_BUFFERING: u64 = 500;
const HIGHEST_RATE: usize = 100;

#[derive(Clone, Copy, Debug, PartialEq, Eq)]
pub struct Settings {
    /// How many older blocks each packet repeats, at most [`LEVEL`].
    pub level: usize,
    /// The buffering time in ms.
    pub buffering: u64,
    /// The most characters per second, as a mean over any ten seconds.
    pub rate: usize,
    pub t140: u8,
    pub red: u8,
    /// The first packet's sequence number.
    pub sequence: u16,
    /// The timestamp of clock 0.
    pub timestamp: u32,
    pub source: u32,
}

impl Settings {
    #[inline]
    pub(super) fn check(&self) -> Result<(), u8> {
        if self.level > LEVEL {
            return Err(refusal::LEVEL);
        }
        if self.buffering == 0 || self.buffering > LONGEST_BUFFERING {
            return Err(refusal::BUFFERING);
        }
        payload_types(self.t140, self.red)?;
        if self.rate == 0 || self.rate > HIGHEST_RATE {
            return Err(refusal::RATE);
        }
        Ok(())
    }
}

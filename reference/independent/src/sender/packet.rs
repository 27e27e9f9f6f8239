//! The packets that a sender writes.

use std::mem::take;

use super::{Draft, Sender, KEPT};
use crate::block::{Block, ROOM};
use crate::{HEADER, LEVEL, LONGEST};

/// The longest packet written: as many older blocks as there can be, and a
/// primary.
pub const LONGEST_PACKET: usize = HEADER + 4 * LEVEL + 1 + KEPT * ROOM;

const _: () = assert!(
    1 <= LEVEL && LONGEST_PACKET <= LONGEST,
    "LEVEL is from 1 to 7: every packet written must be read"
);

impl Sender {
    fn marker(&self, draft: &Draft) -> bool {
        if self.last_packet.is_none() {
            return true;
        }
        match self.last_text {
            Some(last) if draft.front > 0 => self.waiting().clock - last > self.settings.buffering,
            _ => false,
        }
    }

    pub(super) fn length(&self, draft: &Draft) -> usize {
        let headers = match self.settings.level {
            0 => 0,
            _ => 4 * draft.run + 1,
        };
        let repeated: usize = self.repeats(draft.run).map(Block::len).sum();
        HEADER + headers + repeated + draft.front
    }

    /// Writes the packet into space of its length.
    pub(super) fn write(&self, draft: &Draft, packet: &mut [u8]) {
        let Draft { clock, run, .. } = *draft;
        let settings = &self.settings;
        let plain = settings.level == 0;
        let payload_type = if plain { settings.t140 } else { settings.red };
        let timestamp = settings.timestamp.wrapping_add(clock as u32);
        let mut rest = packet;
        put(
            &mut rest,
            &[0x80, u8::from(self.marker(draft)) << 7 | payload_type],
        );
        put(&mut rest, &self.sequence.to_be_bytes());
        put(&mut rest, &timestamp.to_be_bytes());
        put(&mut rest, &settings.source.to_be_bytes());
        if !plain {
            for block in self.repeats(run) {
                let offset = (clock - block.clock) as u32;
                let header =
                    u32::from(0x80 | settings.t140) << 24 | offset << 10 | block.len() as u32;
                put(&mut rest, &header.to_be_bytes());
            }
            put(&mut rest, &[settings.t140]);
        }
        for block in self.repeats(run) {
            put(&mut rest, block.text());
        }
        put(&mut rest, &self.waiting().text()[..draft.front]);
    }
}

/// Puts bytes at the front of the space and leaves the rest of it.
#[inline]
fn put(rest: &mut &mut [u8], bytes: &[u8]) {
    let (place, behind) = take(rest).split_at_mut(bytes.len());
    place.copy_from_slice(bytes);
    *rest = behind;
}

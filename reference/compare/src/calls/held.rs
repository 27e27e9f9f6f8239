//! A sender's record and texts, what they mean, and what a call writes to
//! them. Its log is apart.

use super::log::behind;
use stewpigeon::lent::{Progress, Sender, Settings, Texts};

/// The longest text in a slot.
pub const ROOM: usize = 160;
/// The most blocks that are kept.
pub const KEPT: usize = stewpigeon::Sender::LEVEL;
/// One for the text that waits, and one for each block.
pub const SLOTS: usize = KEPT + 1;

/// The slot in which text waits.
pub fn room(sender: &Sender) -> usize {
    match sender.room {
        room @ 0..SLOTS => room,
        _ => 0,
    }
}

#[derive(Clone, Copy, Debug, PartialEq, Eq)]
pub struct Held {
    pub record: Sender,
    pub texts: Texts,
}

impl Held {
    /// What a refused opening gives.
    pub const ZERO: Held = Held {
        record: Sender::ZERO,
        texts: [0; SLOTS * ROOM],
    };

    /// Behind an accepted offer of so many characters: the text lies behind
    /// what waits.
    pub fn offered(&self, clock: u64, text: &[u8], characters: usize) -> Held {
        let mut held = *self;
        let waits = self.record.len.min(ROOM);
        let place = room(&self.record) * ROOM + waits;
        held.texts[place..][..text.len()].copy_from_slice(text);
        held.record.clock = clock;
        held.record.len = waits + text.len();
        held.record.characters = self.record.characters.min(ROOM) + characters;
        if waits == 0 {
            held.record.since = clock;
        }
        held
    }

    /// Behind a quiet call.
    pub fn at(&self, clock: u64) -> Held {
        let mut held = *self;
        held.record.clock = clock;
        held
    }

    /// Behind a packet that takes so many bytes and characters of what waits:
    /// they are the newest block where they lie, and the rest goes on to the
    /// next slot.
    pub fn sent(&self, clock: u64, taken: usize, characters: usize) -> Held {
        let before = &self.record;
        let (mut lens, mut ats) = (before.lens, before.ats);
        lens.rotate_right(1);
        ats.rotate_right(1);
        (lens[0], ats[0]) = (taken, clock);
        let (room, waits) = (room(before), before.len.min(ROOM));
        let next = (room + 1) % SLOTS;
        let by_text = |some, none| if taken > 0 { some } else { none };
        let record = Sender {
            settings: before.settings,
            clock,
            room: next,
            len: waits - taken,
            characters: before.characters.min(ROOM) - characters,
            since: by_text(clock, before.since),
            lens,
            ats,
            count: before.count.min(KEPT - 1) + 1,
            pace: behind(before, characters),
            progress: Progress {
                sent: 1,
                last: clock,
                last_text: by_text(clock, before.progress.last_text),
                next: before.progress.next.wrapping_add(1),
            },
        };
        let mut texts = self.texts;
        let rest = room * ROOM + taken..room * ROOM + waits;
        texts.copy_within(rest, next * ROOM);
        Held { record, texts }
    }

    /// With blocks' lengths as far as they count.
    pub fn counted(mut self) -> Held {
        self.record.lens = self.record.lens.map(|len| len.min(ROOM));
        self
    }
}

/// A block sent and when it was.
#[derive(Clone, Debug, PartialEq, Eq)]
pub struct Block {
    pub text: Vec<u8>,
    pub at: u64,
}

/// What record and texts mean.
#[derive(Clone, Debug, PartialEq, Eq)]
pub struct Meaning {
    pub settings: Settings,
    pub clock: u64,
    pub waiting: Vec<u8>,
    /// How many characters wait.
    pub characters: usize,
    /// When the first of them was offered, or left behind.
    pub since: u64,
    /// The last blocks sent, newest first.
    pub blocks: Vec<Block>,
    pub progress: Progress,
}

impl Meaning {
    pub fn of(held: &Held) -> Meaning {
        let record = &held.record;
        let room = room(record);
        let text = |slot: usize, len: usize| {
            let slot = &held.texts[slot * ROOM..(slot + 1) * ROOM];
            slot[..len.min(ROOM)].to_vec()
        };
        let block = |i: usize| Block {
            text: text((room + SLOTS - (i + 1)) % SLOTS, record.lens[i]),
            at: record.ats[i],
        };
        Meaning {
            settings: record.settings,
            clock: record.clock,
            waiting: text(room, record.len),
            characters: record.characters.min(ROOM),
            since: record.since,
            blocks: (0..record.count.min(KEPT)).map(block).collect(),
            progress: record.progress,
        }
    }
}

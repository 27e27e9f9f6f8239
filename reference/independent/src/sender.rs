//! The sender: waiting text, the due rule and what is kept of packets sent.
//! No call but the opening allocates.

mod packet;
mod rate;
mod settings;

use crate::block::{Block, ROOM};
use crate::{refusal, text, LEVEL};
pub use packet::LONGEST_PACKET;
use rate::Spent;
pub use settings::Settings;

/// The greatest age in ms at which a block is still repeated.
pub const OLDEST: u64 = 16_383;

/// The waiting room and the last blocks sent.
const KEPT: usize = 1 + LEVEL;

#[derive(Clone, Debug)]
pub struct Sender {
    settings: Settings,
    /// The latest accepted clock.
    latest: u64,
    /// In a circle: the waiting room, and before it the last blocks sent.
    kept: [Block; KEPT],
    /// Where the waiting room is among them.
    room: usize,
    /// How many blocks are kept that were sent.
    count: usize,
    spent: Spent,
    /// The next packet's sequence number.
    sequence: u16,
    last_packet: Option<u64>,
    last_text: Option<u64>,
}

/// A packet that is due.
#[derive(Clone, Copy)]
struct Draft {
    clock: u64,
    /// How many blocks it repeats.
    run: usize,
    /// How many bytes of the text that waits it takes.
    front: usize,
    /// And how many characters these are.
    characters: usize,
}

/// What comes of a clock call.
#[derive(Clone, Copy, Debug, PartialEq, Eq)]
pub enum Clocked {
    Refused(u8),
    Quiet,
    /// A packet of this length was written.
    Sent(usize),
}

impl Sender {
    pub fn open(settings: Settings) -> Result<Self, u8> {
        settings.check()?;
        Ok(Self::with(settings))
    }

    /// What stands beside a refused opening; it answers 2 to every call.
    pub fn zero() -> Self {
        Self::with(Settings {
            level: 0,
            buffering: 0,
            rate: 0,
            t140: 0,
            red: 0,
            sequence: 0,
            timestamp: 0,
            source: 0,
        })
    }

    fn with(settings: Settings) -> Self {
        Sender {
            settings,
            latest: 0,
            kept: [Block::EMPTY; KEPT],
            room: 0,
            count: 0,
            spent: Spent::new(settings.rate),
            sequence: settings.sequence,
            last_packet: None,
            last_text: None,
        }
    }

    #[inline]
    pub fn settings(&self) -> &Settings {
        &self.settings
    }

    /// The latest accepted clock.
    #[inline]
    pub fn latest(&self) -> u64 {
        self.latest
    }

    /// The text that waits and when its first byte was offered, or left
    /// behind by a packet; clock 0 when nothing waits.
    #[inline]
    pub fn waiting(&self) -> &Block {
        &self.kept[self.room]
    }

    /// The next packet's sequence number.
    #[inline]
    pub fn sequence(&self) -> u16 {
        self.sequence
    }

    /// The last blocks sent, at most [`LEVEL`] at every level, newest first.
    #[inline]
    pub fn blocks(&self) -> impl Iterator<Item = &Block> {
        (1..=self.count).map(|back| self.back(back))
    }

    /// When packets with text were sent and how many characters each had,
    /// oldest first, in the ten seconds before the last packet.
    #[inline]
    pub fn spent(&self) -> impl Iterator<Item = (u64, usize)> + '_ {
        self.spent.packets()
    }

    /// When the last packet was sent.
    #[inline]
    pub fn last_packet(&self) -> Option<u64> {
        self.last_packet
    }

    /// When the last packet with text was sent.
    #[inline]
    pub fn last_text(&self) -> Option<u64> {
        self.last_text
    }

    /// Puts text into the waiting room.
    #[inline]
    pub fn offer(&mut self, clock: u64, offered: &[u8]) -> Result<(), u8> {
        self.settings.check()?;
        if clock < self.latest {
            return Err(refusal::CLOCK);
        }
        if offered.is_empty() {
            return Err(refusal::EMPTY);
        }
        let Ok(characters) = text(offered) else {
            return Err(refusal::OFFERED_UTF8);
        };
        let waiting = &mut self.kept[self.room];
        if offered.len() > ROOM - waiting.len() {
            return Err(refusal::ROOM);
        }
        if waiting.is_empty() {
            waiting.clock = clock;
        }
        waiting.join(offered, characters);
        self.latest = clock;
        Ok(())
    }

    /// Writes the packet due at `clock`, if one is.
    #[inline]
    pub fn clock(&mut self, clock: u64, space: &mut [u8]) -> Clocked {
        let draft = match self.draft(clock) {
            Err(number) => return Clocked::Refused(number),
            Ok(None) => {
                self.latest = clock;
                return Clocked::Quiet;
            }
            Ok(Some(draft)) => draft,
        };
        let length = self.length(&draft);
        let Some(packet) = space.get_mut(..length) else {
            return Clocked::Refused(refusal::SPACE);
        };
        self.write(&draft, packet);
        self.sent(&draft);
        Clocked::Sent(length)
    }

    /// How long the packet is that is due at `clock`, if one is.
    pub fn length_due(&self, clock: u64) -> Option<usize> {
        let draft = self.draft(clock).ok().flatten();
        draft.map(|draft| self.length(&draft))
    }

    /// The packet due at `clock`, if one is, or the refusal's number.
    #[inline]
    fn draft(&self, clock: u64) -> Result<Option<Draft>, u8> {
        self.settings.check()?;
        if clock < self.latest {
            return Err(refusal::CLOCK);
        }
        Ok(self.due(clock))
    }

    /// The block sent so many packets before the next one.
    #[inline]
    fn back(&self, back: usize) -> &Block {
        &self.kept[(self.room + KEPT - back) % KEPT]
    }

    /// How many blocks a packet at `clock` repeats. No block was sent after
    /// `clock`.
    #[inline]
    fn run(&self, clock: u64) -> usize {
        let recent = self.blocks().take(self.settings.level);
        let fresh = |block: &&Block| clock - block.clock <= OLDEST;
        recent.take_while(fresh).count()
    }

    /// The last `run` blocks, oldest first.
    #[inline]
    fn repeats(&self, run: usize) -> impl Iterator<Item = &Block> {
        (1..=run).rev().map(|back| self.back(back))
    }

    /// How much of the text that waits may be sent at `clock`, in whole
    /// characters: the bytes and the characters.
    #[inline]
    fn front(&self, clock: u64) -> (usize, usize) {
        let waiting = self.waiting();
        if waiting.is_empty() {
            return (0, 0);
        }
        let characters = waiting.characters().min(self.spent.free(clock));
        (waiting.front(characters), characters)
    }

    #[inline]
    fn due(&self, clock: u64) -> Option<Draft> {
        let rested = match self.last_packet {
            None => true,
            Some(last) => clock - last >= self.settings.buffering,
        };
        if !rested {
            return None;
        }
        let run = self.run(clock);
        let (front, characters) = self.front(clock);
        let text = front > 0 || self.repeats(run).any(|block| !block.is_empty());
        text.then_some(Draft {
            clock,
            run,
            front,
            characters,
        })
    }

    /// A front of the waiting room has gone out as a primary. What it left
    /// behind counts as offered now; what was held back whole does not.
    fn sent(&mut self, draft: &Draft) {
        let clock = draft.clock;
        let next = (self.room + 1) % KEPT;
        let [primary, rest] = self
            .kept
            .get_disjoint_mut([self.room, next])
            .expect("two of several");
        let offered = primary.clock;
        primary.split_into(draft.front, draft.characters, rest);
        primary.clock = clock;
        if !primary.is_empty() {
            self.last_text = Some(clock);
        }
        rest.clock = match (rest.is_empty(), primary.is_empty()) {
            (true, _) => 0,
            (false, true) => offered,
            (false, false) => clock,
        };
        self.latest = clock;
        self.last_packet = Some(clock);
        self.spent.spend(clock, draft.characters);
        self.sequence = self.sequence.wrapping_add(1);
        self.room = next;
        self.count = LEVEL.min(self.count + 1);
    }
}

/// Blocks no longer kept do not count.
impl PartialEq for Sender {
    fn eq(&self, other: &Sender) -> bool {
        self.settings == other.settings
            && self.latest == other.latest
            && self.waiting() == other.waiting()
            && self.blocks().eq(other.blocks())
            && self.spent == other.spent
            && self.sequence == other.sequence
            && self.last_packet == other.last_packet
            && self.last_text == other.last_text
    }
}

impl Eq for Sender {}

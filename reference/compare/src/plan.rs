//! Packets built from their parts, so that what a reader must answer is known
//! without reading them.

use crate::random::Random;
use independent::{offsets, LEVEL};
use stewpigeon::lent::{Block, Packet};

pub const T140: u8 = 98;
pub const RED: u8 = 100;
pub const LONGEST: usize = 1472;

#[derive(Clone)]
pub struct Plan {
    pub marker: bool,
    pub payload_type: u8,
    pub sequence: u16,
    pub timestamp: u32,
    pub source: u32,
    /// The source list, 4 bytes each.
    pub sources: Vec<u8>,
    /// The extension: 2 bytes, a 16-bit count of words, the words.
    pub extension: Option<Vec<u8>>,
    /// Timestamp offset and text of each older block, oldest first.
    pub older: Vec<(u16, Vec<u8>)>,
    pub primary: Vec<u8>,
    /// The padding, its count included; empty for none.
    pub padding: Vec<u8>,
}

impl Plan {
    /// A plain packet without blocks.
    pub fn new(random: &mut Random, payload_type: u8) -> Plan {
        Plan {
            marker: random.once_in(2),
            payload_type,
            sequence: random.number() as u16,
            timestamp: random.number() as u32,
            source: random.number() as u32,
            sources: vec![],
            extension: None,
            older: vec![],
            primary: vec![],
            padding: vec![],
        }
    }

    /// A good T140 packet.
    pub fn t140(random: &mut Random) -> Plan {
        let mut plan = Plan::new(random, T140);
        plan.dress(random);
        let length = size(random, plan.room());
        plan.primary = random.text(length);
        plan
    }

    /// A good RED packet with `count` older blocks, at most [`LEVEL`].
    pub fn red(random: &mut Random, count: usize) -> Plan {
        let mut plan = Plan::new(random, RED);
        plan.dress(random);
        for age in offsets::falling(random, count) {
            plan.older.push((age, vec![]));
        }
        for place in 0..count {
            let length = size(random, plan.room().min(1023));
            plan.older[place].1 = random.text(length);
        }
        let length = size(random, plan.room());
        plan.primary = random.text(length);
        plan
    }

    /// A good packet of either type.
    pub fn good(random: &mut Random) -> Plan {
        match random.within(0, LEVEL + 1) {
            count @ 0..=LEVEL => Plan::red(random, count),
            _ => Plan::t140(random),
        }
    }

    /// A good RED packet of small blocks in a bare header.
    pub fn small_red(random: &mut Random, count: usize) -> Plan {
        let mut plan = Plan::new(random, RED);
        for age in offsets::falling(random, count) {
            let length = random.below(7);
            plan.older.push((age, random.text(length)));
        }
        let length = random.below(7);
        plan.primary = random.text(length);
        plan
    }

    /// The text of the block at this place, the primary behind the last
    /// older one.
    pub fn block(&mut self, place: usize) -> &mut Vec<u8> {
        match self.older.get_mut(place) {
            Some(older) => &mut older.1,
            None => &mut self.primary,
        }
    }

    /// Gives the older blocks other offsets.
    pub fn date(&mut self, ages: Vec<u16>) {
        for (older, age) in self.older.iter_mut().zip(ages) {
            older.0 = age;
        }
    }

    /// Gives the older blocks, if there are any, offsets that are refused.
    pub fn misdate(&mut self, random: &mut Random) {
        if !self.older.is_empty() {
            self.date(offsets::wrong(random, self.older.len()));
        }
    }

    /// Now and then a source list, an extension and padding.
    pub fn dress(&mut self, random: &mut Random) {
        if random.once_in(5) {
            self.add_sources(random);
        }
        if random.once_in(5) {
            self.add_extension(random);
        }
        if random.once_in(5) {
            let count = random.within(1, 255);
            self.pad(random, count);
        }
    }

    pub fn add_sources(&mut self, random: &mut Random) {
        let count = random.below(16);
        self.sources = random.bytes(4 * count);
    }

    pub fn add_extension(&mut self, random: &mut Random) {
        let words = random.below(20);
        let mut extension = random.bytes(2);
        extension.extend((words as u16).to_be_bytes());
        extension.extend(random.bytes(4 * words));
        self.extension = Some(extension);
    }

    pub fn pad(&mut self, random: &mut Random, count: usize) {
        self.padding = random.bytes(count - 1);
        self.padding.push(count as u8);
    }

    /// The bytes still free in a packet of the greatest length.
    pub fn room(&self) -> usize {
        LONGEST - self.bytes().len()
    }

    /// Where the payload starts.
    pub fn payload(&self) -> usize {
        12 + self.sources.len() + self.extension.as_ref().map_or(0, Vec::len)
    }

    /// Where the first block starts.
    pub fn blocks(&self) -> usize {
        match self.payload_type {
            RED => self.payload() + 4 * self.older.len() + 1,
            _ => self.payload(),
        }
    }

    pub fn bytes(&self) -> Vec<u8> {
        let padded = u8::from(!self.padding.is_empty());
        let extended = u8::from(self.extension.is_some());
        let sources = (self.sources.len() / 4) as u8;
        let mut bytes = vec![
            0x80 | padded << 5 | extended << 4 | sources,
            u8::from(self.marker) << 7 | self.payload_type,
        ];
        bytes.extend(self.sequence.to_be_bytes());
        bytes.extend(self.timestamp.to_be_bytes());
        bytes.extend(self.source.to_be_bytes());
        bytes.extend(&self.sources);
        bytes.extend(self.extension.iter().flatten());
        if self.payload_type == RED {
            for (offset, text) in &self.older {
                let header = u32::from(*offset) << 10 | text.len() as u32;
                bytes.push(0x80 | T140);
                bytes.extend(&header.to_be_bytes()[1..]);
            }
            bytes.push(T140);
        }
        for (_, text) in &self.older {
            bytes.extend(text);
        }
        bytes.extend(&self.primary);
        bytes.extend(&self.padding);
        bytes
    }

    /// The answer due to these parts, where they make a good packet.
    pub fn answer(&self) -> Packet {
        let mut place = self.blocks();
        let mut older = Packet::ZERO.older;
        for (block, (offset, text)) in older.iter_mut().zip(&self.older) {
            *block = Block {
                offset: *offset,
                at: place,
                len: text.len(),
            };
            place += text.len();
        }
        Packet {
            marker: self.marker.into(),
            sequence: self.sequence,
            timestamp: self.timestamp,
            source: self.source,
            count: self.older.len(),
            older,
            primary: place,
            end: place + self.primary.len(),
        }
    }
}

/// A block's size: mostly small, at times any or all of the room.
fn size(random: &mut Random, room: usize) -> usize {
    match random.below(20) {
        0 => room,
        1 | 2 => random.within(0, room),
        _ => random.within(0, room.min(24)),
    }
}

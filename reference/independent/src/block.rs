//! Text and its time, in place and not on the heap.

use std::fmt::{self, Debug, Formatter};

/// How many bytes may wait, and so the longest block written.
pub const ROOM: usize = 160;

/// At most 160 bytes, in whole characters, with a time: when the first of them
/// was offered while they wait, when they were sent afterwards.
#[derive(Clone)]
pub struct Block {
    pub clock: u64,
    length: usize,
    characters: usize,
    bytes: [u8; ROOM],
}

impl Block {
    pub(crate) const EMPTY: Block = Block {
        clock: 0,
        length: 0,
        characters: 0,
        bytes: [0; ROOM],
    };

    #[inline]
    pub fn text(&self) -> &[u8] {
        &self.bytes[..self.length]
    }

    #[inline]
    pub fn len(&self) -> usize {
        self.length
    }

    #[inline]
    pub fn is_empty(&self) -> bool {
        self.length == 0
    }

    #[inline]
    pub fn characters(&self) -> usize {
        self.characters
    }

    /// Adds text of so many characters, for which there must be room.
    #[inline]
    pub(crate) fn join(&mut self, text: &[u8], characters: usize) {
        self.bytes[self.length..][..text.len()].copy_from_slice(text);
        self.length += text.len();
        self.characters += characters;
    }

    /// How many bytes the first so many characters have.
    #[inline]
    pub(crate) fn front(&self, characters: usize) -> usize {
        if characters >= self.characters {
            return self.length;
        }
        let mut starts = (0..self.length).filter(|place| self.bytes[*place] & 0xc0 != 0x80);
        starts.nth(characters).unwrap_or(self.length)
    }

    /// Keeps its first so many bytes and characters; the rest is all that the
    /// other block has then.
    #[inline]
    pub(crate) fn split_into(&mut self, length: usize, characters: usize, rest: &mut Block) {
        let behind = &self.bytes[length..self.length];
        rest.bytes[..behind.len()].copy_from_slice(behind);
        rest.length = behind.len();
        rest.characters = self.characters - characters;
        self.length = length;
        self.characters = characters;
    }
}

impl PartialEq for Block {
    fn eq(&self, other: &Block) -> bool {
        (self.clock, self.text()) == (other.clock, other.text())
    }
}

impl Eq for Block {}

impl Debug for Block {
    fn fmt(&self, f: &mut Formatter<'_>) -> fmt::Result {
        f.debug_struct("Block")
            .field("clock", &self.clock)
            .field("text", &self.text())
            .finish()
    }
}

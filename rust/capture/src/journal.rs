//! Writes a journal: records of one kind byte and a body whose length the
//! kind fixes.

const END: u8 = 0;
const OPEN: u8 = 1;
const PACKET: u8 = 2;
const PIECE: u8 = 3;
const TIME: u8 = 4;

const PIECE_BODY: usize = 16;

/// The longest packet that a journal can hold.
pub const LONGEST: usize = 1488;

/// A journal that grows by one record after the other.
#[derive(Debug)]
pub struct Journal {
    bytes: Vec<u8>,
}

impl Journal {
    pub fn open(t140: u8, red: u8) -> Self {
        Journal {
            bytes: vec![OPEN, t140, red],
        }
    }

    pub fn time(&mut self, milliseconds: u64) {
        self.bytes.push(TIME);
        self.bytes.extend(milliseconds.to_be_bytes());
    }

    /// A packet of at most `LONGEST` bytes: its length, then its pieces, of
    /// which the last is filled with zeros.
    pub fn packet(&mut self, packet: &[u8]) {
        self.bytes.push(PACKET);
        self.bytes.extend((packet.len() as u16).to_be_bytes());
        for part in packet.chunks(PIECE_BODY) {
            self.bytes.push(PIECE);
            self.bytes.extend(part);
            let filled = self.bytes.len() + PIECE_BODY - part.len();
            self.bytes.resize(filled, 0);
        }
    }

    pub fn length(&self) -> usize {
        self.bytes.len()
    }

    pub fn end(mut self) -> Vec<u8> {
        self.bytes.push(END);
        self.bytes
    }
}

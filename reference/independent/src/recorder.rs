//! Writes journals, good ones and others.

use crate::journal::{END, OPEN, PACKET, PIECE, PIECE_BODY, TIME};

/// A journal that grows by one record after the other.
#[derive(Clone, Debug, Default)]
pub struct Recorder {
    pub bytes: Vec<u8>,
}

impl Recorder {
    /// A journal that starts with an open record.
    pub fn open(t140: u8, red: u8) -> Self {
        Recorder::default().and_open(t140, red)
    }

    pub fn and_open(self, t140: u8, red: u8) -> Self {
        self.record(OPEN, &[t140, red])
    }

    pub fn time(self, time: u64) -> Self {
        self.record(TIME, &time.to_be_bytes())
    }

    /// A packet with all its pieces; its length must fit in 16 bits.
    pub fn packet(self, packet: &[u8]) -> Self {
        let length = packet.len() as u16;
        packet
            .chunks(PIECE_BODY)
            .fold(self.length(length), Recorder::piece)
    }

    /// A packet's first record, without the pieces.
    pub fn length(self, length: u16) -> Self {
        self.record(PACKET, &length.to_be_bytes())
    }

    /// A piece of at most 16 bytes, filled with zeros.
    pub fn piece(self, part: &[u8]) -> Self {
        let mut body = [0; PIECE_BODY];
        body[..part.len()].copy_from_slice(part);
        self.record(PIECE, &body)
    }

    pub fn end(self) -> Vec<u8> {
        self.record(END, &[]).bytes
    }

    pub fn record(mut self, kind: u8, body: &[u8]) -> Self {
        self.bytes.push(kind);
        self.bytes.extend(body);
        self
    }

    /// Any bytes.
    pub fn bytes(mut self, bytes: &[u8]) -> Self {
        self.bytes.extend(bytes);
        self
    }
}

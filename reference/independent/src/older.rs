//! The older blocks of a packet, as their headers (RFC 2198) tell.

use std::slice;

/// An older block of a RED packet, as a place in the packet.
#[derive(Clone, Copy, Debug, Default, PartialEq, Eq)]
pub struct Older {
    /// The timestamp offset: 1 or more, and above that of the block behind it.
    pub offset: u16,
    pub start: u16,
    pub length: u16,
}

/// The older blocks of a packet, oldest first. They are read from its headers
/// each time, so that a packet is small whatever it may hold.
#[derive(Clone, Debug)]
pub struct OlderBlocks<'a> {
    headers: slice::Iter<'a, [u8; 4]>,
    /// Where the next block starts.
    start: u16,
}

impl<'a> OlderBlocks<'a> {
    /// The blocks of these headers, from this place on.
    #[inline]
    pub(crate) fn new(headers: &'a [u8], start: u16) -> Self {
        let headers = headers.as_chunks().0.iter();
        OlderBlocks { headers, start }
    }
}

impl Iterator for OlderBlocks<'_> {
    type Item = Older;

    #[inline]
    fn next(&mut self) -> Option<Older> {
        let header = u32::from_be_bytes(*self.headers.next()?);
        let older = Older {
            offset: (header >> 10 & 0x3fff) as u16,
            start: self.start,
            length: (header & 0x3ff) as u16,
        };
        self.start += older.length;
        Some(older)
    }

    #[inline]
    fn size_hint(&self) -> (usize, Option<usize>) {
        self.headers.size_hint()
    }
}

impl ExactSizeIterator for OlderBlocks<'_> {}

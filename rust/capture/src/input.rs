//! A capture, read as it comes.

use std::io::{self, BufRead, Read};

/// The most bytes held of a packet or block: more than any IP packet and
/// what lies below it. What follows is counted and passed over.
pub const HELD: usize = 1 << 18;

/// Bytes to come, and the place of the next one.
pub struct Input<R> {
    bytes: R,
    pub place: u64,
}

impl<R: BufRead> Input<R> {
    pub fn new(bytes: R) -> Self {
        Input { bytes, place: 0 }
    }

    /// Reads this many bytes, or as many as are left, into `held`, which
    /// takes the first of them. Says how many there were.
    pub fn read(&mut self, count: usize, held: &mut Vec<u8>) -> Result<usize, String> {
        held.clear();
        let kept = count.min(HELD);
        let told = |error: io::Error| error.to_string();
        let mut got = (&mut self.bytes).take(kept as u64);
        got.read_to_end(held).map_err(told)?;
        let mut read = held.len() as u64;
        if held.len() == kept && kept < count {
            let mut rest = (&mut self.bytes).take((count - kept) as u64);
            read += io::copy(&mut rest, &mut io::sink()).map_err(told)?;
        }
        self.place += read;
        Ok(read as usize)
    }

    /// Whether nothing is left.
    pub fn is_at_end(&mut self) -> Result<bool, String> {
        loop {
            match self.bytes.fill_buf() {
                Err(error) if error.kind() == io::ErrorKind::Interrupted => {}
                filled => {
                    let bytes = filled.map_err(|error| error.to_string())?;
                    return Ok(bytes.is_empty());
                }
            }
        }
    }

    /// Gives each byte to come.
    pub fn each(&mut self, mut take: impl FnMut(u8) -> Result<(), String>) -> Result<(), String> {
        while !self.is_at_end()? {
            let bytes = self.bytes.fill_buf().map_err(|error| error.to_string())?;
            bytes.iter().try_for_each(|&byte| take(byte))?;
            let count = bytes.len();
            self.bytes.consume(count);
            self.place += count as u64;
        }
        Ok(())
    }
}

/// The first bytes, as many as tell the kind of a capture.
pub fn head(bytes: &mut impl Read) -> Result<Vec<u8>, String> {
    let mut head = vec![];
    let read = bytes.take(6).read_to_end(&mut head);
    read.map_err(|error| error.to_string())?;
    Ok(head)
}

//! Packets as hex lines, one packet to a line.

use std::io::BufRead;

use crate::input::Input;
use crate::journal::LONGEST;

/// Whether a capture is of this kind: it starts with a hex digit or a
/// comment, maybe after blanks.
pub fn starts(head: &[u8]) -> bool {
    match head.iter().find(|byte| !byte.is_ascii_whitespace()) {
        Some(&byte) => byte == b'#' || byte.is_ascii_hexdigit(),
        None => head.len() == 6,
    }
}

/// A packet with its line's number.
#[derive(Clone, Debug, Default)]
pub struct Line {
    pub number: usize,
    /// Its bytes, as many as a journal can hold.
    pub packet: Vec<u8>,
    /// How many it has.
    pub length: usize,
}

/// A line, as far as it has come.
#[derive(Default)]
struct Reader {
    line: Line,
    column: usize,
    digits: usize,
    /// The first digit of a byte.
    high: u8,
    in_comment: bool,
    /// Whether the line before was ended by a CR, to which an LF belongs.
    after_cr: bool,
}

impl Reader {
    fn take(&mut self, byte: u8) -> Result<(), String> {
        self.column += 1;
        match char::from(byte).to_digit(16) {
            _ if self.in_comment => {}
            Some(digit) => self.digit(digit as u8),
            None if byte == b'#' => self.in_comment = true,
            None if byte.is_ascii_whitespace() => {}
            None => {
                return Err(format!(
                    "line {}, column {}: {:?} is no hex digit; a line is one packet in hex, \
                     # starts a comment",
                    self.line.number,
                    self.column,
                    char::from(byte)
                ));
            }
        }
        Ok(())
    }

    fn digit(&mut self, digit: u8) {
        self.digits += 1;
        if !self.digits.is_multiple_of(2) {
            self.high = digit;
            return;
        }
        self.line.length += 1;
        if self.line.length <= LONGEST {
            self.line.packet.push(self.high << 4 | digit);
        }
    }

    /// Ends a line, and starts the next.
    fn end(&mut self, take: &mut impl FnMut(&Line) -> Result<(), String>) -> Result<(), String> {
        let number = self.line.number;
        if !self.digits.is_multiple_of(2) {
            return Err(format!(
                "line {number}: {} hex digits; a packet takes two for each byte",
                self.digits
            ));
        }
        if self.line.length > 0 {
            take(&self.line)?;
        }
        self.line.packet.clear();
        self.line.length = 0;
        self.line.number = number + 1;
        (self.column, self.digits, self.in_comment) = (0, 0, false);
        Ok(())
    }
}

/// Gives the packets of the lines. A line ends with LF, CR or CR LF.
pub fn lines(
    input: &mut Input<impl BufRead>,
    mut take: impl FnMut(&Line) -> Result<(), String>,
) -> Result<(), String> {
    let mut reader = Reader::default();
    reader.line.number = 1;
    input.each(|byte| {
        let after_cr = std::mem::replace(&mut reader.after_cr, byte == b'\r');
        match byte {
            b'\n' if after_cr => Ok(()),
            b'\n' | b'\r' => reader.end(&mut take),
            _ => reader.take(byte),
        }
    })?;
    reader.end(&mut take)
}

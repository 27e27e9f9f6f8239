//! Leaves U+FEFF out of a text that comes in pieces.

const KEEPALIVE: [u8; 3] = [0xef, 0xbb, 0xbf];

/// How many first bytes of a U+FEFF have come and are not handed on yet.
#[derive(Debug, Default)]
pub struct Filter {
    begun: usize,
}

impl Filter {
    /// What is to be handed on once this piece has come.
    pub fn pass(&mut self, mut piece: &[u8], to: &mut Vec<u8>) {
        while let Some((&byte, rest)) = piece.split_first() {
            if byte == KEEPALIVE[self.begun] {
                self.begun = (self.begun + 1) % KEEPALIVE.len();
                piece = rest;
                continue;
            }
            self.end(to);
            // All up to where another may begin.
            let begin = piece.iter().position(|&byte| byte == KEEPALIVE[0]);
            let (plain, rest) = piece.split_at(begin.unwrap_or(piece.len()));
            to.extend(plain);
            piece = rest;
        }
    }

    /// What is left at the text's end.
    pub fn end(&mut self, to: &mut Vec<u8>) {
        to.extend(&KEEPALIVE[..self.begun]);
        self.begun = 0;
    }
}

#[cfg(test)]
mod tests {
    use super::*;

    /// However the text is cut.
    #[test]
    fn cuts() {
        let whole = "\u{feff}a\u{feff}\u{feff}\u{fffd}\u{feef}é\u{feff}\n".as_bytes();
        let broken = b"\xef\xef\xbb\xbf\xbb\xef\xbb\xef\xbb";
        for (text, expected) in [
            (whole, "a\u{fffd}\u{feef}é\n".as_bytes()),
            (broken, b"\xef\xbb\xef\xbb\xef\xbb"),
            (b"", b""),
        ] {
            for first in 0..=text.len() {
                for second in first..=text.len() {
                    let (mut filter, mut left) = (Filter::default(), vec![]);
                    for piece in [&text[..first], &text[first..second], &text[second..]] {
                        filter.pass(piece, &mut left);
                    }
                    filter.end(&mut left);
                    assert_eq!(left, expected);
                }
            }
        }
    }
}

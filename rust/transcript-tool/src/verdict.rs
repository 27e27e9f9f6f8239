//! What the last line of a transcript says.

/// More than a last line has, with the newline before it.
const LONGEST: usize = 256;

/// How the journal was.
#[derive(Clone, Copy, Debug, PartialEq, Eq)]
pub enum Verdict {
    Whole,
    Broken,
}

/// The last bytes printed.
#[derive(Debug, Default)]
pub struct Tail {
    bytes: Vec<u8>,
}

impl Tail {
    pub fn add(&mut self, piece: &[u8]) {
        let piece = &piece[piece.len().saturating_sub(LONGEST)..];
        let kept = LONGEST - piece.len();
        let gone = self.bytes.len().saturating_sub(kept);
        self.bytes.drain(..gone);
        self.bytes.extend(piece);
    }

    /// Of all that was printed only the last line counts, as the text may
    /// hold any words; none where the program was cut off.
    pub fn verdict(&self) -> Option<Verdict> {
        let lines = self.bytes.strip_suffix(b"\n")?;
        let start = lines.iter().rposition(|&byte| byte == b'\n')? + 1;
        match &lines[start..] {
            b"journal broken" => Some(Verdict::Broken),
            line if are_counts(line) => Some(Verdict::Whole),
            _ => None,
        }
    }
}

fn are_counts(line: &[u8]) -> bool {
    let words: Vec<_> = line.split(|&byte| byte == b' ').collect();
    let names: [&[u8]; 4] = [b"packets", b"late", b"lost", b"refused"];
    let is_number = |word: &[u8]| !word.is_empty() && word.iter().all(u8::is_ascii_digit);
    words.len() == 8
        && names
            .iter()
            .zip(words.chunks(2))
            .all(|(name, pair)| pair[0] == *name && is_number(pair[1]))
}

#[cfg(test)]
mod tests {
    use super::*;

    fn verdict(printed: &str) -> Option<Verdict> {
        let mut at_once = Tail::default();
        at_once.add(printed.as_bytes());
        let mut by_bytes = Tail::default();
        for &byte in printed.as_bytes() {
            by_bytes.add(&[byte]);
        }
        assert_eq!(at_once.verdict(), by_bytes.verdict());
        at_once.verdict()
    }

    #[test]
    fn last_lines() {
        let most = u64::MAX;
        let counts = format!("packets {most} late {most} lost {most} refused {most}");
        let text = "journal broken\n".repeat(99);
        for before in ["", "text", "\njournal broken\n", &counts, &text] {
            let whole = format!("{before}\n{counts}\n");
            assert_eq!(verdict(&whole), Some(Verdict::Whole));
            let broken = format!("{before}\njournal broken\n");
            assert_eq!(verdict(&broken), Some(Verdict::Broken));
        }
        for cut in [
            "",
            "\n",
            "text",
            "journal broken\n",
            "a\njournal broken",
            "a\npackets 1 late 2 lost 3 refused\n",
            "a\npackets 1 late 2 lost 3 refused \n",
            "a\npackets 1 late 2 lost 3 refused x\n",
            "a\npackets 1  late 2 lost 3 refused 4\n",
        ] {
            assert_eq!(verdict(cut), None, "{cut:?}");
        }
    }
}

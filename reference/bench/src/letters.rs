//! Letters for texts and blocks.

use compare::random::Random;

/// A letter, once in so many times not ASCII.
pub fn letter(random: &mut Random, times: usize) -> char {
    match random.below(3 * times) {
        0 => 'é',
        1 => '€',
        2 => '😀',
        _ => ascii(random),
    }
}

fn ascii(random: &mut Random) -> char {
    char::from(random.within(0x20, 0x7e) as u8)
}

/// What a text is made of.
#[derive(Clone, Copy)]
pub enum Mix {
    Ascii,
    /// Once in so many times not ASCII.
    OnceIn(usize),
    /// This over and over.
    Repeated(&'static str),
}

impl Mix {
    pub const ALL: [(&'static str, Mix); 8] = [
        ("ascii", Mix::Ascii),
        ("one-in-64", Mix::OnceIn(64)),
        ("one-in-10", Mix::OnceIn(10)),
        ("one-in-2", Mix::OnceIn(2)),
        ("none", Mix::OnceIn(1)),
        ("two-byte", Mix::Repeated("é")),
        ("four-byte", Mix::Repeated("😀")),
        ("alternating", Mix::Repeated("aé")),
    ];

    /// Those of these names.
    pub fn some(names: &[&str]) -> Vec<(&'static str, Mix)> {
        let mut mixes = Mix::ALL.to_vec();
        mixes.retain(|(name, _)| names.contains(name));
        mixes
    }

    /// A text of so many letters.
    pub fn text(self, random: &mut Random, letters: usize) -> Vec<u8> {
        let text: String = match self {
            Mix::Ascii => (0..letters).map(|_| ascii(random)).collect(),
            Mix::OnceIn(times) => (0..letters).map(|_| letter(random, times)).collect(),
            Mix::Repeated(part) => part.chars().cycle().take(letters).collect(),
        };
        text.into_bytes()
    }
}

/// So many letters of ASCII, and a byte that is none.
pub fn bad_end(random: &mut Random, letters: usize) -> Vec<u8> {
    let mut text = Mix::Ascii.text(random, letters);
    text.push(0xff);
    text
}

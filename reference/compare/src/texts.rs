//! The kinds of texts given to the UTF-8 checks.

use crate::ascii_texts;
use crate::check::check_text;
use crate::damage::{mutate, BAD};
use crate::random::Random;

/// What was given of a kind, and how much of it was UTF-8.
pub struct Count {
    pub name: &'static str,
    pub texts: usize,
    pub good: usize,
}

pub struct Counter<'a> {
    pub random: &'a mut Random,
    counts: Vec<Count>,
}

impl Counter<'_> {
    pub fn kind(&mut self, name: &'static str) {
        self.counts.push(Count {
            name,
            texts: 0,
            good: 0,
        });
    }

    fn give(&mut self, text: &[u8]) -> Result<(), String> {
        self.check(text, None)
    }

    /// Gives a text of which the number of characters or the place of the
    /// first bad byte is known.
    pub fn give_known(&mut self, text: &[u8], known: Result<usize, usize>) -> Result<(), String> {
        self.check(text, Some(known))
    }

    fn check(&mut self, text: &[u8], known: Option<Result<usize, usize>>) -> Result<(), String> {
        let count = self.counts.last_mut().expect("a kind is set");
        count.texts += 1;
        let good = check_text(self.random, text, known)
            .map_err(|difference| format!("texts, {} {}: {difference}", count.name, count.texts))?;
        count.good += usize::from(good);
        Ok(())
    }
}

/// The first and last bytes of every range in the UTF-8 table.
const BOUNDS: [u8; 24] = [
    0x00, 0x7f, 0x80, 0x8f, 0x90, 0x9f, 0xa0, 0xbf, 0xc0, 0xc1, 0xc2, 0xdf, 0xe0, 0xe1, 0xec, 0xed,
    0xee, 0xef, 0xf0, 0xf1, 0xf3, 0xf4, 0xf5, 0xff,
];

/// Gives all kinds of texts; the random ones `times` each.
pub fn run(random: &mut Random, times: usize) -> Result<Vec<Count>, String> {
    let mut counter = Counter {
        random,
        counts: vec![],
    };
    every_short(&mut counter)?;
    at_the_bounds(&mut counter)?;
    every_character(&mut counter)?;
    at_random(&mut counter, times)?;
    ascii_texts::give(&mut counter)?;
    Ok(counter.counts)
}

fn every_short(counter: &mut Counter<'_>) -> Result<(), String> {
    counter.kind("every text of 0 to 2 bytes");
    counter.give(&[])?;
    for first in 0..=255 {
        counter.give(&[first])?;
        for second in 0..=255 {
            counter.give(&[first, second])?;
        }
    }
    Ok(())
}

fn at_the_bounds(counter: &mut Counter<'_>) -> Result<(), String> {
    counter.kind("3 and 4 bytes at the table's bounds");
    for first in BOUNDS {
        for second in BOUNDS {
            for third in BOUNDS {
                counter.give(&[first, second, third])?;
                for fourth in BOUNDS {
                    counter.give(&[first, second, third, fourth])?;
                }
            }
        }
    }
    Ok(())
}

fn every_character(counter: &mut Counter<'_>) -> Result<(), String> {
    counter.kind("every character by itself");
    for letter in '\0'..=char::MAX {
        counter.give(letter.encode_utf8(&mut [0; 4]).as_bytes())?;
    }
    Ok(())
}

fn at_random(counter: &mut Counter<'_>, times: usize) -> Result<(), String> {
    counter.kind("good text");
    for _ in 0..times {
        let length = length(counter.random);
        let text = counter.random.text(length);
        counter.give(&text)?;
    }
    counter.kind("good text cut or with a bad part");
    for _ in 0..times {
        let length = length(counter.random);
        let mut text = counter.random.text(length);
        let place = counter.random.within(0, length);
        if counter.random.once_in(2) {
            text.truncate(place);
        } else {
            let bad = counter.random.pick(&BAD);
            text.splice(place..place, bad.iter().copied());
        }
        counter.give(&text)?;
    }
    counter.kind("mutated text");
    for _ in 0..times {
        let length = length(counter.random);
        let text = counter.random.text(length);
        let text = mutate(counter.random, text);
        counter.give(&text)?;
    }
    counter.kind("uniformly random bytes");
    for _ in 0..times {
        let length = length(counter.random);
        let text = counter.random.bytes(length);
        counter.give(&text)?;
    }
    Ok(())
}

fn length(random: &mut Random) -> usize {
    match random.below(50) {
        0 => random.below(3000),
        1..=9 => random.below(200),
        _ => random.below(24),
    }
}

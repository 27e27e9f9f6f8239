//! Texts of ASCII in which other letters interrupt the runs of it.

use crate::letters::{ascii, lay, Letter, BYTES, CUT, WHOLE, WRONG};
use crate::texts::Counter;

const LONGEST: usize = 200;

/// Gives all kinds of these texts.
pub fn give(counter: &mut Counter<'_>) -> Result<(), String> {
    ascii_alone(counter)?;
    at_every_place(counter, "ASCII, a bad byte at every place", &BYTES)?;
    at_every_place(counter, "ASCII, a letter at every place", &WHOLE)?;
    at_every_place(counter, "ASCII, a cut letter at every place", &CUT)?;
    at_every_place(counter, "ASCII, a wrong letter at every place", &WRONG)?;
    parted_letters(counter)?;
    two_letters(counter)
}

/// Every letter of ASCII at every place of every length.
fn ascii_alone(counter: &mut Counter<'_>) -> Result<(), String> {
    counter.kind("ASCII of 0 to 200 bytes");
    for length in 0..=LONGEST {
        for first in 0..0x80 {
            let text: Vec<u8> = (first..).take(length).map(|k| (k % 0x80) as u8).collect();
            counter.give_known(&text, Ok(length))?;
        }
    }
    Ok(())
}

/// Texts of every length with these letters at every place: each of them
/// near the end and where the length is near a bound of runs, else one in
/// four by turns.
fn at_every_place(
    counter: &mut Counter<'_>,
    name: &'static str,
    letters: &[Letter],
) -> Result<(), String> {
    counter.kind(name);
    for length in 0..=LONGEST {
        let ascii = ascii(counter.random, length);
        let near = [16_usize, 32, 64, 128, LONGEST]
            .iter()
            .any(|bound| bound.abs_diff(length) <= 3);
        for place in 0..length {
            let step = if near || place + 4 >= length { 1 } else { 4 };
            for letter in letters.iter().skip((length + place) % step).step_by(step) {
                if place + letter.bytes.len() <= length {
                    give_with(counter, &ascii, &[(place, *letter)])?;
                }
            }
        }
    }
    Ok(())
}

/// Letters whose bytes are parted by so many of ASCII.
fn parted_letters(counter: &mut Counter<'_>) -> Result<(), String> {
    counter.kind("ASCII, in it a letter parted by a run");
    for run in 1..=LONGEST {
        for letter in WHOLE {
            for cut in 1..letter.bytes.len() {
                let (head, tail) = letter.bytes.split_at(cut);
                let (before, behind) = (counter.random.below(80), counter.random.below(80));
                let ascii = ascii(counter.random, before + run + behind);
                let (start, rest) = ascii.split_at(before);
                let (middle, end) = rest.split_at(run);
                let text = [start, head, middle, tail, end].concat();
                counter.give_known(&text, Err(before + cut))?;
            }
        }
    }
    Ok(())
}

/// Two letters at every two places, the first of them most often whole.
fn two_letters(counter: &mut Counter<'_>) -> Result<(), String> {
    counter.kind("ASCII, letters at every two places");
    let any = [&WHOLE[..], &BYTES, &CUT, &WRONG].concat();
    for length in [65, 130, LONGEST] {
        let ascii = ascii(counter.random, length);
        for first in 0..length {
            for second in first + 1..length {
                let one = match counter.random.once_in(8) {
                    true => counter.random.pick(&any),
                    false => counter.random.pick(&WHOLE),
                };
                let other = counter.random.pick(&any);
                // A cut letter may be mended by what follows it at once.
                let end = first + one.bad.map_or(0, |bad| bad + 1).max(one.bytes.len());
                if end <= second && second + other.bytes.len() <= length {
                    give_with(counter, &ascii, &[(first, one), (second, other)])?;
                }
            }
        }
    }
    Ok(())
}

/// Gives the ASCII with these letters laid over it at their places.
fn give_with(
    counter: &mut Counter<'_>,
    ascii: &[u8],
    letters: &[(usize, Letter)],
) -> Result<(), String> {
    let mut text = ascii.to_vec();
    let mut known = Ok(ascii.len());
    for (place, letter) in letters {
        lay(&mut text, *place, letter.bytes);
        known = known.and_then(|characters| match letter.bad {
            Some(bad) => Err(place + bad),
            None => Ok(characters - letter.bytes.len() + 1),
        });
    }
    counter.give_known(&text, known)
}

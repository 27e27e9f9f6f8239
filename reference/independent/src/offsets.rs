//! Random time offsets for older blocks, oldest first.

use crate::random::Random;

const GREATEST: usize = 16_383;

/// So many that fall to 1 or more, as near to each other and to the bounds as
/// they can be or not.
pub fn falling(random: &mut Random, count: usize) -> Vec<u16> {
    let mut ages = vec![];
    let mut most = GREATEST;
    for least in (1..=count).rev() {
        let age = match random.below(4) {
            0 => most,
            1 => least,
            _ => random.within(least, most),
        };
        ages.push(age as u16);
        most = age - 1;
    }
    ages
}

/// So many, at least one, of which just one is not above what follows it:
/// equal or below, or 0 at the end.
pub fn wrong(random: &mut Random, count: usize) -> Vec<u16> {
    let mut ages = falling(random, count);
    let place = random.below(count);
    let next = ages.get(place + 1).copied().unwrap_or(0);
    ages[place] = match random.once_in(2) {
        true => next,
        false => random.within(0, next.into()) as u16,
    };
    ages
}

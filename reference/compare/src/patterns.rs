//! Records and bytes that are lent, among others, and filled from the seed.

use std::ops::Range;

use crate::random::Random;
use stewpigeon::lent::{Guarded, Record};

/// A record of any values.
pub fn filled<T: Record>(random: &mut Random) -> Guarded<T> {
    Guarded::filled(|| random.number())
}

/// A record of these values, with any bytes around it and between its fields.
pub fn guarded<T: Record>(random: &mut Random, value: T) -> Guarded<T> {
    Guarded::new(value, || random.number())
}

/// Bytes that are lent, with others around them.
#[derive(Clone, PartialEq, Eq)]
pub struct Lent {
    all: Vec<u8>,
    place: Range<usize>,
}

impl Lent {
    /// These bytes among random ones.
    pub fn new(random: &mut Random, bytes: &[u8]) -> Lent {
        let mut lent = Lent::any(random, bytes.len());
        lent.bytes_mut().copy_from_slice(bytes);
        lent
    }

    /// So many random bytes.
    pub fn any(random: &mut Random, length: usize) -> Lent {
        let start = random.below(9);
        let behind = random.within(1, 16);
        let mut all = vec![0; start + length + behind];
        random.fill(&mut all);
        let place = start..start + length;
        Lent { all, place }
    }

    pub fn bytes(&self) -> &[u8] {
        &self.all[self.place.clone()]
    }

    pub fn bytes_mut(&mut self) -> &mut [u8] {
        &mut self.all[self.place.clone()]
    }
}

//! What must be met with each number of some: at each level, with each number
//! of older blocks, and behind each number of packets lost.

use std::collections::BTreeMap;
use std::ops::RangeInclusive;

use crate::say;
use independent::LEVEL;

#[derive(Clone, Copy, Debug, PartialEq, Eq, PartialOrd, Ord)]
pub enum Each {
    /// Senders opened, by level.
    Opened,
    /// Packets sent, by the sender's level.
    Sent,
    /// Those that repeat as many blocks as the sender's level says.
    SentFull,
    /// Packets that a receiver gave something of, by their older blocks.
    Taken,
    /// The same by the older blocks given.
    Given,
    /// Packets with as many older blocks as may be, by those lost before.
    Lost,
    /// Packets of lines, by those lost before.
    LostInLines,
    /// Packets that a receiver has held and given, by their older blocks.
    Held,
}

impl Each {
    const ALL: [Each; 8] = [
        Each::Opened,
        Each::Sent,
        Each::SentFull,
        Each::Taken,
        Each::Given,
        Each::Lost,
        Each::LostInLines,
        Each::Held,
    ];

    fn name(self) -> &'static str {
        match self {
            Each::Opened => "senders opened at level",
            Each::Sent => "packets sent at level",
            Each::SentFull => "packets sent at level, with as many older blocks",
            Each::Taken => "packets taken with older blocks",
            Each::Given => "packets taken, older blocks given",
            Each::Lost => "packets taken with the most older blocks, behind lost ones",
            Each::LostInLines => "packets of lines taken, behind lost ones",
            Each::Held => "packets held and given with older blocks",
        }
    }

    /// The numbers that must be met.
    fn numbers(self) -> RangeInclusive<usize> {
        match self {
            Each::Lost | Each::LostInLines => 0..=LEVEL + 2,
            _ => 0..=LEVEL,
        }
    }
}

/// How often each was met with each number.
#[derive(Default)]
pub struct Met(BTreeMap<(Each, usize), usize>);

impl Met {
    pub fn add(&mut self, what: Each, number: usize) {
        if what.numbers().contains(&number) {
            *self.0.entry((what, number)).or_default() += 1;
        }
    }

    pub fn print(&self) {
        say!("\n    times  met with each number");
        for what in Each::ALL {
            let times = |number| self.0.get(&(what, number)).unwrap_or(&0);
            let numbers = what.numbers().map(|n| format!("{n}:{}", times(n)));
            let numbers: Vec<String> = numbers.collect();
            let total: usize = what.numbers().map(times).sum();
            say!("{total:>9}  {}: {}", what.name(), numbers.join(" "));
        }
    }

    pub fn missing(&self) -> Vec<String> {
        let all = Each::ALL.into_iter();
        let all = all.flat_map(|what| what.numbers().map(move |number| (what, number)));
        let never = all.filter(|key| !self.0.contains_key(key));
        never
            .map(|(what, number)| format!("never met: {} {number}", what.name()))
            .collect()
    }
}

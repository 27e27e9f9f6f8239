//! Random journals, whole and broken, given to the program in every manner.

use std::collections::BTreeMap;
use std::fmt::{self, Display, Formatter};

use independent::journal::{self, Break, Finish};
use independent::random::Random;
use independent::receiver::{Answer, Receiver};
use independent::transcript::{text, transcript};
use independent::{read, refusal, LEVEL};

use crate::check::{check, Difference, Feeding};
use crate::damage::{change, follow, spoil};
use crate::draft::{draft, noise};
use crate::program::Program;

/// Of so many journals at least, every kind must have been met.
const ENOUGH: usize = 2000;

/// What was met.
#[derive(Default)]
pub struct Met {
    kinds: BTreeMap<&'static str, usize>,
    /// Journals with a good packet, by the number of its older blocks.
    older: [usize; LEVEL + 1],
}

impl Met {
    fn add(&mut self, kind: &'static str) {
        *self.kinds.entry(kind).or_default() += 1;
    }

    fn journal(&mut self, journal: &journal::Journal) {
        self.add(match journal.finish {
            Finish::End => "whole",
            Finish::Broken(Break::Early) => "broken by an early end",
            Finish::Broken(Break::Kind) => "broken by a kind",
            Finish::Broken(Break::Types) => "broken by payload types",
            Finish::Broken(Break::Length) => "broken by a length",
            Finish::Broken(Break::Filling) => "broken by filling",
        });
        let reads = reads(journal);
        for (older, journals) in self.older.iter_mut().enumerate() {
            *journals += usize::from(reads.contains(&Ok(older)));
        }
        let refused = |number| reads.contains(&Err(number));
        let (text, counts) = text(journal);
        let broken = journal.finish != Finish::End;
        let late = |answer: &Answer| matches!(answer, Answer::Late { .. });
        let jump = |answer: &Answer| matches!(answer, Answer::Jump { .. });
        let after_a_jump = |answer: &Answer| matches!(answer, Answer::Break(_));
        for (kind, met) in [
            ("broken after text", broken && !text.is_empty()),
            ("with text", counts.packets > 0),
            ("with a late packet", answered(journal, late)),
            ("with a jump", answered(journal, jump)),
            ("with a break", answered(journal, after_a_jump)),
            ("with a loss", counts.lost > 0),
            ("with a refused packet", counts.refused > 0),
            (
                "with a packet of impossible ages",
                refused(refusal::BLOCK_AGES),
            ),
            (
                "with a packet of one older block too many",
                refused(refusal::OLDER_TOO_MANY),
            ),
        ] {
            if met {
                self.add(kind);
            }
        }
    }

    fn missing(&self) -> Option<String> {
        let mut kinds = KINDS.into_iter();
        let kind = kinds.find(|kind| !self.kinds.contains_key(kind));
        let older = self.older.iter().position(|journals| *journals == 0);
        kind.map(String::from).or(older.map(with_older))
    }
}

fn with_older(older: usize) -> String {
    format!("with a good packet of {older} older blocks")
}

const KINDS: [&str; 19] = [
    "whole",
    "broken by an early end",
    "broken by a kind",
    "broken by payload types",
    "broken by a length",
    "broken by filling",
    "broken after text",
    "with text",
    "with a late packet",
    "with a jump",
    "with a break",
    "with a loss",
    "with a refused packet",
    "with a packet of impossible ages",
    "with a packet of one older block too many",
    "fed in pieces",
    "fed without an end of input",
    "fed up to the end or the break, without an end of input",
    "fed as a file",
];

/// Whether some packet gets such an answer.
fn answered(journal: &journal::Journal, such: fn(&Answer) -> bool) -> bool {
    let opened = journal.opening.map(|(t140, red)| Receiver::open(t140, red));
    let Some(Ok(mut receiver)) = opened else {
        return false;
    };
    let mut packets = journal.packets.iter();
    packets.any(|packet| such(&receiver.step(packet)))
}

/// The number of older blocks of each packet, or its refusal.
fn reads(journal: &journal::Journal) -> Vec<Result<usize, u8>> {
    let Some((t140, red)) = journal.opening else {
        return vec![];
    };
    let older = |packet: &Vec<u8>| Ok(read(None, t140, red, packet)?.older().len());
    journal.packets.iter().map(older).collect()
}

/// A line for each kind.
impl Display for Met {
    fn fmt(&self, f: &mut Formatter<'_>) -> fmt::Result {
        for (kind, count) in &self.kinds {
            write!(f, "\n  {kind}: {count}")?;
        }
        for (older, count) in self.older.iter().enumerate() {
            write!(f, "\n  {}: {count}", with_older(older))?;
        }
        Ok(())
    }
}

/// Gives random journals to the program, some of them long.
pub fn check_all(program: &Program, seed: u64, count: usize) -> Result<Met, Difference> {
    let mut random = Random::new(seed);
    let mut met = Met::default();
    for number in 0..count {
        let checked = match number % 4000 {
            3999 => long(program, &mut random, &mut met),
            _ => short(program, &mut random, &mut met),
        };
        checked.map_err(|difference| Difference {
            what: format!(
                "random journal {number} of seed {seed}:\n{}",
                difference.what
            ),
            ..difference
        })?;
    }
    match met.missing() {
        Some(kind) if count >= ENOUGH => Err(format!("no journal was {kind}").into()),
        _ => Ok(met),
    }
}

/// A good journal of many packets.
fn long(program: &Program, random: &mut Random, met: &mut Met) -> Result<(), Difference> {
    let journal = draft(random, 20_000).concat();
    met.journal(&journal::read(&journal));
    met.add("long");
    check(program, &journal, &Feeding::File, &transcript(&journal))
}

fn short(program: &Program, random: &mut Random, met: &mut Met) -> Result<(), Difference> {
    let mut journal = journal(random);
    let read = journal::read(&journal);
    let printed = transcript(&journal);
    let feeding = feeding(random, &read, journal.len());
    met.journal(&read);
    match &feeding {
        Feeding::Whole => {}
        Feeding::File => met.add("fed as a file"),
        Feeding::Pieces { .. } => met.add("fed in pieces"),
        Feeding::StaysOpen => met.add("fed without an end of input"),
    }
    if feeding == Feeding::StaysOpen && random.once_in(2) {
        journal.truncate(read.used);
        met.add("fed up to the end or the break, without an end of input");
    }
    check(program, &journal, &feeding, &printed)
}

/// A journal: two of five are good, the others are damaged or noise.
fn journal(random: &mut Random) -> Vec<u8> {
    if random.once_in(10) {
        return noise(random);
    }
    let packets = random.below(12);
    let mut draft = draft(random, packets);
    let damage = random.below(9);
    if (4..8).contains(&damage) {
        change(random, &mut draft);
    }
    let mut journal = draft.concat();
    match damage {
        3 => follow(random, &mut journal),
        7 | 8 => spoil(random, &mut journal),
        _ => {}
    }
    journal
}

fn feeding(random: &mut Random, read: &journal::Journal, length: usize) -> Feeding {
    let early = read.finish == Finish::Broken(Break::Early);
    match random.below(40) {
        0..=5 if !early => Feeding::StaysOpen,
        6..=8 => Feeding::Pieces {
            lengths: pieces(random, length),
            closed: early || random.once_in(2),
        },
        9 => Feeding::File,
        _ => Feeding::Whole,
    }
}

/// A few lengths, mostly small ones.
fn pieces(random: &mut Random, length: usize) -> Vec<usize> {
    let longest = random.pick(&[1, 3, 20, 100]);
    let count = random.within(1, 12).min(length);
    (0..count).map(|_| random.within(1, longest)).collect()
}

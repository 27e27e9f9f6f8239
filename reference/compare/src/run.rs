//! A whole comparison.

use std::collections::BTreeMap;

use crate::check::{answer, check, Case};
use crate::kinds::KINDS;
use crate::random::Random;
use crate::{captures, level, texts};
use independent::{paper, refusal, LEVEL};

/// How often each number was answered; 0 is acceptance.
pub type Numbers = BTreeMap<u8, usize>;

pub struct Counts {
    /// Name and count of the cases of the paper and the captures.
    pub named: Vec<(&'static str, usize)>,
    /// What needs a higher level.
    pub left_out: Vec<&'static str>,
    pub kinds: Vec<(&'static str, Numbers)>,
    /// How many generated packets were read with each number of older blocks.
    pub older: BTreeMap<usize, usize>,
    pub texts: Vec<texts::Count>,
}

impl Counts {
    /// The numbers answered over all generated packets.
    pub fn numbers(&self) -> Numbers {
        let mut all = Numbers::new();
        for (_, numbers) in &self.kinds {
            for (number, count) in numbers {
                *all.entry(*number).or_default() += count;
            }
        }
        all
    }

    /// What a comparison must have met and this one did not.
    pub fn missing(&self) -> Vec<String> {
        let numbers = self.numbers();
        let mut missing = vec![];
        for number in refusal::ALL.into_iter().chain([0]) {
            if !numbers.contains_key(&number) {
                missing.push(format!("no generated packet was answered {number}"));
            }
        }
        for older in (0..=LEVEL).filter(|older| !self.older.contains_key(older)) {
            missing.push(format!(
                "no generated packet was read with {older} older blocks"
            ));
        }
        for (kind, (name, numbers)) in KINDS.iter().zip(&self.kinds) {
            if numbers.is_empty() {
                missing.push(format!("no packet of kind: {name}"));
            }
            let answers = kind.answers.iter();
            let never = answers.filter(|number| !numbers.contains_key(number));
            missing.extend(never.map(|number| format!("no packet of kind: {name}: {number}")));
        }
        for count in &self.texts {
            if count.texts == 0 {
                missing.push(format!("no text of kind: {}", count.name));
            }
        }
        missing
    }
}

/// The paper's cases, against both readers.
fn paper_cases(random: &mut Random) -> Result<usize, String> {
    let cases = paper::cases();
    for paper in &cases {
        let known = match &paper.result {
            Ok(contents) => Ok(answer(contents)),
            Err(refusal) => Err(*refusal),
        };
        let case = Case {
            expects: u8::from(paper.expected.is_some()),
            source: paper.expected.unwrap_or(0),
            t140: paper.t140,
            red: paper.red,
            ..Case::new(random, paper.packet.clone(), Some(known))
        };
        check(random, &case).map_err(|difference| format!("{}: {difference}", paper.name))?;
    }
    Ok(cases.len())
}

fn capture_cases(random: &mut Random) -> Result<usize, String> {
    captures::facts()?;
    let packets = captures::all();
    for packet in &packets {
        let case = Case::open(random, packet.clone());
        check(random, &case).map_err(|difference| format!("captures: {difference}"))?;
    }
    Ok(packets.len())
}

/// Compares on at least `packets` packets, or says where the first difference
/// is.
pub fn run(seed: u64, packets: usize) -> Result<Counts, String> {
    level::check()?;
    let mut random = Random::new(seed);
    let named = vec![
        ("cases of the scope paper", paper_cases(&mut random)?),
        ("packets of the captures", capture_cases(&mut random)?),
    ];
    let mut left_out: Vec<_> = paper::left_out().iter().map(|case| case.name).collect();
    left_out.extend(captures::left_out());
    let share = packets.div_ceil(KINDS.len()).max(1);
    let mut kinds = vec![];
    let mut older = BTreeMap::new();
    for (place, kind) in KINDS.iter().enumerate() {
        let mut random = Random::new(seed ^ (place as u64 + 1) << 56);
        let mut numbers = Numbers::new();
        let mut count = 0;
        while count < share {
            for case in (kind.batch)(&mut random) {
                count += 1;
                let read = check(&mut random, &case)
                    .map_err(|difference| format!("{} {count}: {difference}", kind.name))?;
                *numbers.entry(read.number).or_default() += 1;
                if read.number == 0 {
                    *older.entry(read.older).or_default() += 1;
                }
            }
        }
        kinds.push((kind.name, numbers));
    }
    let texts = texts::run(&mut random, share)?;
    Ok(Counts {
        named,
        left_out,
        kinds,
        older,
        texts,
    })
}

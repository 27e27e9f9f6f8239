//! The packets or texts that are timed, in one buffer.

use compare::random::Random;

pub const SEED: u64 = 4103;

pub struct Inputs {
    bytes: Vec<u8>,
    /// Where each of them ends.
    ends: Vec<usize>,
}

impl Inputs {
    pub fn of(count: usize, mut input: impl FnMut() -> Vec<u8>) -> Inputs {
        let mut inputs = Inputs {
            bytes: vec![],
            ends: Vec::with_capacity(count),
        };
        for _ in 0..count {
            inputs.bytes.extend(input());
            inputs.ends.push(inputs.bytes.len());
        }
        inputs
    }

    pub fn count(&self) -> usize {
        self.ends.len()
    }

    pub fn iter(&self) -> impl Iterator<Item = &[u8]> {
        let mut start = 0;
        self.ends.iter().map(move |end| {
            let input = &self.bytes[start..*end];
            start = *end;
            input
        })
    }

    pub fn average(&self) -> f64 {
        self.bytes.len() as f64 / self.ends.len() as f64
    }
}

/// The letters of all inputs of a kind where each has few: with a tenth of
/// them the processor learns by heart which are not ASCII.
pub const LETTERS: usize = 200_000;

type Make = Box<dyn Fn(&mut Random) -> Vec<u8>>;

/// Inputs of one kind, not made yet.
pub struct Kind {
    pub name: String,
    /// How many letters each has.
    pub letters: usize,
    pub count: usize,
    make: Make,
}

impl Kind {
    pub fn new(
        name: &str,
        letters: usize,
        count: usize,
        make: impl Fn(&mut Random) -> Vec<u8> + 'static,
    ) -> Kind {
        Kind {
            name: name.to_string(),
            letters,
            count,
            make: Box::new(make),
        }
    }

    pub fn inputs(&self) -> Inputs {
        let mut random = Random::new(SEED);
        Inputs::of(self.count, || (self.make)(&mut random))
    }
}

/// The kind of this name.
pub fn named(name: &str, kinds: Vec<Kind>) -> Option<Kind> {
    kinds.into_iter().find(|kind| kind.name == name)
}

//! The transcript of a journal: the text with its marks, then a line of
//! counts or the words that the journal is broken.

use std::fmt::{self, Display, Formatter};

use crate::journal::{self, read_within, Finish};
use crate::receiver::{Answer, Receiver, MARK};

pub use crate::stream::{run, run_within};

/// What is printed after the text of a broken journal.
pub const BROKEN: &str = "\njournal broken\n";

/// What is printed at the end of a journal that is not broken.
#[derive(Clone, Copy, Debug, Default, PartialEq, Eq)]
pub struct Counts {
    /// Forward ones and breaks: neither late nor refused.
    pub packets: u64,
    /// Late ones and jumps.
    pub late: u64,
    /// The loss of all packets together.
    pub lost: u64,
    pub refused: u64,
}

impl Counts {
    /// Counts one answer of the receiver.
    #[inline]
    pub fn add(&mut self, answer: &Answer) {
        match answer {
            Answer::Refused(_) => self.refused += 1,
            Answer::Late { .. } | Answer::Jump { .. } => self.late += 1,
            Answer::Forward(added) | Answer::Break(added) => {
                self.packets += 1;
                self.lost += u64::from(added.loss);
            }
        }
    }
}

impl Display for Counts {
    fn fmt(&self, f: &mut Formatter<'_>) -> fmt::Result {
        let Counts {
            packets,
            late,
            lost,
            refused,
        } = self;
        write!(
            f,
            "\npackets {packets} late {late} lost {lost} refused {refused}\n"
        )
    }
}

/// All that is printed for a journal.
pub fn transcript(journal: &[u8]) -> Vec<u8> {
    transcript_within(journal::LIMIT, journal)
}

/// The transcript with another limit than 2^40.
pub fn transcript_within(limit: u64, journal: &[u8]) -> Vec<u8> {
    let journal = read_within(limit, journal);
    let (mut printed, counts) = text(&journal);
    match journal.finish {
        Finish::End => printed.extend(counts.to_string().bytes()),
        Finish::Broken(_) => printed.extend(BROKEN.bytes()),
    }
    printed
}

/// The text of a journal's packets with its marks, and the counts.
pub fn text(journal: &journal::Journal) -> (Vec<u8>, Counts) {
    let mut text = vec![];
    let mut counts = Counts::default();
    let opened = journal.opening.map(|(t140, red)| Receiver::open(t140, red));
    let Some(Ok(mut receiver)) = opened else {
        return (text, counts);
    };
    for packet in &journal.packets {
        let answer = receiver.step(packet);
        counts.add(&answer);
        if let Some(added) = answer.added() {
            text.extend(MARK.repeat(added.loss.into()));
            text.extend(added.text());
        }
    }
    (text, counts)
}

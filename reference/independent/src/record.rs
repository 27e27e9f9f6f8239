//! The record of a line: as a receiver's answers give it, and as demand 3
//! spells it in the sender's blocks.

use std::iter::repeat_n;

use crate::receiver::{Added, Answer};

/// The greatest age in ms at which a block is still repeated.
const OLDEST: u64 = 16_383;

/// One place of the record. A mark equals no block.
#[derive(Clone, Debug, PartialEq, Eq)]
pub enum Entry {
    Mark,
    Block(Vec<u8>),
}

/// Block k of a sender: the primary of packet k, and its sending time.
#[derive(Clone, Debug, PartialEq, Eq)]
pub struct Sent {
    pub clock: u64,
    pub block: Vec<u8>,
}

/// Adds what an answer gives.
pub fn add(record: &mut Vec<Entry>, answer: &Answer) {
    if let Some(added) = answer.added() {
        give(record, added);
    }
}

/// Adds what is given of a packet: its loss in marks, then its blocks.
pub fn give(record: &mut Vec<Entry>, added: &Added) {
    record.extend(repeat_n(Entry::Mark, added.loss.into()));
    let blocks = added.blocks().into_iter();
    record.extend(blocks.map(|block| Entry::Block(block.to_vec())));
}

/// How many older blocks packet `k` carries: the longest run of the last
/// blocks, at most `level`, all sent at most 16,383 ms before it. The
/// sending times never fall.
pub fn run(sent: &[Sent], level: usize, k: usize) -> usize {
    let fresh = |block: &Sent| sent[k].clock - block.clock <= OLDEST;
    let longest = (0..=level.min(k)).rev();
    let mut runs = longest.filter(|run| sent[k - run..k].iter().all(fresh));
    runs.next().unwrap_or(0)
}

/// How far ahead of the newest accepted a packet may be.
pub const AHEAD: usize = 2_999;
/// How far behind the newest accepted a packet may be.
pub const BEHIND: usize = 99;

/// Packet `k` is neither too far ahead of the newest accepted nor too far
/// behind it. The first accepted may be any.
pub fn in_window(newest: Option<usize>, k: usize) -> bool {
    newest.is_none_or(|newest| k <= newest + AHEAD && newest <= k + BEHIND)
}

/// The record after the packets `accepted` of this sender, in their order:
/// one entry for each block from the oldest in the first packet to the
/// primary of the newest. It is the block where a packet carries it that
/// was the newest on its arrival, otherwise a mark. Of a receiver that holds
/// packets, give those handed out, in that order.
pub fn expected(sent: &[Sent], level: usize, accepted: &[usize]) -> Vec<Entry> {
    let (Some(&first), Some(&newest)) = (accepted.first(), accepted.iter().max()) else {
        return vec![];
    };
    let oldest = first - run(sent, level, first);
    let mut carried = vec![false; newest + 1];
    let mut before = None;
    for &k in accepted {
        if before.is_none_or(|before| k > before) {
            carried[k - run(sent, level, k)..=k].fill(true);
            before = Some(k);
        }
    }
    let entry = |k: usize| match carried[k] {
        true => Entry::Block(sent[k].block.clone()),
        false => Entry::Mark,
    };
    (oldest..=newest).map(entry).collect()
}

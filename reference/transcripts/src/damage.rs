//! What may go wrong in a journal.

use independent::journal::{END, LONGEST, OPEN, PACKET, PIECE};
use independent::random::Random;

use crate::draft::{has_pieces, packet, time, Draft};

/// A change to the records.
type Change = fn(&mut Random, &mut Draft);

const CHANGES: [Change; 13] = [
    insert,
    insert_between_pieces,
    remove,
    swap,
    repeat,
    cut_record,
    lengthen_record,
    types,
    length,
    filling,
    bounds,
    no_end,
    kind,
];

/// Changes the records in one or two ways.
pub fn change(random: &mut Random, draft: &mut Draft) {
    for _ in 0..random.within(1, 2) {
        random.pick(&CHANGES)(random, draft);
    }
}

/// Changes the bytes: some flipped, or a cut, or more of them.
pub fn spoil(random: &mut Random, journal: &mut Vec<u8>) {
    match random.below(4) {
        0 if !journal.is_empty() => journal.truncate(random.below(journal.len())),
        1 => {
            let place = random.below(journal.len() + 1);
            let count = random.within(1, 20);
            journal.splice(place..place, random.bytes(count));
        }
        _ => {
            for _ in 0..random.within(1, 3) {
                if !journal.is_empty() {
                    let place = random.below(journal.len());
                    journal[place] ^= 1 << random.below(8);
                }
            }
        }
    }
}

/// Bytes after the end.
pub fn follow(random: &mut Random, journal: &mut Vec<u8>) {
    let count = random.within(1, 40);
    journal.extend(random.bytes(count));
}

fn any_record(random: &mut Random) -> Vec<u8> {
    match random.below(6) {
        0 => vec![END],
        1 => vec![OPEN, 98, 100],
        2 => {
            let length = random.below(40);
            packet(&random.bytes(length))
        }
        3 => [&[PIECE][..], &random.bytes(16)].concat(),
        4 => time(random),
        _ => vec![random.within(5, 255) as u8],
    }
}

/// One of the records; a draft is never without any.
fn place(random: &mut Random, draft: &Draft) -> usize {
    random.below(draft.len())
}

/// One of the packets with bytes.
fn packet_place(random: &mut Random, draft: &Draft) -> Option<usize> {
    let packets = (0..draft.len()).filter(|&place| has_pieces(&draft[place]));
    let packets: Vec<_> = packets.collect();
    (!packets.is_empty()).then(|| random.pick(&packets))
}

fn insert(random: &mut Random, draft: &mut Draft) {
    let place = random.below(draft.len() + 1);
    draft.insert(place, any_record(random));
}

fn insert_between_pieces(random: &mut Random, draft: &mut Draft) {
    if let Some(place) = packet_place(random, draft) {
        let pieces = ((draft[place].len() - 3) / 17).max(1);
        let at = 3 + 17 * random.below(pieces);
        draft[place].splice(at..at, any_record(random));
    }
}

fn remove(random: &mut Random, draft: &mut Draft) {
    if draft.len() > 1 {
        let place = place(random, draft);
        draft.remove(place);
    }
}

fn swap(random: &mut Random, draft: &mut Draft) {
    let (one, other) = (place(random, draft), place(random, draft));
    draft.swap(one, other);
}

fn repeat(random: &mut Random, draft: &mut Draft) {
    let place = place(random, draft);
    draft.insert(place, draft[place].clone());
}

fn cut_record(random: &mut Random, draft: &mut Draft) {
    let place = place(random, draft);
    let length = random.below(draft[place].len().max(1));
    draft[place].truncate(length);
}

fn lengthen_record(random: &mut Random, draft: &mut Draft) {
    let place = place(random, draft);
    let more = random.pick(&[0, 1, 3, 4, 255]);
    draft[place].push(more);
}

/// Other payload types, many of them bad.
fn types(random: &mut Random, draft: &mut Draft) {
    let open = draft
        .iter_mut()
        .find(|record| record.first() == Some(&OPEN));
    if let Some([_, t140, red]) = open.map(Vec::as_mut_slice) {
        let any = random.byte();
        let kinds = [95, 96, 97, 98, 100, 126, 127, 128, any];
        (*t140, *red) = (random.pick(&kinds), random.pick(&kinds));
    }
}

/// Another length before the same pieces.
fn length(random: &mut Random, draft: &mut Draft) {
    if let Some(place) = packet_place(random, draft) {
        let [_, high, low, ..] = draft[place].as_mut_slice() else {
            return;
        };
        let length = u16::from_be_bytes([*high, *low]);
        let any = random.number() as u16;
        let [less, more, piece] = [
            length.wrapping_sub(1),
            length.wrapping_add(1),
            length.wrapping_add(16),
        ];
        let other = [less, more, piece, length | 0x8000, any];
        [*high, *low] = random.pick(&other).to_be_bytes();
    }
}

/// A byte that is not zero where the last piece is filled.
fn filling(random: &mut Random, draft: &mut Draft) {
    if let Some(place) = packet_place(random, draft) {
        let record = &mut draft[place];
        let length = usize::from(u16::from_be_bytes([record[1], record[2]]));
        let filling = length.next_multiple_of(16) - length;
        let end = record.len();
        if filling > 0 && filling < end {
            record[end - 1 - random.below(filling)] = random.within(1, 255) as u8;
        }
    }
}

/// A packet with a length at a bound.
fn bounds(random: &mut Random, draft: &mut Draft) {
    let length = random.pick(&[0, 11, 12, 1472, 1473, LONGEST, LONGEST + 1]);
    let mut bytes = random.text(length);
    for (byte, head) in bytes.iter_mut().zip([0x80, 98]) {
        *byte = head;
    }
    let place = random.below(draft.len() + 1);
    draft.insert(place, packet(&bytes));
}

fn no_end(_: &mut Random, draft: &mut Draft) {
    draft.retain(|record| record.first() != Some(&END));
    draft.push(vec![]);
}

fn kind(random: &mut Random, draft: &mut Draft) {
    let place = place(random, draft);
    let any = random.byte();
    let kind = random.pick(&[END, OPEN, PACKET, PIECE, 4, 5, any]);
    if let Some(first) = draft[place].first_mut() {
        *first = kind;
    }
}

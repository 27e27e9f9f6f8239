//! Kinds of packets made wrong, or nearly so, in one part.

use crate::check::Case;
use crate::damage::BAD;
use crate::plan::{Plan, RED, T140};
use crate::random::Random;
use independent::LEVEL;

/// Every padding count from 0 to past the payload, and no payload at all.
pub fn padding(random: &mut Random) -> Vec<Case> {
    let mut plan = match random.within(0, LEVEL + 1) {
        count @ 0..=LEVEL => Plan::small_red(random, count),
        _ => Plan::new(random, T140),
    };
    if random.once_in(3) {
        plan.add_sources(random);
    }
    if random.once_in(3) {
        plan.add_extension(random);
    }
    let payload = plan.payload();
    let mut cases = vec![];

    let mut none = plan.bytes()[..payload].to_vec();
    none[0] |= 0x20;
    cases.push(Case::refused(random, none, 14));

    for count in [1, 2, 3, 4, 100, 255] {
        let mut padded = plan.clone();
        padded.pad(random, count);
        cases.push(Case::accepted(random, &padded));
    }
    let mut packet = plan.bytes();
    packet[0] |= 0x20;
    packet.push(0);
    let length = packet.len() - payload;
    for count in 0..=255 {
        *packet.last_mut().unwrap() = count;
        let known = match usize::from(count) {
            0 => Some(Err(14)),
            count if count > length => Some(Err(14)),
            count if count == length && plan.payload_type == RED => Some(Err(17)),
            _ => None,
        };
        cases.push(Case::new(random, packet.clone(), known));
    }
    cases
}

/// Each of X and CC, with the packet cut about the ends of both.
pub fn lists_and_extensions(random: &mut Random) -> Vec<Case> {
    let count = random.within(0, LEVEL);
    let mut plan = Plan::small_red(random, count);
    plan.add_sources(random);
    if !random.once_in(4) {
        plan.add_extension(random);
    }
    if random.once_in(2) {
        let count = random.within(1, 9);
        plan.pad(random, count);
    }
    let mut cases = vec![Case::accepted(random, &plan)];
    let packet = plan.bytes();
    let payload = plan.payload();
    for length in 12..payload {
        cases.push(Case::refused(random, packet[..length].to_vec(), 13));
    }
    let end = (payload + 6).min(packet.len());
    for length in payload..end {
        cases.push(Case::open(random, packet[..length].to_vec()));
    }
    // Another list or another number of words over the same bytes.
    for sources in 0..16 {
        let mut other = packet.clone();
        other[0] = other[0] & 0xf0 | sources;
        cases.push(Case::open(random, other));
    }
    if plan.extension.is_some() {
        let place = 12 + plan.sources.len() + 2;
        let left = (packet.len() - place - 2) / 4;
        for words in [0, 1, left, left + 1, 255, 256, 0x3fff, 0x4000, 0xffff] {
            let mut other = packet.clone();
            other[place..place + 2].copy_from_slice(&(words as u16).to_be_bytes());
            let case = if words > left {
                Case::refused(random, other, 13)
            } else {
                Case::open(random, other)
            };
            cases.push(case);
        }
    }
    cases
}

/// As many older headers as may be, and what can be found behind them: the
/// primary's, none (17), one too many (18) or one of another type (19), with
/// every number of bytes left.
pub fn last_header(random: &mut Random) -> Vec<Case> {
    let plan = Plan::small_red(random, LEVEL);
    let packet = plan.bytes();
    let place = plan.payload() + 4 * LEVEL;
    let older = &packet[..place];
    let mut cases = vec![
        Case::accepted(random, &plan),
        Case::refused(random, older.to_vec(), 17),
    ];
    for left in 0..12 {
        for (first, refusal) in [
            (0xe2, 18),
            (0xe1, 18),
            (0x80, 18),
            (0xff, 18),
            (0x61, 19),
            (0x7f, 19),
        ] {
            let rest = random.bytes(left);
            let packet = [older, &[first], &rest].concat();
            cases.push(Case::refused(random, packet, refusal));
        }
    }
    for more in 1..4 {
        let packet = Plan::small_red(random, LEVEL + more).bytes();
        cases.push(Case::refused(random, packet, 18));
    }
    // A wrong type or a short rest in an earlier header comes first.
    for header in (0..LEVEL).map(|header| plan.payload() + 4 * header) {
        let mut wrong = [older, &[0xe2]].concat();
        wrong[header] ^= 1 << random.below(7);
        cases.push(Case::refused(random, wrong, 19));
        let cut = header + random.below(4);
        cases.push(Case::refused(random, older[..cut].to_vec(), 17));
    }
    cases
}

/// Each bit of each block's type turned, with and without enough bytes left.
pub fn wrong_block_types(random: &mut Random) -> Vec<Case> {
    let count = random.within(0, LEVEL);
    let plan = Plan::small_red(random, count);
    let packet = plan.bytes();
    let mut cases = vec![];
    for header in 0..=count {
        let place = plan.payload() + 4 * header;
        for bit in 0..7 {
            let mut wrong = packet.clone();
            wrong[place] ^= 1 << bit;
            cases.push(Case::refused(random, wrong.clone(), 19));
            let left = if header == count { 1 } else { 4 };
            for length in place + 1..place + left {
                cases.push(Case::refused(random, wrong[..length].to_vec(), 17));
            }
        }
    }
    cases
}

/// Lengths that meet the end, pass it by one and by more.
pub fn lengths_passing_the_end(random: &mut Random) -> Vec<Case> {
    let count = random.within(1, LEVEL);
    let mut plan = Plan::red(random, count);
    plan.primary.clear();
    let mut cases = vec![Case::accepted(random, &plan)];
    let packet = plan.bytes();
    for older in 0..count {
        let place = plan.payload() + 4 * older + 2;
        let length = plan.older[older].1.len();
        for more in [1, 2, 1023 - length.min(1023)] {
            if more == 0 || length + more > 1023 {
                continue;
            }
            let mut passing = packet.clone();
            let field = u16::from_be_bytes([passing[place], passing[place + 1]]);
            let field = field + more as u16;
            passing[place..place + 2].copy_from_slice(&field.to_be_bytes());
            cases.push(Case::refused(random, passing, 20));
        }
    }
    if plan.padding.is_empty() && packet.len() > plan.blocks() {
        let short = packet[..packet.len() - 1].to_vec();
        cases.push(Case::refused(random, short, 20));
    }
    cases
}

/// Ages that do not fall to 1 or more: near the bounds, and together with
/// every other fault that a block can have.
pub fn impossible_ages(random: &mut Random) -> Vec<Case> {
    let count = random.within(1, LEVEL);
    let mut plan = Plan::red(random, count);
    let mut cases = vec![];
    for _ in 0..8 {
        let ages: Vec<u16> = (0..count)
            .map(|_| random.pick(&[0, 1, 2, 3, 4, 16_382, 16_383]))
            .collect();
        let impossible = ages.contains(&0) || ages.windows(2).any(|two| two[0] <= two[1]);
        plan.date(ages);
        cases.push(match impossible {
            true => Case::refused(random, plan.bytes(), 22),
            false => Case::accepted(random, &plan),
        });
    }
    let mut plan = Plan::small_red(random, count);
    plan.misdate(random);
    let packet = plan.bytes();
    cases.push(Case::refused(random, packet.clone(), 22));
    let mut other = Case::refused(random, packet.clone(), 16);
    (other.expects, other.source) = (1, !plan.source);
    cases.push(other);

    let headers = plan.blocks() - 1;
    cases.push(Case::refused(random, packet[..headers].to_vec(), 17));
    let mut wrong = packet.clone();
    wrong[headers] ^= 1;
    cases.push(Case::refused(random, wrong, 19));
    if count == LEVEL {
        let mut too_many = packet.clone();
        too_many[headers] = 0xe2;
        cases.push(Case::refused(random, too_many, 18));
    }
    for length in plan.blocks()..packet.len() - plan.primary.len() {
        cases.push(Case::refused(random, packet[..length].to_vec(), 20));
    }
    for block in 0..=count {
        let mut wrong = plan.clone();
        wrong.block(block).extend(random.pick(&BAD));
        cases.push(Case::refused(random, wrong.bytes(), 22));
    }
    cases
}

/// Bytes that are not UTF-8 put over every place of every block.
pub fn bad_utf8(random: &mut Random) -> Vec<Case> {
    let count = random.within(0, LEVEL);
    let mut plan = Plan::small_red(random, count);
    if random.once_in(4) {
        plan = Plan::t140(random);
        let length = random.below(60);
        plan.primary = random.text(length);
    }
    let ends = plan.older.iter().map(|older| older.1.len());
    let lengths: Vec<usize> = ends.chain([plan.primary.len()]).collect();
    let packet = plan.bytes();
    let mut cases = vec![];
    let mut start = plan.blocks();
    for length in lengths {
        for place in 0..length {
            let bad = random.pick(&BAD);
            let mut wrong = packet.clone();
            let fits = bad.len().min(length - place);
            wrong[start + place..start + place + fits].copy_from_slice(&bad[..fits]);
            let case = match bad {
                [0xfe | 0xff] => Case::refused(random, wrong, 21),
                _ => Case::open(random, wrong),
            };
            cases.push(case);
        }
        start += length;
    }
    // A block that ends in a bad part, good blocks about it.
    for block in 0..=plan.older.len() {
        let mut wrong = plan.clone();
        wrong.block(block).extend(random.pick(&BAD));
        cases.push(Case::refused(random, wrong.bytes(), 21));
    }
    cases
}

/// Letters cut over the end of a block, so that only the joined text is good.
pub fn split_letters(random: &mut Random) -> Vec<Case> {
    let count = random.within(1, LEVEL);
    let mut plan = Plan::small_red(random, count);
    if random.once_in(4) {
        let count = random.within(1, 9);
        plan.pad(random, count);
    }
    let mut cases = vec![];
    for letter in ["é", "€", "😀", "\u{10ffff}", "\u{800}", "\u{d7ff}"] {
        for cut in 1..letter.len() {
            for block in 0..count {
                let mut split = plan.clone();
                let (head, tail) = letter.as_bytes().split_at(cut);
                split.block(block).extend(head);
                let next = split.block(block + 1);
                next.splice(0..0, tail.iter().copied());
                cases.push(Case::refused(random, split.bytes(), 21));
            }
        }
    }
    cases
}

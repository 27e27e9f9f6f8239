//! The kinds of generated packets. Each call of a kind gives one batch.

use crate::check::Case;
use crate::damage;
use crate::plan::{Plan, LONGEST, RED, T140};
use crate::random::Random;
use crate::{ascii_packets, captures, shapes};
use independent::{offsets, LEVEL};

pub struct Kind {
    pub name: &'static str,
    pub batch: fn(&mut Random) -> Vec<Case>,
    /// Answers that it must meet; 0 is acceptance.
    pub answers: &'static [u8],
}

const fn kind(name: &'static str, batch: fn(&mut Random) -> Vec<Case>) -> Kind {
    Kind {
        name,
        batch,
        answers: &[],
    }
}

pub const KINDS: [Kind; 25] = [
    kind("valid T140", valid_t140),
    kind("valid RED, all numbers of older blocks", valid_red),
    kind("mutated", mutated),
    kind("cut at every length", cut),
    kind("boundary sizes", boundary_sizes),
    kind("padding", shapes::padding),
    kind("source lists and extensions", shapes::lists_and_extensions),
    Kind {
        answers: &[0, 17, 18, 19],
        ..kind("behind the last block header", shapes::last_header)
    },
    kind("wrong block types", shapes::wrong_block_types),
    kind("lengths passing the end", shapes::lengths_passing_the_end),
    kind("impossible ages", shapes::impossible_ages),
    kind("bad UTF-8 at each place", shapes::bad_utf8),
    kind("letters split between blocks", shapes::split_letters),
    kind("payload type settings", settings),
    kind("packet's payload type", payload_types),
    kind("expected source", expected_source),
    kind("uniformly random bytes", random_bytes),
    kind("random payload", random_payload),
    kind("prefixes of the captures", capture_prefixes),
    kind("mutated captures", mutated_captures),
    kind("bad bytes among ASCII", ascii_packets::bad_bytes),
    kind("cut letters among ASCII", ascii_packets::cut_letters),
    kind("letters parted by ASCII", ascii_packets::parted_letters),
    kind("letters among ASCII", ascii_packets::whole_letters),
    kind("letters at ends of blocks", ascii_packets::letters_at_ends),
];

fn valid_t140(random: &mut Random) -> Vec<Case> {
    let plan = Plan::t140(random);
    vec![Case::accepted(random, &plan)]
}

fn valid_red(random: &mut Random) -> Vec<Case> {
    let count = random.within(0, LEVEL);
    let plan = Plan::red(random, count);
    vec![Case::accepted(random, &plan)]
}

fn mutated(random: &mut Random) -> Vec<Case> {
    let packet = Plan::good(random).bytes();
    let packet = damage::mutate(random, packet);
    vec![Case::open(random, packet)]
}

fn cut(random: &mut Random) -> Vec<Case> {
    let mut packet = Plan::good(random).bytes();
    if !random.once_in(20) {
        packet.truncate(150);
    }
    let lengths = 0..=packet.len();
    lengths
        .map(|length| Case::open(random, packet[..length].to_vec()))
        .collect()
}

fn boundary_sizes(random: &mut Random) -> Vec<Case> {
    let mut cases = vec![];
    for length in [0, 1, 10, 11, 1473, 1474, 2000, 65536] {
        let mut packet = Plan::good(random).bytes();
        packet.resize(length, b'a');
        let refusal = if length < 12 { 10 } else { 11 };
        cases.push(Case::refused(random, packet, refusal));
    }
    for length in [12, 13, 1471, LONGEST] {
        let mut plan = Plan::new(random, T140);
        plan.primary = random.text(length - 12);
        cases.push(Case::accepted(random, &plan));
    }
    for length in [1471, LONGEST] {
        let count = random.within(0, LEVEL);
        let mut plan = Plan::small_red(random, count);
        plan.primary = random.text(length - plan.bytes().len() + plan.primary.len());
        cases.push(Case::accepted(random, &plan));
        plan.primary.push(b'a');
        let known = match length {
            1471 => Ok(plan.answer()),
            _ => Err(11),
        };
        cases.push(Case::new(random, plan.bytes(), Some(known)));
    }
    let empty_red = Plan::new(random, RED).bytes()[..12].to_vec();
    cases.push(Case::refused(random, empty_red, 17));
    cases
}

/// Payload types at and about their bounds, over packets good and bad.
fn settings(random: &mut Random) -> Vec<Case> {
    const TYPES: [u8; 10] = [0, 95, 96, 97, 98, 100, 126, 127, 128, 255];
    let mut packet = Plan::good(random).bytes();
    if random.once_in(3) {
        packet = damage::mutate(random, packet);
    }
    let mut case = Case::open(random, packet);
    case.t140 = random.pick(&TYPES);
    case.red = match random.below(4) {
        0 => case.t140,
        1 => random.byte(),
        _ => random.pick(&TYPES),
    };
    let dynamic = 96..=127;
    if !dynamic.contains(&case.t140) || !dynamic.contains(&case.red) || case.t140 == case.red {
        case.known = Some(Err(3));
    }
    vec![case]
}

/// Every payload type in a packet, and RED and T140 exchanged.
fn payload_types(random: &mut Random) -> Vec<Case> {
    let count = random.within(0, LEVEL);
    let plan = Plan::small_red(random, count);
    let mut cases = vec![];
    for payload_type in 0..128 {
        let mut packet = plan.bytes();
        packet[1] = packet[1] & 0x80 | payload_type;
        let case = match payload_type {
            T140 | RED => Case::open(random, packet),
            _ => Case::refused(random, packet, 15),
        };
        cases.push(case);
    }
    let mut exchanged = Case::open(random, plan.bytes());
    (exchanged.t140, exchanged.red) = (RED, T140);
    cases.push(exchanged);
    cases
}

/// The same packet with its own source expected and with others, and the same
/// for a bad one.
fn expected_source(random: &mut Random) -> Vec<Case> {
    let plan = Plan::good(random);
    let any = random.within(1, 255) as u8;
    let expects = random.pick(&[1, 128, 255, any]);
    let mut same = Case::accepted(random, &plan);
    same.expects = expects;
    same.source = plan.source;
    let mut other = same.clone();
    other.source ^= 1 << random.below(32);
    other.known = Some(Err(16));
    let mut mutated = same.clone();
    mutated.packet = damage::mutate(random, mutated.packet);
    mutated.known = None;
    let mut mutated_other = mutated.clone();
    mutated_other.source = other.source;
    vec![same, other, mutated, mutated_other]
}

fn random_bytes(random: &mut Random) -> Vec<Case> {
    let length = match random.below(8) {
        0 => random.below(1600),
        _ => random.below(64),
    };
    let packet = random.bytes(length);
    vec![Case::open(random, packet)]
}

/// Random bytes behind a good header, the first ones often block headers.
fn random_payload(random: &mut Random) -> Vec<Case> {
    let payload_type = random.pick(&[T140, RED, RED]);
    let mut packet = Plan::new(random, payload_type).bytes();
    packet.truncate(12);
    packet[0] |= random.pick(&[0, 0, 0x20, 0x10, 1, 0x31]);
    let count = random.within(0, LEVEL + 1);
    let ages = match count > 0 && random.once_in(8) {
        true => offsets::wrong(random, count),
        false => offsets::falling(random, count),
    };
    for age in ages {
        let header = 0xe200_0000 | u32::from(age) << 10 | random.below(12) as u32;
        packet.extend(header.to_be_bytes());
    }
    packet.push(random.pick(&[T140, T140, T140, RED, 0xe2]));
    let length = random.below(40);
    let rest = match random.below(3) {
        0 => random.bytes(length),
        _ => random.text(length),
    };
    packet.extend(rest);
    vec![Case::open(random, packet)]
}

fn capture_prefixes(random: &mut Random) -> Vec<Case> {
    let mut cases = vec![];
    for packet in captures::all() {
        for length in 0..=packet.len() {
            cases.push(Case::open(random, packet[..length].to_vec()));
        }
    }
    cases
}

fn mutated_captures(random: &mut Random) -> Vec<Case> {
    let mut cases = vec![];
    for packet in captures::all() {
        let packet = damage::mutate(random, packet);
        cases.push(Case::open(random, packet));
    }
    cases
}

//! Named cases of the receiver and the mark writer.

use super::super::answers::Stepped;
use super::super::receivers::Pair;
use super::{same, Case, Given};
use crate::captures;
use independent::packets::{older, red};
use independent::{paper, read, LEVEL};
use stewpigeon::lent::{self, Step};

pub const CASES: [Case; 18] = [
    ("T1: no bytes", t1),
    ("T2: 80 62 and ten zeros", t2),
    ("T3, T4: the paper's packet, and again", t3_t4),
    ("T5: expected 6, sequence 9, r 2", t5),
    ("T6: expected 65,535, sequence 0, r 1", t6),
    ("T9: ED A0 80", t9),
    ("T10: F4 8F BF BF", t10),
    ("1,472 and 1,473 bytes", sizes),
    ("padding equal to the payload", padding),
    ("C0 80 and F4 90 80 80 in a packet", bad_letters),
    ("every reader's case on a fresh receiver", all_of_the_paper),
    ("a refused opening, and the zero receiver", zero_receiver),
    ("another source: 16", other_source),
    ("older blocks of impossible ages: 22", impossible_ages),
    (
        "every distance, all numbers of older blocks",
        every_distance,
    ),
    ("as many lost as repeated, and one more", lost),
    ("marks into 0 to 10 bytes", marks),
    ("the captures", captured),
];

pub fn open(given: &mut Given<'_>) -> Result<Pair, String> {
    Pair::open(given.random, 98, 100, given.tally)
}

pub fn step(given: &mut Given<'_>, pair: &mut Pair, packet: &[u8]) -> Result<Stepped, String> {
    pair.step(given.random, packet, given.tally)
}

/// The answer of a fresh receiver.
fn fresh(given: &mut Given<'_>, packet: &[u8]) -> Result<Stepped, String> {
    let mut pair = open(given)?;
    step(given, &mut pair, packet)
}

/// A receiver that expects this number next.
pub fn expecting(given: &mut Given<'_>, number: u16) -> Result<Pair, String> {
    let mut pair = open(given)?;
    let packet = red(number.wrapping_sub(1), &[], b"");
    step(given, &mut pair, &packet)?.map_err(|number| format!("{number}"))?;
    same(pair.expected(), Some(number))?;
    Ok(pair)
}

fn case(name: &str) -> Vec<u8> {
    let mut cases = paper::cases().into_iter();
    let case = cases.find(|case| case.name == name);
    case.expect("a case of the paper").packet
}

/// Course, loss, distance, text and the number expected next.
type Seen = Result<(u8, u16, i16, Vec<u8>, Option<u16>), u8>;

fn seen(given: &mut Given<'_>, pair: &mut Pair, packet: &[u8]) -> Result<Seen, String> {
    let answer = step(given, pair, packet)?;
    Ok(answer.map(|step| {
        let text = packet[step.from..step.to].to_vec();
        let next = pair.expected();
        (step.course, step.loss, step.distance, text, next)
    }))
}

fn t1(given: &mut Given<'_>) -> Result<(), String> {
    same(fresh(given, &[])?, Err(10))
}

fn t2(given: &mut Given<'_>) -> Result<(), String> {
    let mut packet = vec![0x80, 0x62];
    packet.extend([0; 10]);
    let mut pair = open(given)?;
    let seen = seen(given, &mut pair, &packet)?;
    same(seen, Ok((Step::FORWARD, 0, 0, vec![], Some(1))))
}

fn t3_t4(given: &mut Given<'_>) -> Result<(), String> {
    let packet = case("T3");
    let mut pair = open(given)?;
    let first = seen(given, &mut pair, &packet)?;
    same(first, Ok((Step::FORWARD, 0, 0, b"A".to_vec(), Some(6))))?;
    let read = read(None, 98, 100, &packet).map_err(|number| format!("{number}"))?;
    let offsets: Vec<u16> = read.older().map(|older| older.offset).collect();
    same(&offsets[..], &[300])?;
    let again = seen(given, &mut pair, &packet)?;
    same(again, Ok((Step::LATE, 0, -1, vec![], Some(6))))
}

fn t5(given: &mut Given<'_>) -> Result<(), String> {
    if given.tally.leaves_out("T5", 2) {
        return Ok(());
    }
    let mut pair = expecting(given, 6)?;
    let seen = seen(given, &mut pair, &red(9, &[b"g", b"h"], b"i"))?;
    same(seen, Ok((Step::FORWARD, 1, 3, b"ghi".to_vec(), Some(10))))
}

fn t6(given: &mut Given<'_>) -> Result<(), String> {
    let mut pair = expecting(given, 65_535)?;
    let seen = seen(given, &mut pair, &red(0, &[b"a"], b"b"))?;
    same(seen, Ok((Step::FORWARD, 0, 1, b"ab".to_vec(), Some(1))))
}

const PLACES: [&str; 3] = ["in T140", "in a primary", "in an older block"];

/// Bytes of this name, in each place of a packet: their text or refusal.
fn letters(given: &mut Given<'_>, name: &str, due: Result<&[u8], u8>) -> Result<(), String> {
    for place in PLACES {
        let packet = case(&format!("{name} {place}"));
        let answer = fresh(given, &packet)?;
        same(answer.map(|step| &packet[step.from..step.to]), due)?;
    }
    Ok(())
}

fn t9(given: &mut Given<'_>) -> Result<(), String> {
    letters(given, "T9", Err(21))
}

fn t10(given: &mut Given<'_>) -> Result<(), String> {
    letters(given, "T10", Ok(&[0xf4, 0x8f, 0xbf, 0xbf]))
}

fn bad_letters(given: &mut Given<'_>) -> Result<(), String> {
    letters(given, "C0 80", Err(21))?;
    letters(given, "F4 90 80 80", Err(21))
}

fn length(answer: Stepped) -> Result<usize, u8> {
    answer.map(|step| step.to - step.from)
}

fn sizes(given: &mut Given<'_>) -> Result<(), String> {
    for (name, due) in [
        ("1,472 bytes of T140", Ok(1460)),
        ("1,472 bytes of RED", Ok(1459)),
        ("1,473 bytes", Err(11)),
    ] {
        same(length(fresh(given, &case(name))?), due)?;
    }
    Ok(())
}

fn padding(given: &mut Given<'_>) -> Result<(), String> {
    let packet = case("padding equal to the payload in T140");
    same(length(fresh(given, &packet)?), Ok(0))?;
    let packet = case("padding equal to the payload in RED");
    same(length(fresh(given, &packet)?), Err(17))
}

fn all_of_the_paper(given: &mut Given<'_>) -> Result<(), String> {
    for case in paper::cases() {
        if case.expected.is_some() {
            continue;
        }
        let mut pair = Pair::open(given.random, case.t140, case.red, given.tally)?;
        let answer = step(given, &mut pair, &case.packet)?;
        let due = case.result.map(|due| due.end.into());
        same(answer.map(|step| step.to), due)?;
    }
    Ok(())
}

fn zero_receiver(given: &mut Given<'_>) -> Result<(), String> {
    for (t140, red) in [(95, 100), (128, 100), (98, 95), (98, 128), (98, 98), (0, 0)] {
        let mut zero = Pair::open(given.random, t140, red, given.tally)?;
        for packet in [case("T1"), case("T3"), case("1,473 bytes")] {
            same(step(given, &mut zero, &packet)?, Err(3))?;
            same(zero.record(), lent::Receiver::ZERO)?;
        }
    }
    Ok(())
}

fn other_source(given: &mut Given<'_>) -> Result<(), String> {
    let mut pair = expecting(given, 6)?;
    for sequence in [5, 6, 7, 40_000] {
        let mut packet = red(sequence, &[], b"x");
        packet[11] ^= 1;
        same(step(given, &mut pair, &packet)?, Err(16))?;
    }
    Ok(())
}

/// The receiver stays where it is, fresh or not, and what such a packet held
/// comes with the next one's repeats.
fn impossible_ages(given: &mut Given<'_>) -> Result<(), String> {
    let mut zero = red(6, &[b"g"], b"h");
    zero[13..15].fill(0);
    let mut bad_text = zero.clone();
    *bad_text.last_mut().expect("a primary") = 0xff;
    let mut passing = zero.clone();
    passing[15] = 3;
    let mut other = zero.clone();
    other[11] ^= 1;
    let mut fresh = open(given)?;
    let mut heard = expecting(given, 6)?;
    for (pair, source) in [(&mut fresh, 22), (&mut heard, 16)] {
        let before = pair.record();
        for (packet, due) in [
            (&zero, 22),
            (&bad_text, 22),
            (&passing, 20),
            (&other, source),
        ] {
            same(step(given, pair, packet)?, Err(due))?;
            same(pair.record(), before)?;
        }
    }
    let seen = seen(given, &mut heard, &red(7, &[b"h"], b"i"))?;
    same(seen, Ok((Step::FORWARD, 0, 1, b"hi".to_vec(), Some(8))))
}

/// Each receiver is moved by the packet, so each distance has its own.
fn every_distance(given: &mut Given<'_>) -> Result<(), String> {
    let near = LEVEL as u32 + 8;
    let half = (0..near).chain(2_990..3_010).chain(32_760..32_780);
    for d in half.chain(65_425..65_536) {
        for r in 0..=LEVEL {
            let mut pair = expecting(given, 65_530)?;
            let sequence = (65_530 + d) % 65_536;
            let packet = red(sequence as u16, older(r), b"p");
            let answer = step(given, &mut pair, &packet)?;
            let wanted = r.min(d as usize);
            let (ahead, behind) = (d as i32, d as i32 - 65_536);
            let due = match d {
                0..=2_998 => (Step::FORWARD, d - wanted as u32, ahead, wanted + 1),
                2_999..=32_767 => (Step::JUMP, 0, ahead, 0),
                32_768..=65_435 => (Step::JUMP, 0, behind, 0),
                _ => (Step::LATE, 0, behind, 0),
            };
            let seen = |step: Step| {
                let (loss, distance) = (step.loss.into(), step.distance.into());
                (step.course, loss, distance, step.given)
            };
            same(answer.map(seen), Ok(due))?;
        }
    }
    Ok(())
}

fn lost(given: &mut Given<'_>) -> Result<(), String> {
    for r in 0..=LEVEL {
        let text = [&older(r).concat()[..], b"p"].concat();
        for loss in [0, 1] {
            let d = r as u16 + loss;
            let mut pair = expecting(given, 65_530)?;
            let number = 65_530_u16.wrapping_add(d);
            let seen = seen(given, &mut pair, &red(number, older(r), b"p"))?;
            let next = Some(number.wrapping_add(1));
            let due = (Step::FORWARD, loss, d as i16, text.clone(), next);
            same(seen, Ok(due))?;
        }
    }
    Ok(())
}

fn marks(_: &mut Given<'_>) -> Result<(), String> {
    for length in 0..=10 {
        for count in [0, 1, 2, 3, 4, 32_767, usize::MAX] {
            let mut space = vec![0x55; length];
            let written = lent::write_marks(count, &mut space);
            same(written, count.min(length / 3))?;
            let mut due = [0xef, 0xbf, 0xbd].repeat(written);
            due.resize(length, 0x55);
            same(space, due)?;
        }
    }
    Ok(())
}

fn captured(given: &mut Given<'_>) -> Result<(), String> {
    let mut pair = open(given)?;
    for packet in captures::all() {
        step(given, &mut pair, &packet)?.ok();
    }
    Ok(())
}

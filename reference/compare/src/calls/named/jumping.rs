//! Named cases of jumps and breaks.

use super::super::receivers::Pair;
use super::receiving::{expecting, open, step};
use super::{same, Case, Given};
use independent::packets::{older, red};
use independent::LEVEL;
use stewpigeon::lent::Step;
use Seen::{Break, Forward, Jump, Late, Refused};

pub const CASES: [Case; 9] = [
    ("T7: expected 6, sequence 32,773, r 0", t7),
    ("T8: expected 6, sequence 32,774", t8),
    ("T8 behind T7", t8_behind_t7),
    ("the window's ends", ends),
    (
        "late, refused and copied ones before a break",
        before_a_break,
    ),
    (
        "no break: another number, or a forward one between",
        no_break,
    ),
    ("the number kept, forward or late", kept_but_no_jump),
    ("a break from 65,535 to 0", over_wrap),
    ("a break gives all its blocks", all_blocks),
];

/// An answer with its distance, or with its loss where it gives text.
#[derive(Debug, PartialEq, Eq)]
enum Seen {
    Refused(u8),
    Late(i16),
    Jump(i16),
    Forward(u16),
    Break,
}

fn seen(given: &mut Given<'_>, pair: &mut Pair, packet: &[u8]) -> Result<Seen, String> {
    Ok(match step(given, pair, packet)? {
        Err(number) => Refused(number),
        Ok(step) => match step.course {
            Step::LATE => Late(step.distance),
            Step::JUMP => Jump(step.distance),
            Step::BREAK => Break,
            _ => Forward(step.loss),
        },
    })
}

fn packet(number: u16) -> Vec<u8> {
    red(number, &[], b"x")
}

/// The number that a receiver keeps.
fn kept(pair: &Pair) -> Option<u16> {
    let record = pair.record();
    (record.has_kept != 0).then_some(record.kept)
}

/// A packet's answer, and the number kept afterwards.
type Row = (Vec<u8>, Seen, Option<u16>);

/// Rows on one receiver, in order. Its newest number is this one.
fn rows<const N: usize>(given: &mut Given<'_>, newest: u16, rows: [Row; N]) -> Result<(), String> {
    let mut pair = expecting(given, newest.wrapping_add(1))?;
    for (packet, due, keeps) in rows {
        same(seen(given, &mut pair, &packet)?, due)?;
        same(kept(&pair), keeps)?;
    }
    Ok(())
}

fn t7(given: &mut Given<'_>) -> Result<(), String> {
    rows(given, 5, [(packet(32_773), Jump(32_767), Some(32_774))])
}

fn t8(given: &mut Given<'_>) -> Result<(), String> {
    rows(given, 5, [(packet(32_774), Jump(-32_768), Some(32_775))])
}

fn t8_behind_t7(given: &mut Given<'_>) -> Result<(), String> {
    rows(
        given,
        5,
        [
            (packet(32_773), Jump(32_767), Some(32_774)),
            (packet(32_774), Break, None),
            (packet(32_775), Forward(0), None),
        ],
    )
}

/// Each on a receiver of its own.
fn ends(given: &mut Given<'_>) -> Result<(), String> {
    let repeats = red(3_004, older(LEVEL), b"x");
    for row in [
        (packet(5), Late(-1), None),
        (packet(6), Forward(0), None),
        (packet(3_004), Forward(2_998), None),
        (repeats, Forward(2_998 - LEVEL as u16), None),
        (packet(3_005), Jump(2_999), Some(3_006)),
        (packet(65_442), Late(-100), None),
        (packet(65_441), Jump(-101), Some(65_442)),
    ] {
        rows(given, 5, [row])?;
    }
    Ok(())
}

/// None of them changes the number kept.
fn before_a_break(given: &mut Given<'_>) -> Result<(), String> {
    let keeps = Some(10_001);
    let mut other_source = packet(10_001);
    other_source[11] ^= 1;
    rows(
        given,
        5,
        [
            (packet(10_000), Jump(9_994), keeps),
            (packet(5), Late(-1), keeps),
            (other_source, Refused(16), keeps),
            (packet(10_001)[..11].to_vec(), Refused(10), keeps),
            (packet(65_442), Late(-100), keeps),
            (packet(10_000), Jump(9_994), keeps),
            (packet(10_001), Break, None),
            (packet(10_001), Late(-1), None),
        ],
    )
}

fn no_break(given: &mut Given<'_>) -> Result<(), String> {
    rows(
        given,
        5,
        [
            (packet(10_000), Jump(9_994), Some(10_001)),
            (packet(6), Forward(0), None),
            (packet(10_001), Jump(9_994), Some(10_002)),
            (packet(20_000), Jump(19_993), Some(20_001)),
            (packet(10_002), Jump(9_995), Some(10_003)),
        ],
    )
}

fn kept_but_no_jump(given: &mut Given<'_>) -> Result<(), String> {
    let late = [
        (packet(65_441), Jump(-101), Some(65_442)),
        (packet(65_442), Late(-100), Some(65_442)),
    ];
    rows(given, 5, late)?;
    let forward = [
        (packet(3_005), Jump(2_999), Some(3_006)),
        (packet(9), Forward(3), None),
        (packet(3_006), Forward(2_996), None),
    ];
    rows(given, 5, forward)
}

fn over_wrap(given: &mut Given<'_>) -> Result<(), String> {
    let alone = [(packet(0), Jump(25_535), Some(1))];
    rows(given, 40_000, alone)?;
    let after_the_last = [
        (packet(65_535), Jump(25_534), Some(0)),
        (packet(0), Break, None),
        (packet(1), Forward(0), None),
    ];
    rows(given, 40_000, after_the_last)
}

/// It leaves what a fresh receiver with the same packet would.
fn all_blocks(given: &mut Given<'_>) -> Result<(), String> {
    for r in 0..=LEVEL {
        let mut pair = expecting(given, 6)?;
        same(seen(given, &mut pair, &packet(10_000))?, Jump(9_994))?;
        let packet = red(10_001, older(r), b"p");
        let answer = step(given, &mut pair, &packet)?;
        let text = [older(r).concat(), b"p".to_vec()].concat();
        let due = Step {
            course: Step::BREAK,
            loss: 0,
            distance: 0,
            older: r,
            given: r + 1,
            from: packet.len() - text.len(),
            to: packet.len(),
        };
        same(answer, Ok(due))?;
        same(&packet[due.from..due.to], &text)?;
        let mut fresh = open(given)?;
        step(given, &mut fresh, &packet)?.map_err(|number| format!("{number}"))?;
        same(pair.record(), fresh.record())?;
    }
    Ok(())
}

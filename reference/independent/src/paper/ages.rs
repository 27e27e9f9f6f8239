//! Cases of the older blocks' time offsets: 22, after 20 and before 21.

use super::{behind, case, older, red, Case, Outcome};
use crate::LEVEL;

/// The headers of older blocks of one byte, then what follows.
fn headers(offsets: &[u16], rest: &[u8]) -> Vec<u8> {
    let mut payload = vec![];
    for offset in offsets {
        let header = 0xe200_0000 | u32::from(*offset) << 10 | 1;
        payload.extend(header.to_be_bytes());
    }
    payload.extend(rest);
    red(&payload)
}

/// Older blocks of these offsets, each an `a`, and the primary `b`.
fn aged(name: &'static str, offsets: &[u16], result: Outcome) -> Case {
    let blocks = [&[0x62], &b"a".repeat(offsets.len())[..], b"b"].concat();
    case(name, headers(offsets, &blocks), result).needs(offsets.len())
}

pub fn cases() -> Vec<Case> {
    let mut cases = accepted();
    cases.extend(refused());
    cases.extend(order());
    cases
}

fn accepted() -> Vec<Case> {
    let good = |name, offsets: &[u16]| {
        let start = 13 + 4 * offsets.len() as u16;
        let blocks = offsets.iter().zip(start..);
        let blocks = blocks.map(|(offset, start)| older(*offset, start, 1));
        let primary = start + offsets.len() as u16;
        let holds = behind(blocks.collect(), primary, primary + 1);
        aged(name, offsets, Ok(holds))
    };
    let down_to_1: Vec<u16> = (1..=LEVEL as u16).rev().collect();
    let from_16_383: Vec<u16> = (0..LEVEL as u16).map(|older| 16_383 - older).collect();
    vec![
        good("offset 1", &[1]),
        good("offset 16,383", &[16_383]),
        good("offsets 600, 300", &[600, 300]),
        good("as many offsets as may be, down to 1", &down_to_1),
        good("as many offsets as may be, from 16,383", &from_16_383),
    ]
}

fn refused() -> Vec<Case> {
    let bad = |name, offsets: &[u16]| aged(name, offsets, Err(22));
    let down_to_0: Vec<u16> = (0..LEVEL as u16).rev().collect();
    let mut too_low: Vec<u16> = (1..=LEVEL as u16).rev().collect();
    too_low[0] -= 1;
    vec![
        bad("offset 0", &[0]),
        bad("offsets 600, 0", &[600, 0]),
        bad("offsets 300, 300", &[300, 300]),
        bad("offsets 300, 600", &[300, 600]),
        bad("offsets 2, 3, 1", &[2, 3, 1]),
        bad("offsets 4, 3, 3, 1", &[4, 3, 3, 1]),
        bad("as many offsets as may be, down to 0", &down_to_0),
        bad("as many offsets as may be, the first too low", &too_low),
    ]
}

/// Impossible offsets and another fault.
fn order() -> Vec<Case> {
    let equal = |name, rest: &[u8], number| {
        let packet = headers(&[300, 300], rest);
        case(name, packet, Err(number)).needs(2)
    };
    vec![
        Case {
            expected: Some(7),
            ..aged("16 before 22", &[0], Err(16))
        },
        equal("17 before 22", &[], 17),
        case("18 before 22", headers(&[300; LEVEL], &[0xe2]), Err(18)),
        equal("19 before 22", &[0x63, b'a', b'a'], 19),
        equal("20 before 22", &[0x62, b'a'], 20),
        equal("22 before 21 in an older block", &[0x62, b'a', 0xff], 22),
        equal("22 before 21 in the primary", &[0x62, b'a', b'a', 0xff], 22),
    ]
}

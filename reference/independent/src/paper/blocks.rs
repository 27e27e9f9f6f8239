//! The refusals of the source and the blocks, 16 to 21.

use super::{behind, case, older, one_older, packet, red, t140, t3_holds, Case, T3};
use crate::LEVEL;

pub fn cases() -> Vec<Case> {
    let mut cases = sources();
    cases.extend(headers());
    cases.extend(behind_the_last_header());
    cases.extend(contents());
    cases
}

fn sources() -> Vec<Case> {
    let source_7 = |name, packet, result| Case {
        expected: Some(7),
        ..case(name, packet, result)
    };
    vec![
        source_7("15 before 16", packet([0x80, 0x63], &[]), Err(15)),
        source_7("16 before 17", red(&[]), Err(16)),
        source_7("16 before 21", t140(&[0xff]), Err(16)),
        Case {
            expected: Some(0x11223344),
            ..case("T3 with its source expected", T3.to_vec(), Ok(t3_holds()))
        },
    ]
}

fn headers() -> Vec<Case> {
    let wrong_older = [0xe3, 0, 4, 0];
    vec![
        case("RED without a payload", red(&[]), Err(17)),
        case("no header of a primary", red(&[0xe2, 0, 4, 0]), Err(17)),
        case("3 bytes of an older header", red(&[0xe2, 0, 4]), Err(17)),
        case(
            "3 bytes of a wrong older header",
            red(&wrong_older[..3]),
            Err(17),
        ),
        case("older type wrong", red(&[0xe3, 0, 4, 0, 0x62]), Err(19)),
        case("primary type wrong", red(&[0x64]), Err(19)),
    ]
}

/// As many good older headers of empty blocks as there may be, then what
/// follows.
fn all_older(rest: &[u8]) -> Vec<u8> {
    let ages = (1..=LEVEL as u8).rev();
    let mut payload: Vec<u8> = ages.flat_map(|age| [0xe2, 0, 4 * age, 0]).collect();
    payload.extend(rest);
    red(&payload)
}

/// The header behind as many older ones as there may be: 17, 18 and 19 in
/// their order.
fn behind_the_last_header() -> Vec<Case> {
    let start = 13 + 4 * LEVEL as u16;
    let ages = (1..=LEVEL as u16).rev();
    let blocks = ages.map(|age| older(age, start, 0)).collect();
    vec![
        case(
            "as many older headers as may be",
            all_older(&[0x62]),
            Ok(behind(blocks, start, start)),
        ),
        case("nothing behind the last header", all_older(&[]), Err(17)),
        case(
            "a primary's type wrong behind the last header",
            all_older(&[0x61]),
            Err(19),
        ),
        case(
            "one older header too many, 1 byte",
            all_older(&[0xe2]),
            Err(18),
        ),
        case(
            "one older header too many, 3 bytes of a wrong type",
            all_older(&[0xe1, 0, 0]),
            Err(18),
        ),
        case(
            "one older header too many, of a wrong type",
            all_older(&[0xe1, 0, 0, 0]),
            Err(18),
        ),
        case(
            "one older header too many",
            all_older(&[0xe2, 0, 4, 0, 0x62]),
            Err(18),
        ),
    ]
}

fn contents() -> Vec<Case> {
    let split = one_older(&[0xc3], &[0xa9]);
    vec![
        case(
            "older length passes the end",
            red(&[0xe2, 0, 4, 1, 0x62]),
            Err(20),
        ),
        case(
            "older lengths together pass the end, before 21",
            red(&[0xe2, 0, 8, 2, 0xe2, 0, 4, 1, 0x62, 0xff, 0xff]),
            Err(20),
        )
        .needs(2),
        case(
            "largest offset and length",
            red(&[&[0xe2, 0xff, 0xff, 0xff, 0x62][..], &[b'a'; 1023]].concat()),
            Ok(behind(vec![older(16383, 17, 1023)], 1040, 1040)),
        ),
        case("letter split between two blocks", split, Err(21)),
    ]
}

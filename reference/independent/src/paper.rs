//! The scope paper's cases for a reader, with the results it names, and one
//! case for each pair of checks whose order it fixes. T140 is 98, RED 100.

use crate::{Contents, Older, LEVEL};

mod ages;
mod blocks;

/// What an accepted packet holds, or the refusal.
type Outcome = Result<Contents, u8>;

/// A packet, the settings it is read with and what must come of it.
pub struct Case {
    pub name: &'static str,
    pub expected: Option<u32>,
    pub t140: u8,
    pub red: u8,
    pub packet: Vec<u8>,
    pub result: Outcome,
    /// The least [`LEVEL`] at which this comes of it.
    pub level: usize,
}

impl Case {
    fn needs(self, level: usize) -> Case {
        Case { level, ..self }
    }
}

fn case(name: &'static str, packet: Vec<u8>, result: Outcome) -> Case {
    Case {
        name,
        expected: None,
        t140: 98,
        red: 100,
        packet,
        result,
        level: 1,
    }
}

/// Numbers of 0 and a primary from `start` to `end`.
fn primary(start: u16, end: u16) -> Contents {
    behind(vec![], start, end)
}

/// The same behind older blocks.
fn behind(older: Vec<Older>, start: u16, end: u16) -> Contents {
    Contents {
        marker: false,
        sequence: 0,
        timestamp: 0,
        source: 0,
        older,
        start,
        end,
    }
}

fn older(offset: u16, start: u16, length: u16) -> Older {
    Older {
        offset,
        start,
        length,
    }
}

/// Two first bytes, ten zeros and what follows.
fn packet(first: [u8; 2], rest: &[u8]) -> Vec<u8> {
    let mut packet = first.to_vec();
    packet.extend([0; 10]);
    packet.extend(rest);
    packet
}

fn t140(payload: &[u8]) -> Vec<u8> {
    packet([0x80, 0x62], payload)
}

fn red(payload: &[u8]) -> Vec<u8> {
    packet([0x80, 0x64], payload)
}

/// A RED packet with one older block and a primary.
fn one_older(older: &[u8], primary: &[u8]) -> Vec<u8> {
    let header = [0xe2, 4, 0xb0, older.len() as u8, 0x62];
    red(&[&header, older, primary].concat())
}

const T3: [u8; 18] = [
    0x80, 0x64, 0x00, 0x05, 0x00, 0x00, 0x03, 0xe8, 0x11, 0x22, 0x33, 0x44, 0xe2, 0x04, 0xb0, 0x01,
    0x62, 0x41,
];

fn t3_holds() -> Contents {
    Contents {
        sequence: 5,
        timestamp: 1000,
        source: 0x11223344,
        ..behind(vec![older(300, 17, 1)], 18, 18)
    }
}

/// T1, T2, T3, T9, T10 and the cases that are run only.
fn line_tests() -> Vec<Case> {
    let surrogate = [0xed, 0xa0, 0x80];
    let last = [0xf4, 0x8f, 0xbf, 0xbf];
    let past = [0xf4, 0x90, 0x80, 0x80];
    let overlong = [0xc0, 0x80];
    let letters = [b'a'; 1461];
    let full_red = [&[0x62], &letters[..1459]].concat();
    vec![
        case("T1", vec![], Err(10)),
        case("T2", t140(&[]), Ok(primary(12, 12))),
        case("T3", T3.to_vec(), Ok(t3_holds())),
        case("T9 in T140", t140(&surrogate), Err(21)),
        case("T9 in a primary", one_older(b"", &surrogate), Err(21)),
        case("T9 in an older block", one_older(&surrogate, b""), Err(21)),
        case("T10 in T140", t140(&last), Ok(primary(12, 16))),
        case(
            "T10 in a primary",
            one_older(b"", &last),
            Ok(behind(vec![older(300, 17, 0)], 17, 21)),
        ),
        case(
            "T10 in an older block",
            one_older(&last, b""),
            Ok(behind(vec![older(300, 17, 4)], 21, 21)),
        ),
        case(
            "1,472 bytes of T140",
            t140(&letters[..1460]),
            Ok(primary(12, 1472)),
        ),
        case("1,472 bytes of RED", red(&full_red), Ok(primary(13, 1472))),
        case("1,473 bytes", t140(&letters), Err(11)),
        case(
            "padding equal to the payload in T140",
            packet([0xa0, 0x62], &[0x41, 0x41, 3]),
            Ok(primary(12, 12)),
        ),
        case(
            "padding equal to the payload in RED",
            packet([0xa0, 0x64], &[0x62, 0x41, 3]),
            Err(17),
        ),
        case("C0 80 in T140", t140(&overlong), Err(21)),
        case("C0 80 in a primary", one_older(b"", &overlong), Err(21)),
        case(
            "C0 80 in an older block",
            one_older(&overlong, b""),
            Err(21),
        ),
        case("F4 90 80 80 in T140", t140(&past), Err(21)),
        case("F4 90 80 80 in a primary", one_older(b"", &past), Err(21)),
        case(
            "F4 90 80 80 in an older block",
            one_older(&past, b""),
            Err(21),
        ),
    ]
}

/// The refusals of the packet's header, 3 and 10 to 15.
fn headers() -> Vec<Case> {
    let settings = |name, t140, red| Case {
        t140,
        red,
        ..case(name, vec![], Err(3))
    };
    let long_of_version_0 = [0; 1473].to_vec();
    vec![
        settings("T140 below 96, before 10", 95, 100),
        settings("T140 above 127, before 10", 128, 100),
        settings("RED below 96, before 10", 98, 95),
        settings("RED above 127, before 10", 98, 128),
        settings("types equal, before 10", 98, 98),
        settings("types 0, before 10", 0, 0),
        case("11 bytes of version 0", vec![0; 11], Err(10)),
        case("1,473 bytes of version 0", long_of_version_0, Err(11)),
        case("version 0", packet([0x00, 0x62], &[]), Err(12)),
        case("version 1", packet([0x40, 0x62], &[]), Err(12)),
        case("version 3 before 13", packet([0xdf, 0x62], &[]), Err(12)),
        case(
            "source list passes the end",
            packet([0x81, 0x62], &[0; 3]),
            Err(13),
        ),
        case(
            "source list meets the end",
            packet([0x81, 0x62], &[0; 4]),
            Ok(primary(16, 16)),
        ),
        case(
            "extension of 3 bytes",
            packet([0x90, 0x62], &[0; 3]),
            Err(13),
        ),
        case(
            "extension of no word",
            packet([0x90, 0x62], &[0xbe, 0xde, 0, 0]),
            Ok(primary(16, 16)),
        ),
        case(
            "extension's words pass the end",
            packet([0x90, 0x62], &[0, 0, 0, 1, 0, 0, 0]),
            Err(13),
        ),
        case(
            "extension past the end before 14 and 15",
            packet([0xb0, 0x00], &[0, 0, 0xff, 0xff, 0]),
            Err(13),
        ),
        case(
            "padding without a payload",
            packet([0xa0, 0x62], &[]),
            Err(14),
        ),
        case("padding count 0", packet([0xa0, 0x62], &[0x41, 0]), Err(14)),
        case(
            "padding above the payload",
            packet([0xa0, 0x62], &[0x41, 3]),
            Err(14),
        ),
        case(
            "padding before 15",
            packet([0xa0, 0x00], &[0x41, 0]),
            Err(14),
        ),
        case(
            "padding need not be UTF-8",
            packet([0xa0, 0xe2], &[0x41, 0xff, 2]),
            Ok(Contents {
                marker: true,
                ..primary(12, 13)
            }),
        ),
        case("payload type 0", packet([0x80, 0x00], &[]), Err(15)),
        case("payload type 99", packet([0x80, 0xe3], &[]), Err(15)),
    ]
}

fn all() -> Vec<Case> {
    let mut cases = line_tests();
    cases.extend(headers());
    cases.extend(blocks::cases());
    cases.extend(ages::cases());
    cases
}

/// The cases of this level.
pub fn cases() -> Vec<Case> {
    let mut cases = all();
    cases.retain(|case| case.level <= LEVEL);
    cases
}

/// Those that need a higher one.
pub fn left_out() -> Vec<Case> {
    let mut cases = all();
    cases.retain(|case| case.level > LEVEL);
    cases
}

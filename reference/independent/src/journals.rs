//! Journals with what must be printed for them, from the scope paper's
//! words. T140 is 98, RED 100.

use crate::receiver::MARK;
use crate::recorder::Recorder;
use crate::LEVEL;

mod broken;
mod jumps;
mod repeats;
mod whole;

/// A journal and its transcript.
pub struct Case {
    pub name: &'static str,
    pub journal: Vec<u8>,
    pub printed: Vec<u8>,
    /// The least [`LEVEL`] at which this is printed.
    pub level: usize,
}

impl Case {
    fn needs(self, level: usize) -> Case {
        Case { level, ..self }
    }
}

/// The paper's whole case.
pub const WHOLE: [u8; 41] = [
    0x01, 0x62, 0x64, 0x02, 0x00, 0x12, 0x03, 0x80, 0x64, 0x00, 0x05, 0x00, 0x00, 0x03, 0xe8, 0x11,
    0x22, 0x33, 0x44, 0xe2, 0x04, 0xb0, 0x01, 0x03, 0x62, 0x41, 0, 0, 0, 0, 0, 0, 0, 0, 0, 0, 0, 0,
    0, 0, 0x00,
];

/// Every case, the paper's own first, also those that need a higher level.
pub fn all() -> Vec<Case> {
    let mut cases = vec![case(
        "whole-case",
        WHOLE.to_vec(),
        "A",
        "1 late 0 lost 0 refused 0",
    )];
    cases.extend(whole::cases());
    cases.extend(repeats::cases());
    cases.extend(jumps::cases());
    cases.extend(broken::cases());
    cases
}

/// The cases of this level.
pub fn cases() -> Vec<Case> {
    let mut cases = all();
    cases.retain(|case| case.level <= LEVEL);
    cases
}

/// A journal that is not broken.
fn case(name: &'static str, journal: Vec<u8>, text: impl AsRef<[u8]>, counts: &str) -> Case {
    let mut printed = text.as_ref().to_vec();
    printed.extend(format!("\npackets {counts}\n").bytes());
    Case {
        name,
        journal,
        printed,
        level: 1,
    }
}

/// A broken journal.
fn broken(name: &'static str, journal: Vec<u8>, text: &str) -> Case {
    Case {
        name,
        journal,
        printed: [text, "\njournal broken\n"].concat().into_bytes(),
        level: 1,
    }
}

const ONE: &str = "1 late 0 lost 0 refused 0";
const TWO: &str = "2 late 0 lost 0 refused 0";

fn open() -> Recorder {
    Recorder::open(98, 100)
}

/// A journal of two packets.
fn two(first: Vec<u8>, second: Vec<u8>) -> Vec<u8> {
    open().packet(&first).packet(&second).end()
}

/// A T140 packet.
pub fn t140(sequence: u16, text: &str) -> Vec<u8> {
    let mut packet = header(98, sequence);
    packet.extend(text.bytes());
    packet
}

/// A RED packet with these older blocks, oldest first, and this primary.
pub fn red(sequence: u16, older: &[&str], primary: &str) -> Vec<u8> {
    let mut packet = header(100, sequence);
    for (block, back) in older.iter().zip((1..=older.len()).rev()) {
        let header = 0xe200_0000 | (300 * back as u32) << 10 | block.len() as u32;
        packet.extend(header.to_be_bytes());
    }
    packet.push(98);
    packet.extend(older.concat().bytes());
    packet.extend(primary.bytes());
    packet
}

fn header(payload_type: u8, sequence: u16) -> Vec<u8> {
    let [high, low] = sequence.to_be_bytes();
    vec![
        0x80,
        payload_type,
        high,
        low,
        0,
        0,
        3,
        0xe8,
        0x11,
        0x22,
        0x33,
        0x44,
    ]
}

/// So many marks.
fn marks(count: usize) -> String {
    String::from_utf8(MARK.repeat(count)).expect("a mark is a letter")
}

//! Named cases of the sender.

use super::super::expected::library_settings;
use super::super::held::Held;
use super::super::library::sender_open;
use super::super::senders::Pair;
use super::super::space::Space;
use super::{same, Case, Given};
use independent::sender::Settings;
use independent::{read, LEVEL};

pub const CASES: [Case; 10] = [
    ("T11: R 2, time 300, first sequence 65,535", t11),
    ("T12: R 1, next call 16,383 or 16,384", t12),
    ("160 and 161 bytes offered", room),
    ("C0 80 and F4 90 80 80 offered", bad_letters),
    ("time 300: sent at 0, offered at 300 or 301", marker),
    ("a refused opening, and the zero sender", zero_sender),
    ("refusal 8 does not keep the clock", refused_clock),
    ("last packet at 2^64 - 601, time 500", near_the_end),
    ("R above the highest: 1, also with time 0", levels),
    ("the longest packets", longest),
];

pub const USUAL: Settings = Settings {
    level: LEVEL,
    buffering: 300,
    rate: 30,
    t140: 98,
    red: 100,
    sequence: 65_535,
    timestamp: 1000,
    source: 0x11223344,
};

fn open(given: &mut Given<'_>, level: usize, buffering: u64) -> Result<Pair, String> {
    let settings = Settings {
        level,
        buffering,
        ..USUAL
    };
    Pair::open(given.random, &settings, given.tally)
}

pub fn offer(
    given: &mut Given<'_>,
    pair: &mut Pair,
    clock: u64,
    text: &[u8],
) -> Result<u8, String> {
    pair.offer(given.random, clock, text, given.tally)
}

/// A clock call's answer: the packet, nothing, or a refusal's number.
pub type Clocked = Result<Option<Vec<u8>>, u8>;

pub fn clock(given: &mut Given<'_>, pair: &mut Pair, clock: u64) -> Result<Clocked, String> {
    pair.clock(given.random, clock, Space::Exact, given.tally)
}

/// Sequence, marker, offsets and texts of the older blocks, and the primary.
pub type Seen = (u16, bool, Vec<(u16, Vec<u8>)>, Vec<u8>);

/// What a packet sent holds; nothing where the call is quiet.
pub fn seen(given: &mut Given<'_>, pair: &mut Pair, at: u64) -> Result<Option<Seen>, String> {
    let answer = clock(given, pair, at)?.map_err(|number| format!("refused {number}"))?;
    let Some(packet) = answer else {
        return Ok(None);
    };
    let packet = read(Some(USUAL.source), 98, 100, &packet).map_err(|n| format!("refused {n}"))?;
    same(packet.timestamp, USUAL.timestamp.wrapping_add(at as u32))?;
    let older = packet.older();
    let older = older.map(|older| (older.offset, packet.block(&older).to_vec()));
    Ok(Some((
        packet.sequence,
        packet.marker,
        older.collect(),
        packet.primary().to_vec(),
    )))
}

fn t11(given: &mut Given<'_>) -> Result<(), String> {
    if given.tally.leaves_out("T11", 2) {
        return Ok(());
    }
    let a = || b"A".to_vec();
    let mut pair = open(given, 2, 300)?;
    same(offer(given, &mut pair, 0, b"A")?, 0)?;
    let due = Some((65_535, true, vec![], a()));
    same(seen(given, &mut pair, 0)?, due)?;
    same(seen(given, &mut pair, 299)?, None)?;
    let due = Some((0, false, vec![(300, a())], vec![]));
    same(seen(given, &mut pair, 300)?, due)?;
    let due = Some((1, false, vec![(600, a()), (300, vec![])], vec![]));
    same(seen(given, &mut pair, 600)?, due)?;
    same(seen(given, &mut pair, 900)?, None)
}

fn t12(given: &mut Given<'_>) -> Result<(), String> {
    for (at, due) in [
        (
            16_383,
            Some((0, false, vec![(16_383, b"A".to_vec())], vec![])),
        ),
        (16_384, None),
    ] {
        let mut pair = open(given, 1, 300)?;
        offer(given, &mut pair, 0, b"A")?;
        seen(given, &mut pair, 0)?;
        same(seen(given, &mut pair, at)?, due)?;
    }
    Ok(())
}

fn room(given: &mut Given<'_>) -> Result<(), String> {
    let mut pair = open(given, LEVEL, 300)?;
    same(offer(given, &mut pair, 0, &[b'a'; 161])?, 4)?;
    same(offer(given, &mut pair, 0, &[b'a'; 160])?, 0)?;
    same(offer(given, &mut pair, 0, b"b")?, 4)?;
    let due = Some((65_535, true, vec![], vec![b'a'; 160]));
    same(seen(given, &mut pair, 0)?, due)
}

fn bad_letters(given: &mut Given<'_>) -> Result<(), String> {
    for text in [&[0xc0, 0x80][..], &[0xf4, 0x90, 0x80, 0x80]] {
        let mut pair = open(given, LEVEL, 300)?;
        same(offer(given, &mut pair, 0, text)?, 6)?;
        same(seen(given, &mut pair, 0)?, None)?;
    }
    Ok(())
}

fn marker(given: &mut Given<'_>) -> Result<(), String> {
    for level in 0..=LEVEL {
        for (offered, due) in [(300, false), (301, true)] {
            let mut pair = open(given, level, 300)?;
            offer(given, &mut pair, 0, b"A")?;
            let first = seen(given, &mut pair, 0)?;
            same(first.map(|seen| seen.1), Some(true))?;
            offer(given, &mut pair, offered, b"B")?;
            let second = seen(given, &mut pair, offered)?;
            same(second.map(|seen| seen.1), Some(due))?;
        }
    }
    Ok(())
}

fn zero_sender(given: &mut Given<'_>) -> Result<(), String> {
    for (level, buffering, t140, rate) in [
        (LEVEL + 1, 0, 0, 0),
        (LEVEL, 0, 0, 0),
        (LEVEL, 501, 98, 30),
        (LEVEL, 300, 100, 101),
        (LEVEL, 300, 98, 101),
    ] {
        let settings = Settings {
            level,
            buffering,
            rate,
            t140,
            ..USUAL
        };
        let mut zero = Pair::open(given.random, &settings, given.tally)?;
        for at in [0, 1, u64::MAX] {
            for text in [&b"A"[..], b"", &[0xff], &[b'a'; 161]] {
                same(offer(given, &mut zero, at, text)?, 2)?;
            }
            same(clock(given, &mut zero, at)?, Err(2))?;
            same(zero.held(), Held::ZERO)?;
        }
    }
    Ok(())
}

fn refused_clock(given: &mut Given<'_>) -> Result<(), String> {
    let mut pair = open(given, LEVEL, 300)?;
    offer(given, &mut pair, 10, b"A")?;
    let refused = pair.clock(given.random, 500, Space::OneShort, given.tally)?;
    same(refused, Err(8))?;
    same(offer(given, &mut pair, 400, b"B")?, 0)?;
    let sent = seen(given, &mut pair, 400)?;
    same(sent.map(|seen| seen.3), Some(b"AB".to_vec()))?;
    // Quiet keeps it.
    same(clock(given, &mut pair, 600)?, Ok(None))?;
    same(offer(given, &mut pair, 599, b"C")?, 5)?;
    same(clock(given, &mut pair, 599)?, Err(5))
}

fn near_the_end(given: &mut Given<'_>) -> Result<(), String> {
    let last = u64::MAX - 600;
    for level in 0..=LEVEL {
        let mut pair = open(given, level, 500)?;
        offer(given, &mut pair, last, b"A")?;
        same(seen(given, &mut pair, last)?.is_some(), true)?;
        offer(given, &mut pair, last, b"B")?;
        same(seen(given, &mut pair, last + 499)?, None)?;
        let older = [(500, b"A".to_vec())];
        let due = (0, false, older[..level.min(1)].to_vec(), b"B".to_vec());
        same(seen(given, &mut pair, last + 500)?, Some(due))?;
        same(seen(given, &mut pair, u64::MAX)?, None)?;
        same(offer(given, &mut pair, u64::MAX - 1, b"C")?, 5)?;
        same(offer(given, &mut pair, u64::MAX, b"C")?, 0)?;
        same(seen(given, &mut pair, u64::MAX)?, None)?;
        same(clock(given, &mut pair, 0)?, Err(5))?;
    }
    Ok(())
}

fn levels(given: &mut Given<'_>) -> Result<(), String> {
    for level in 0..=LEVEL {
        let opened = open(given, level, 300)?.held().record.settings;
        same((opened.level, opened.buffering), (level, 300))?;
    }
    for level in [LEVEL + 1, LEVEL + 2, 255, 256, 257, 1 << 32, usize::MAX] {
        for buffering in [0, 300, 501] {
            let settings = Settings {
                level,
                buffering,
                ..USUAL
            };
            open(given, level, buffering)?;
            let opened = sender_open(given.random, library_settings(&settings))?;
            same(opened, (1, Held::ZERO))?;
        }
    }
    Ok(())
}

/// Letters of two bytes, so that the highest rate holds none back: blocks of
/// 160 bytes at each level, and then an empty primary behind them.
fn longest(given: &mut Given<'_>) -> Result<(), String> {
    for level in 1..=LEVEL {
        let settings = Settings {
            level,
            rate: 100,
            sequence: 65_530,
            ..USUAL
        };
        let mut pair = Pair::open(given.random, &settings, given.tally)?;
        let last = 300 * (LEVEL as u64 + 2);
        for at in (0..=last).step_by(300) {
            let text = "å".repeat(if at < last { 80 } else { 0 });
            let taken = offer(given, &mut pair, at, text.as_bytes())?;
            same(taken, if at < last { 0 } else { 7 })?;
            let short = pair.clock(given.random, at, Space::OneShort, given.tally)?;
            same(short, Err(8))?;
            let packet = clock(given, &mut pair, at)?;
            let older = level.min(at as usize / 300);
            let due = 12 + 4 * older + 1 + 160 * older + text.len();
            let length = packet.map(|packet| packet.map(|packet| packet.len()));
            same(length, Ok(Some(due)))?;
        }
    }
    Ok(())
}

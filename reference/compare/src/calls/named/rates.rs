//! Named cases of the rate.

use super::super::expected::library_settings;
use super::super::held::Held;
use super::super::library::sender_open;
use super::super::senders::Pair;
use super::super::space::Space;
use super::sending::{clock, offer, seen, USUAL};
use super::{same, Case, Given};
use independent::sender::Settings;

pub const CASES: [Case; 10] = [
    ("rate 1: eleven letters of two bytes", letters),
    ("rate 1: ten sent at 0, one offered at 1 or 2", held_whole),
    (
        "rate 1: five sent at 0 and at 1, ten offered at 2",
        two_packets,
    ),
    ("rate 1, R 1: a repeat while text waits", repeats),
    ("rate 1: 25 letters, and text behind a leftover", leftovers),
    ("rate 1: refusal 8 spends nothing", short_space),
    ("rate 1: the clock's last 10,001 ms", last_clocks),
    ("rate 30: 320 letters", usual),
    ("rate 100: a letter every ms", every_ms),
    ("rates 0 and 101, behind other refusals", bad_rates),
];

/// R 0, and no buffering to speak of.
const SLOW: Settings = Settings {
    level: 0,
    buffering: 1,
    rate: 1,
    ..USUAL
};

const DIGITS: &[u8] = b"0123456789";

fn open(given: &mut Given<'_>, settings: Settings) -> Result<Pair, String> {
    Pair::open(given.random, &settings, given.tally)
}

fn taken(given: &mut Given<'_>, pair: &mut Pair, at: u64, text: &[u8]) -> Result<(), String> {
    same(offer(given, pair, at, text)?, 0)
}

/// The packet at this clock has this M and this primary.
fn sends(
    given: &mut Given<'_>,
    pair: &mut Pair,
    at: u64,
    marker: bool,
    primary: &[u8],
) -> Result<(), String> {
    let sent = seen(given, pair, at)?.map(|seen| (seen.1, seen.3));
    same(sent, Some((marker, primary.to_vec()))).map_err(|what| format!("at {at}: {what}"))
}

fn quiet(given: &mut Given<'_>, pair: &mut Pair, at: u64) -> Result<(), String> {
    same(clock(given, pair, at)?, Ok(None)).map_err(|what| format!("at {at}: {what}"))
}

fn letters(given: &mut Given<'_>) -> Result<(), String> {
    let mut pair = open(given, SLOW)?;
    taken(given, &mut pair, 0, "å".repeat(11).as_bytes())?;
    sends(given, &mut pair, 0, true, "å".repeat(10).as_bytes())?;
    for at in [1, 5000, 10_000] {
        quiet(given, &mut pair, at)?;
    }
    sends(given, &mut pair, 10_001, false, "å".as_bytes())
}

/// Text held back whole keeps its own time.
fn held_whole(given: &mut Given<'_>) -> Result<(), String> {
    for (offered, marker) in [(1, false), (2, true)] {
        let mut pair = open(given, SLOW)?;
        taken(given, &mut pair, 0, DIGITS)?;
        sends(given, &mut pair, 0, true, DIGITS)?;
        taken(given, &mut pair, offered, b"x")?;
        quiet(given, &mut pair, 10_000)?;
        sends(given, &mut pair, 10_001, marker, b"x")?;
    }
    Ok(())
}

fn two_packets(given: &mut Given<'_>) -> Result<(), String> {
    let mut pair = open(given, SLOW)?;
    taken(given, &mut pair, 0, b"abcde")?;
    sends(given, &mut pair, 0, true, b"abcde")?;
    taken(given, &mut pair, 1, b"fghij")?;
    sends(given, &mut pair, 1, false, b"fghij")?;
    taken(given, &mut pair, 2, DIGITS)?;
    quiet(given, &mut pair, 10_000)?;
    sends(given, &mut pair, 10_001, false, &DIGITS[..5])?;
    sends(given, &mut pair, 10_002, false, &DIGITS[5..])
}

fn repeats(given: &mut Given<'_>) -> Result<(), String> {
    let settings = Settings {
        level: 1,
        buffering: 300,
        ..SLOW
    };
    let mut pair = open(given, settings)?;
    taken(given, &mut pair, 0, b"0123456789x")?;
    sends(given, &mut pair, 0, true, DIGITS)?;
    let due = (0, false, vec![(300, DIGITS.to_vec())], vec![]);
    same(seen(given, &mut pair, 300)?, Some(due))?;
    same(pair.waiting(), b"x")?;
    quiet(given, &mut pair, 600)?;
    let due = (1, false, vec![(9701, vec![])], b"x".to_vec());
    same(seen(given, &mut pair, 10_001)?, Some(due))?;
    let due = (2, false, vec![(300, b"x".to_vec())], vec![]);
    same(seen(given, &mut pair, 10_301)?, Some(due))?;
    quiet(given, &mut pair, 10_601)
}

/// A leftover counts as offered with the packet before it, and so does what
/// is offered behind it.
fn leftovers(given: &mut Given<'_>) -> Result<(), String> {
    let text = b"abcdefghijklmnopqrstuvwxy";
    let mut pair = open(given, SLOW)?;
    taken(given, &mut pair, 0, text)?;
    sends(given, &mut pair, 0, true, &text[..10])?;
    quiet(given, &mut pair, 10_000)?;
    sends(given, &mut pair, 10_001, false, &text[10..20])?;
    quiet(given, &mut pair, 20_001)?;
    sends(given, &mut pair, 20_002, false, &text[20..])?;
    let settings = Settings {
        buffering: 500,
        ..SLOW
    };
    let mut pair = open(given, settings)?;
    taken(given, &mut pair, 0, b"0123456789a")?;
    sends(given, &mut pair, 0, true, DIGITS)?;
    taken(given, &mut pair, 9000, b"b")?;
    sends(given, &mut pair, 10_001, false, b"ab")
}

fn short_space(given: &mut Given<'_>) -> Result<(), String> {
    let mut pair = open(given, SLOW)?;
    taken(given, &mut pair, 0, b"0123456789x")?;
    for at in [0, 10_001] {
        let refused = pair.clock(given.random, at, Space::OneShort, given.tally)?;
        same(refused, Err(8))?;
        match at {
            0 => sends(given, &mut pair, 0, true, DIGITS)?,
            _ => quiet(given, &mut pair, 10_000)?,
        }
    }
    sends(given, &mut pair, 10_001, false, b"x")
}

fn last_clocks(given: &mut Given<'_>) -> Result<(), String> {
    let settings = Settings {
        buffering: 500,
        ..SLOW
    };
    let mut pair = open(given, settings)?;
    let first = u64::MAX - 10_001;
    taken(given, &mut pair, first, b"0123456789x")?;
    sends(given, &mut pair, first, true, DIGITS)?;
    quiet(given, &mut pair, u64::MAX - 1)?;
    sends(given, &mut pair, u64::MAX, false, b"x")
}

fn usual(given: &mut Given<'_>) -> Result<(), String> {
    let mut pair = open(given, Settings { rate: 30, ..SLOW })?;
    for (at, front) in [(0, 160), (1, 140)] {
        taken(given, &mut pair, at, &[b'a'; 160])?;
        sends(given, &mut pair, at, at == 0, &[b'a'; 160][..front])?;
    }
    quiet(given, &mut pair, 10_000)?;
    sends(given, &mut pair, 10_001, false, &[b'a'; 20])
}

/// As many packets as ten seconds can have, and then none until the first of
/// them has left the window.
fn every_ms(given: &mut Given<'_>) -> Result<(), String> {
    let mut pair = open(given, Settings { rate: 100, ..SLOW })?;
    let mut packets = vec![];
    for at in 0..=12_000 {
        offer(given, &mut pair, at, &[b'a' + (at % 26) as u8])?;
        if let Ok(Some(packet)) = clock(given, &mut pair, at)? {
            same(packet.len(), 13)?;
            packets.push(at);
        }
    }
    let due: Vec<u64> = (0..1000).chain(10_001..=11_000).collect();
    same(packets, due)
}

fn bad_rates(given: &mut Given<'_>) -> Result<(), String> {
    for rate in [0, 101] {
        let bad = Settings { rate, ..SLOW };
        let types = Settings { red: 98, ..bad };
        let buffering = Settings {
            buffering: 0,
            ..types
        };
        for (settings, number) in [(bad, 9), (types, 3), (buffering, 2)] {
            open(given, settings)?;
            let opened = sender_open(given.random, library_settings(&settings))?;
            same(opened, (number, Held::ZERO))?;
        }
    }
    Ok(())
}

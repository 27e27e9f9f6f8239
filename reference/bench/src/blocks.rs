//! Packets by kind of letter, their blocks equally long.

use crate::contest::{medians, passes};
use crate::inputs::{Kind, LETTERS};
use crate::letters::{bad_end, Mix};
use crate::reading::{independent, proved};
use compare::plan::{Plan, LONGEST, RED, T140};
use compare::random::Random;
use compare::say;
use stewpigeon::Packet;

/// The packets of a kind at most, and how often a round reads them.
const MOST: usize = 8000;
const TIMES: usize = 50;

/// Packets of one kind with so many letters each.
fn kind(name: &str, letters: usize, packet: impl Fn(&mut Random) -> Vec<u8> + 'static) -> Kind {
    Kind::new(name, letters, MOST.min(LETTERS / letters), packet)
}

/// RED with older blocks and a primary, all of so many letters; none where so
/// many older blocks are not read.
fn red(name: &str, older: usize, mix: Mix, letters: usize) -> Option<Kind> {
    let packet = move |random: &mut _| red_packet(random, older, mix, letters);
    let packets = kind(name, (older + 1) * letters, packet);
    (older <= Packet::LEVEL).then_some(packets)
}

fn red_packet(random: &mut Random, older: usize, mix: Mix, letters: usize) -> Vec<u8> {
    let mut plan = Plan::new(random, RED);
    for age in (1..=older).rev() {
        plan.older
            .push((300 * age as u16, mix.text(random, letters)));
    }
    plan.primary = mix.text(random, letters);
    plan.bytes()
}

/// T140 of the greatest length.
fn bad(random: &mut Random) -> Vec<u8> {
    let mut plan = Plan::new(random, T140);
    plan.primary = bad_end(random, plan.room() - 1);
    plan.bytes()
}

pub fn kinds() -> Vec<Kind> {
    let mut kinds = vec![];
    for (name, mix) in Mix::some(&["ascii", "two-byte", "one-in-10"]) {
        for letters in [1, 6, 40, 160] {
            kinds.extend(red(&format!("{name}-{letters}"), 2, mix, letters));
        }
    }
    for (name, older, mix, letters) in [
        ("five-ascii", 4, Mix::Ascii, 150),
        ("five-euro", 4, Mix::Repeated("aa€"), 90),
        ("five-two-byte", 4, Mix::Repeated("é"), 75),
        ("most-ascii", Packet::LEVEL, Mix::Ascii, 150),
        ("most-two-byte", Packet::LEVEL, Mix::Repeated("é"), 75),
    ] {
        kinds.extend(red(name, older, mix, letters));
    }
    kinds.push(kind("bad-end", LONGEST - 13, bad));
    kinds
}

fn row(kind: &Kind) {
    let packets = &kind.inputs();
    let medians = medians(
        TIMES * kind.count,
        (&kind.name, &|| passes(TIMES, proved, packets)),
        ("independent Rust", &|| passes(TIMES, independent, packets)),
    );
    let letters = kind.letters as f64;
    say!(
        "{:<14}{:>8}{:>7.0}{:>8}{:>9.1}{:>9.3}{:>9.1}{:>9.3}{:>8.3}",
        kind.name,
        kind.count,
        packets.average(),
        kind.letters,
        medians.ours,
        medians.ours / letters,
        medians.theirs,
        medians.theirs / letters,
        medians.ratio,
    );
}

pub fn times() {
    say!(
        "READING by kind of letter: stewpigeon_read beside independent Rust, ns per packet\n\
         and per letter: RED with 2 older blocks and a primary of 1, 6, 40 and 160 letters,\n\
         RED with 4 and with {} and a primary of 150 bytes, T140 of {LONGEST} bytes of which\n\
         the last is bad\n",
        Packet::LEVEL
    );
    say!(
        "{:<14}{:>8}{:>7}{:>8}{:>9}{:>9}{:>9}{:>9}{:>8}",
        "kind",
        "packets",
        "bytes",
        "letters",
        "proved",
        "a letter",
        "Rust",
        "a letter",
        "ratio"
    );
    for kind in kinds() {
        row(&kind);
    }
    say!("");
}

//! Texts by kind of letter.

use std::str::from_utf8;

use crate::contest::{add, medians, passes, Outcome};
use crate::inputs::{named, Inputs, Kind, LETTERS};
use crate::letters::{bad_end, Mix};
use compare::say;
use stewpigeon::lent;

/// The letters of a long text where it is timed, and where its instructions
/// are counted.
const TIMED: usize = 1_000_000;
const COUNTED: usize = 100_000;
/// The letters of a round.
const ROUND: usize = 5_000_000;

/// One text of every mix.
fn long(letters: usize) -> Vec<Kind> {
    let kind = |(name, mix): (&str, Mix)| {
        Kind::new(name, letters, 1, move |random| mix.text(random, letters))
    };
    Mix::ALL.map(kind).into()
}

/// Many texts of few letters, and of a packet's length with a bad end.
fn short() -> Vec<Kind> {
    let mut kinds = vec![];
    for (name, mix) in Mix::some(&["ascii", "one-in-10"]) {
        for letters in [1, 6, 40, 160] {
            let name = format!("{name}-{letters}");
            let count = LETTERS / letters;
            let text = move |random: &mut _| mix.text(random, letters);
            kinds.push(Kind::new(&name, letters, count, text));
        }
    }
    let letters = 1471;
    let text = move |random: &mut _| bad_end(random, letters);
    kinds.push(Kind::new("bad-end", letters, LETTERS / letters, text));
    kinds
}

fn proved(text: &[u8]) -> lent::TextAnswer {
    let mut answer = lent::TextAnswer::ZERO;
    lent::text_into(text, &mut answer);
    answer
}

/// How many bytes are good.
fn good(text: &[u8], answer: &lent::TextAnswer) -> u64 {
    match answer.is_text {
        0 => answer.place as u64,
        _ => text.len() as u64,
    }
}

/// How many letters the text has, or the place at which it is none.
fn letters(answer: &lent::TextAnswer) -> u64 {
    match answer.is_text {
        0 => answer.place as u64,
        _ => answer.characters as u64,
    }
}

#[inline(never)]
fn standard_check(text: &[u8]) -> u64 {
    match from_utf8(text) {
        Ok(text) => text.len() as u64,
        Err(error) => error.valid_up_to() as u64,
    }
}

#[inline(never)]
fn standard_count(text: &[u8]) -> u64 {
    match from_utf8(text) {
        Ok(text) => text.chars().count() as u64,
        Err(error) => error.valid_up_to() as u64,
    }
}

fn all(texts: &Inputs, figure: impl Fn(&[u8]) -> u64) -> u64 {
    texts.iter().fold(0, |sum, text| add(sum, figure(text)))
}

/// Ours and a function of the standard library over all texts.
type Pair = [fn(&Inputs) -> u64; 2];

const CHECK: Pair = [
    |texts| all(texts, |text| good(text, &proved(text))),
    |texts| all(texts, standard_check),
];

const COUNT: Pair = [
    |texts| all(texts, |text| letters(&proved(text))),
    |texts| all(texts, standard_count),
];

fn outcome(kind: &Kind, texts: &Inputs, [ours, theirs]: Pair) -> Outcome {
    let times = ROUND / (kind.letters * kind.count);
    medians(
        times * kind.letters * kind.count,
        (&kind.name, &|| passes(times, ours, texts)),
        ("the standard library", &|| passes(times, theirs, texts)),
    )
}

fn row(kind: &Kind) {
    let texts = kind.inputs();
    let [check, count] = [CHECK, COUNT].map(|pair| outcome(kind, &texts, pair));
    say!(
        "{:<14}{:>8}{:>9.3}{:>11.3}{:>8.2}{:>13.3}{:>8.2}",
        kind.name,
        kind.count,
        check.ours,
        check.theirs,
        check.ratio,
        count.theirs,
        count.ratio,
    );
}

pub fn times() {
    say!(
        "TEXT: stewpigeon_text, which checks and counts, beside from_utf8 alone and with\n\
         chars().count(), ns per letter: {TIMED} letters in one text, {LETTERS} in short\n\
         ones, and ASCII of 1472 bytes of which the last is bad\n"
    );
    say!(
        "{:<14}{:>8}{:>9}{:>11}{:>8}{:>13}{:>8}",
        "kind",
        "texts",
        "proved",
        "from_utf8",
        "ratio",
        "with count",
        "ratio"
    );
    for kind in long(TIMED).iter().chain(&short()) {
        row(kind);
    }
    say!("");
}

/// Checks texts of one kind, so many times over, for whoever counts
/// instructions. Answers how many letters a turn has; none where there is no
/// such kind.
pub fn repeated(kind: &str, times: usize) -> Option<usize> {
    let mut kinds = long(COUNTED);
    kinds.extend(short());
    let kind = named(kind, kinds)?;
    let texts = kind.inputs();
    for _ in 0..times {
        for text in texts.iter() {
            let answer = proved(text);
            assert_eq!(good(text, &answer), standard_check(text));
            assert_eq!(letters(&answer), standard_count(text));
        }
    }
    Some(kind.letters * kind.count)
}

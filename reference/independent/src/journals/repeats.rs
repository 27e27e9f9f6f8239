//! Journals whose packets repeat older blocks.

use super::{case, open, red, t140, two, Case, ONE, TWO};

/// Eight older blocks are too many at every level.
pub fn cases() -> Vec<Case> {
    let after_5 = |packet| two(t140(5, "-"), packet);
    let older = ["p", "q", "r", "s", "t", "u", "v", "w"];
    let wrap = two(t140(65_534, "-"), red(0, &["x"], "B"));
    let first = open().packet(&red(5, &["a", "", "b", "c"], "d")).end();
    let one_lost = "2 late 0 lost 1 refused 0";
    vec![
        case(
            "repeats-known",
            after_5(red(6, &["x", "-"], "B")),
            "-B",
            TWO,
        )
        .needs(2),
        case(
            "repeats-fill-loss",
            after_5(red(8, &["x", "y"], "B")),
            "-xyB",
            TWO,
        )
        .needs(2),
        case(
            "repeats-more-than-loss",
            after_5(red(8, &["w", "-", "x", "y"], "B")),
            "-xyB",
            TWO,
        )
        .needs(4),
        case(
            "repeats-fewer-than-loss",
            after_5(red(9, &["x", "y"], "B")),
            "-\u{fffd}xyB",
            one_lost,
        )
        .needs(2),
        case("repeats-empty", after_5(red(8, &["", ""], "")), "-", TWO).needs(2),
        case("repeat-over-wrap", wrap, "-xB", TWO),
        case("first-packet-all-blocks", first, "abcd", ONE).needs(4),
        case(
            "repeats-seven-lost-seven",
            after_5(red(13, &older[1..], "B")),
            "-qrstuvwB",
            TWO,
        )
        .needs(7),
        case(
            "repeats-seven-lost-eight",
            after_5(red(14, &older[1..], "B")),
            "-\u{fffd}qrstuvwB",
            one_lost,
        )
        .needs(7),
        case(
            "repeats-eight",
            after_5(red(14, &older, "B")),
            "-",
            "1 late 0 lost 0 refused 1",
        ),
    ]
}

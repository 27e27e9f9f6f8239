//! Journals that are not broken.

use super::{case, header, marks, open, red, t140, two, Case, ONE, TWO};
use crate::recorder::Recorder;

pub fn cases() -> Vec<Case> {
    [
        openings(),
        lengths(),
        times(),
        losses(),
        late_and_refused(),
        ages(),
    ]
    .into_iter()
    .flatten()
    .collect()
}

const NOTHING: &str = "0 late 0 lost 0 refused 0";
const ONE_REFUSED: &str = "0 late 0 lost 0 refused 1";

fn openings() -> Vec<Case> {
    let types = |t140, red| Recorder::open(t140, red).end();
    // `a` is 97: with RED 98 it is the header of the primary `b`.
    let other = Recorder::open(97, 98).packet(&t140(1, "ab"));
    let mut after = open().packet(&t140(1, "A")).end();
    after.extend([0, 9, 1, 98, 98]);
    vec![
        case("open-end", open().end(), "", NOTHING),
        case("types-96-127", types(96, 127), "", NOTHING),
        case("types-127-96", types(127, 96), "", NOTHING),
        case("red-of-98", other.end(), "b", ONE),
        case("bytes-after-end", after, "A", ONE),
        case("journal-after-end", super::WHOLE.repeat(2), "A", ONE),
    ]
}

fn lengths() -> Vec<Case> {
    let of = |length: usize| {
        let mut packet = header(98, 1);
        packet.resize(length, b'a');
        open().packet(&packet).end()
    };
    let letters = |length: usize| "a".repeat(length - 12);
    let empty = open().packet(&[]).packet(&t140(1, "A")).packet(&[]);
    vec![
        case("length-0", of(0), "", ONE_REFUSED),
        case(
            "length-0-twice",
            empty.end(),
            "A",
            "1 late 0 lost 0 refused 2",
        ),
        case("length-1", of(1), "", ONE_REFUSED),
        case("length-11", of(11), "", ONE_REFUSED),
        case("length-12", of(12), "", ONE),
        case("length-15", of(15), letters(15), ONE),
        case("length-16", of(16), letters(16), ONE),
        case("length-17", of(17), letters(17), ONE),
        case("length-32", of(32), letters(32), ONE),
        case("length-1471", of(1471), letters(1471), ONE),
        case("length-1472", of(1472), letters(1472), ONE),
        case("length-1473", of(1473), "", ONE_REFUSED),
        case("length-1488", of(1488), "", ONE_REFUSED),
    ]
}

fn times() -> Vec<Case> {
    let (a, b) = (t140(1, "A"), t140(2, "B"));
    let before = Recorder::default().time(0).and_open(98, 100);
    let everywhere = Recorder::default()
        .time(0)
        .time(u64::MAX)
        .and_open(98, 100)
        .time(0x0001_6264_0003_0405)
        .packet(&a)
        .time(5)
        .time(1)
        .packet(&b)
        .time(0x0303_0303_0303_0303);
    vec![
        case("time-open-end", before.end(), "", NOTHING),
        case(
            "time-before-packet",
            open().time(7).packet(&a).end(),
            "A",
            ONE,
        ),
        case(
            "time-after-packet",
            open().packet(&a).time(7).end(),
            "A",
            ONE,
        ),
        case("times-everywhere", everywhere.end(), "AB", TWO),
    ]
}

fn losses() -> Vec<Case> {
    let a = t140(5, "A");
    let wrap = two(t140(65_534, "-"), t140(1, "B"));
    let most = two(a.clone(), t140(3_004, "B"));
    let most_red = two(a.clone(), red(3_004, &["x"], "B"));
    let twice = open().packet(&a).packet(&t140(3_004, "B"));
    let twice = twice.packet(&t140(6_003, "C")).end();
    let spelled = two(t140(5, "\u{fffd}\n"), t140(7, "\u{fffd}"));
    vec![
        case(
            "loss-over-wrap",
            wrap,
            "-\u{fffd}\u{fffd}B",
            "2 late 0 lost 2 refused 0",
        ),
        case(
            "loss-2998",
            most,
            ["A", &marks(2_998), "B"].concat(),
            "2 late 0 lost 2998 refused 0",
        ),
        case(
            "loss-2997-and-repeat",
            most_red,
            ["A", &marks(2_997), "xB"].concat(),
            "2 late 0 lost 2997 refused 0",
        ),
        case(
            "loss-2998-twice",
            twice,
            ["A", &marks(2_998), "B", &marks(2_998), "C"].concat(),
            "3 late 0 lost 5996 refused 0",
        ),
        case(
            "mark-in-text",
            spelled,
            "\u{fffd}\n\u{fffd}\u{fffd}",
            "2 late 0 lost 1 refused 0",
        ),
    ]
}

fn late_and_refused() -> Vec<Case> {
    let a = t140(5, "A");
    let after = |packet: &[u8]| open().packet(&a).packet(packet).packet(&t140(6, "B"));
    let mut other = t140(6, "x");
    other[11] ^= 1;
    let mut version = t140(6, "x");
    version[0] = 0x40;
    // One byte of the first block's letter goes to the second block.
    let mut split = red(6, &["\u{e9}", "x"], "y");
    (split[15], split[19]) = (1, 2);
    let refused_first = open().packet(&other[..11]).packet(&a).packet(&other);
    let one_refused = "2 late 0 lost 0 refused 1";
    let one_late = "2 late 1 lost 0 refused 0";
    vec![
        case("copy", after(&a).end(), "AB", one_late),
        case("late-100", after(&t140(65_442, "x")).end(), "AB", one_late),
        case(
            "late-with-repeats",
            after(&red(4, &["x"], "y")).end(),
            "AB",
            one_late,
        ),
        case("other-source", after(&other).end(), "AB", one_refused),
        case("wrong-version", after(&version).end(), "AB", one_refused),
        case("too-short", after(&a[..11]).end(), "AB", one_refused),
        case(
            "letter-split-between-blocks",
            after(&split).end(),
            "AB",
            one_refused,
        ),
        case(
            "refused-first",
            refused_first.end(),
            "A",
            "1 late 0 lost 0 refused 2",
        ),
    ]
}

/// Packets that are refused for their older blocks' ages. What they held comes
/// with a later packet's repeats, or is lost; before the first accepted packet
/// that leaves no mark.
fn ages() -> Vec<Case> {
    let a = t140(5, "A");
    let mut equal = red(6, &["x", "A"], "B");
    equal.copy_within(13..15, 17);
    let mut zero = red(6, &["A"], "B");
    zero[13..15].fill(0);
    let between = |packet: &[u8], next: &[u8]| open().packet(&a).packet(packet).packet(next);
    let first = |next: &[u8]| open().packet(&equal).packet(next).end();
    vec![
        case(
            "ages-equal",
            between(&equal, &red(7, &["A", "B"], "C")).end(),
            "ABC",
            "2 late 0 lost 0 refused 1",
        )
        .needs(2),
        case(
            "ages-zero",
            between(&zero, &t140(7, "C")).end(),
            "A\u{fffd}C",
            "2 late 0 lost 1 refused 1",
        ),
        case(
            "ages-equal-first",
            first(&red(7, &["A", "B"], "C")),
            "ABC",
            "1 late 0 lost 0 refused 1",
        )
        .needs(2),
        case(
            "ages-equal-first-lost",
            first(&t140(7, "C")),
            "C",
            "1 late 0 lost 0 refused 1",
        ),
    ]
}

//! Journals whose numbers jump: a jump prints nothing and counts as late, and
//! a break goes on from the packet after it, without a mark.

use super::{case, marks, open, red, t140, Case};

pub fn cases() -> Vec<Case> {
    [jumps(), breaks(), between()]
        .into_iter()
        .flatten()
        .collect()
}

/// A journal of packet 5, which holds `A`, and of these.
fn after_a(packets: &[Vec<u8>]) -> Vec<u8> {
    let first = open().packet(&t140(5, "A"));
    let all = packets.iter();
    all.fold(first, |journal, packet| journal.packet(packet))
        .end()
}

/// What follows in order goes on as if there had been no jump.
fn jumps() -> Vec<Case> {
    let then_6 = |number| after_a(&[t140(number, "x"), t140(6, "B")]);
    let and_copy = [t140(32_773, "x"), t140(5, "A")];
    let to_0 = open().packet(&t140(40_000, "A")).packet(&t140(0, "x"));
    // 65,442 is the number kept, but only a jump can be a break.
    let late = [t140(65_441, "x"), t140(65_442, "y")];
    let one = "1 late 1 lost 0 refused 0";
    let two = "1 late 2 lost 0 refused 0";
    let and_on = "2 late 1 lost 0 refused 0";
    vec![
        case("jump-2999", then_6(3_005), "AB", and_on),
        case("jump-101-back", then_6(65_441), "AB", and_on),
        case("jump-32767", then_6(32_773), "AB", and_on),
        case("jump-32768-back", then_6(32_774), "AB", and_on),
        case(
            "jump-with-repeats",
            after_a(&[red(32_773, &["x"], "y")]),
            "A",
            one,
        ),
        case("jump-and-copy", after_a(&and_copy), "A", two),
        case("jump-to-0", to_0.end(), "A", one),
        case("late-with-the-kept-number", after_a(&late), "A", two),
    ]
}

fn breaks() -> Vec<Case> {
    let at = |number| after_a(&[t140(number, "x"), t140(number + 1, "B")]);
    let with_repeats = [t140(10_000, "x"), red(10_001, &["w", "", "x"], "B")];
    let first = open().packet(&t140(40_000, "A"));
    let over_wrap = first.packet(&t140(65_535, "x")).packet(&t140(0, "B"));
    let and_on = [
        t140(10_000, "x"),
        t140(10_001, "B"),
        t140(10_003, "C"),
        t140(6, "y"),
    ];
    let and_back = [
        t140(10_000, "x"),
        t140(10_001, "B"),
        t140(5, "y"),
        t140(6, "C"),
    ];
    let one = "2 late 1 lost 0 refused 0";
    vec![
        case("break", at(10_000), "AB", one),
        case("break-2999", at(3_005), "AB", one),
        case("break-101-back", at(65_440), "AB", one),
        case("break-32767-and-32768", at(32_773), "AB", one),
        case("break-with-repeats", after_a(&with_repeats), "AwxB", one).needs(3),
        case("break-over-wrap", over_wrap.end(), "AB", one),
        case(
            "break-and-on",
            after_a(&and_on),
            "AB\u{fffd}C",
            "3 late 2 lost 1 refused 0",
        ),
        case(
            "break-and-back",
            after_a(&and_back),
            "ABC",
            "3 late 2 lost 0 refused 0",
        ),
    ]
}

/// What comes between a jump and the packet after it.
fn between() -> Vec<Case> {
    let around = |between| after_a(&[t140(10_000, "x"), between, t140(10_001, "B")]);
    let mut other = t140(10_001, "y");
    other[11] ^= 1;
    let near = [t140(3_005, "x"), t140(9, "B"), t140(3_006, "C")];
    vec![
        case(
            "jump-late-break",
            around(t140(5, "A")),
            "AB",
            "2 late 2 lost 0 refused 0",
        ),
        case(
            "jump-refused-break",
            around(other),
            "AB",
            "2 late 1 lost 0 refused 1",
        ),
        case(
            "jump-twice-break",
            around(t140(10_000, "x")),
            "AB",
            "2 late 2 lost 0 refused 0",
        ),
        case(
            "jump-forward-jump",
            around(t140(6, "y")),
            "Ay",
            "2 late 2 lost 0 refused 0",
        ),
        case(
            "jump-elsewhere-jump",
            around(t140(20_000, "y")),
            "A",
            "1 late 3 lost 0 refused 0",
        ),
        case(
            "jump-forward-forward",
            after_a(&near),
            ["A", &marks(3), "B", &marks(2_996), "C"].concat(),
            "3 late 1 lost 2999 refused 0",
        ),
    ]
}

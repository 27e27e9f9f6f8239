//! Gaps that are closed in time, and others.

use super::Seen::{Held, Late, New, Waits};
use super::{after, after_5, at, holds, red, step, wait, Case, NONE};
use crate::packets::older;
use crate::LEVEL;

pub fn cases() -> Vec<Case> {
    vec![
        after_5(
            "8 held after 5: 6 and 7 close its gap",
            [
                (at(10, 8), Waits(2), holds(8)),
                (at(11, 8), Late(2), holds(8)),
                (at(12, 6), New(0, 0), holds(8)),
                (wait(12), Waits(0), holds(8)),
                (at(13, 7), New(0, 0), holds(8)),
                (at(14, 9), Held(0, 0), holds(9)),
                (wait(14), Held(0, 0), NONE),
                (wait(14), Waits(0), NONE),
            ],
        ),
        after_5(
            "8 held after 5: 10 has a time of its own",
            [
                (at(10, 8), Waits(2), holds(8)),
                (at(20, 10), Held(2, 2), holds(10)),
                (wait(1_019), Waits(0), holds(10)),
                (wait(1_020), Held(1, 1), NONE),
            ],
        ),
        after_5(
            "12 held after 5: its time stays behind 8 and 10",
            [
                (at(10, 12), Waits(6), holds(12)),
                (at(900, 8), New(2, 2), holds(12)),
                (wait(1_009), Waits(0), holds(12)),
                (at(1_009, 10), New(1, 1), holds(12)),
                (wait(1_010), Held(1, 1), NONE),
            ],
        ),
        after_5(
            "9 with a repeat held after 5: 6 and 7 close its gap",
            [
                (step(0, red(9, &[b"8"], b"9")), Waits(3), holds(9)),
                (at(0, 6), New(0, 0), holds(9)),
                (wait(0), Waits(0), holds(9)),
                (at(0, 7), New(0, 0), holds(9)),
                (wait(0), Held(0, 1), NONE),
            ],
        ),
        as_many_repeats_as_may_be(),
        after(
            65_533,
            "1 held after 65,533",
            [
                (at(0, 1), Waits(3), holds(1)),
                (at(0, 65_535), New(1, 1), holds(1)),
                (at(0, 3), Held(1, 1), holds(3)),
                (at(0, 65_535), Late(-3), holds(3)),
                (at(0, 2), New(0, 0), holds(3)),
                (wait(0), Held(0, 0), NONE),
            ],
        ),
    ]
}

/// So many packets missing are closed at once; with one more it is held.
fn as_many_repeats_as_may_be() -> Case {
    let most = LEVEL as u16;
    let distance = i32::from(most);
    let [first, second, third] = [6 + most, 7 + 2 * most, 9 + 3 * most];
    let full = |number| step(0, red(number, older(LEVEL), b"p"));
    after_5(
        "as many repeats as may be after 5, and one packet missing more",
        [
            (full(first), New(0, distance), NONE),
            (full(second), New(0, distance), NONE),
            (full(third), Waits(distance + 1), holds(third)),
            (wait(999), Waits(0), holds(third)),
            (wait(1_000), Held(1, distance + 1), NONE),
        ],
    )
}

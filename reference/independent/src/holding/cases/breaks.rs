//! Jumps and breaks while a packet is held.

use super::Seen::{Again, Break, Held, Jump, Late, New, Waits};
use super::{after_5, at, both, holds, keeps, red, step, wait, Case, NONE};

pub fn cases() -> Vec<Case> {
    let last = || step(12, red(3_006, &[b"w"], b"x"));
    vec![
        after_5(
            "8 held after 5: 20,000 and 20,001",
            [
                (at(10, 8), Waits(2), holds(8)),
                (at(11, 20_000), Jump(19_994), both(8, 20_001)),
                (at(12, 20_001), Again(2, 2), keeps(20_001)),
                (at(12, 20_001), Break, NONE),
            ],
        ),
        after_5(
            "8 with a repeat held after 5: 6, 20,000 and 20,001",
            [
                (step(10, red(8, &[b"7"], b"8")), Waits(2), holds(8)),
                (at(10, 6), New(0, 0), holds(8)),
                (at(11, 20_000), Jump(19_993), both(8, 20_001)),
                (at(12, 20_001), Again(0, 1), keeps(20_001)),
                (at(12, 20_001), Break, NONE),
            ],
        ),
        after_5(
            "3,000 held after 5: 4,000 behind 3,999 is forward then, and held",
            [
                (at(10, 3_000), Waits(2_994), holds(3_000)),
                (at(11, 3_999), Jump(3_993), both(3_000, 4_000)),
                (at(12, 4_000), Again(2_994, 2_994), keeps(4_000)),
                (at(13, 4_000), Waits(999), holds(4_000)),
                (wait(1_012), Waits(0), holds(4_000)),
                (wait(1_013), Held(999, 999), NONE),
            ],
        ),
        after_5(
            "3,004 held after 5: 3,006 behind 3,005 is forward then, and given",
            [
                (at(10, 3_004), Waits(2_998), holds(3_004)),
                (at(11, 3_005), Jump(2_999), both(3_004, 3_006)),
                (last(), Again(2_998, 2_998), keeps(3_006)),
                (last(), New(0, 1), NONE),
            ],
        ),
        after_5(
            "forward packets clear the number kept, a copy of the one held does not",
            [
                (at(0, 30_000), Jump(29_994), keeps(30_001)),
                (at(0, 6), New(0, 0), NONE),
                (at(0, 30_000), Jump(29_993), keeps(30_001)),
                (at(0, 12), Waits(5), holds(12)),
                (at(0, 30_000), Jump(29_993), both(12, 30_001)),
                (at(0, 12), Late(5), both(12, 30_001)),
                (wait(0), Waits(0), both(12, 30_001)),
                (at(0, 9), New(2, 2), holds(12)),
                (at(0, 30_000), Jump(29_990), both(12, 30_001)),
                (at(0, 14), Held(2, 2), holds(14)),
            ],
        ),
    ]
}

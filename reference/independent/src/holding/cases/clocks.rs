//! How long a packet is held.

use super::Seen::{Break, Held, Jump, Late, Refused, Waits};
use super::{after_5, at, both, holds, keeps, wait, Case, NONE};

pub fn cases() -> Vec<Case> {
    const END: u64 = u64::MAX;
    vec![
        after_5(
            "12 held after 5: late ones and a jump end no time",
            [
                (at(0, 12), Waits(6), holds(12)),
                (at(5_000, 4), Late(-2), holds(12)),
                (at(5_000, 12), Late(6), holds(12)),
                (at(5_000, 30_000), Jump(29_994), both(12, 30_001)),
                (wait(5_000), Held(6, 6), keeps(30_001)),
                (at(5_000, 30_001), Break, NONE),
            ],
        ),
        after_5(
            "8 held after 5: the clock's last second",
            [
                (at(END - 1_000, 8), Waits(2), holds(8)),
                (wait(END - 1), Waits(0), holds(8)),
                (wait(END), Held(2, 2), NONE),
            ],
        ),
        after_5(
            "8 held after 5: past the clock's last second",
            [
                (at(END - 999, 8), Waits(2), holds(8)),
                (wait(END), Waits(0), holds(8)),
                (wait(END - 1), Refused(5), holds(8)),
                (at(END, 9), Held(2, 2), holds(9)),
                (wait(END), Held(0, 0), NONE),
            ],
        ),
    ]
}

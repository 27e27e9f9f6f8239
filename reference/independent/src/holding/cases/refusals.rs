//! Calls that are refused.

use super::Seen::{Held, Late, Refused, Waits};
use super::{after_5, at, holds, lending, packet, step, wait, Case, NONE};

/// The clock's refusal comes before that of the packet lent, and this before
/// those of the new one. Where none is held, what is lent is not looked at.
pub fn case() -> Case {
    let mut other_source = packet(8);
    other_source[11] ^= 1;
    let mut bad_letter = packet(8);
    bad_letter[13] = 0xff;
    let mut rows = vec![(at(10, 8), Waits(2), holds(8))];
    for lent in [&packet(7)[..], &packet(9), &other_source, &bad_letter, &[]] {
        for (call, number) in [
            (at(9, 6), 5),
            (step(9, vec![]), 5),
            (wait(9), 5),
            (at(10, 6), 27),
            (step(u64::MAX, vec![]), 27),
            (wait(1_010), 27),
        ] {
            rows.push((lending(lent, call), Refused(number), holds(8)));
        }
    }
    rows.extend([
        (at(9, 6), Refused(5), holds(8)),
        (step(u64::MAX, vec![]), Refused(10), holds(8)),
        (step(u64::MAX, other_source), Refused(16), holds(8)),
        (wait(9), Refused(5), holds(8)),
        (wait(1_009), Waits(0), holds(8)),
        (wait(1_010), Held(2, 2), NONE),
    ]);
    for lent in [&packet(8)[..], &[0; 2_000], &[]] {
        for (call, seen) in [
            (wait(1_009), Refused(5)),
            (wait(1_010), Waits(0)),
            (at(1_010, 8), Late(-1)),
            (step(1_010, vec![]), Refused(10)),
        ] {
            rows.push((lending(lent, call), seen, NONE));
        }
    }
    after_5("8 held after 5: refusals in order", rows)
}

//! What must be met in calls on receivers that hold.

use super::met::Seen;
use independent::LEVEL;

/// What it is called, and whether a call is such a one.
pub type Row = (&'static str, fn(&Seen) -> bool);

const STEPS: [Row; 36] = [
    ("holding: a first packet", |s| s.is("new") && s.is_first()),
    ("holding: a number kept, cleared in order", |s| {
        s.is("new") && s.keeps_number()
    }),
    ("holding: a number kept, cleared by the one held now", |s| {
        s.is("keep-new") && s.keeps_number()
    }),
    ("holding: a number kept, cleared by a nearer one", |s| {
        s.is("new-before-held") && s.keeps_number()
    }),
    ("holding: a number kept, cleared by a farther one", |s| {
        s.is("held-keep-new") && s.keeps_number()
    }),
    ("holding: a copy of the held one", |s| {
        s.is("late-keep-held") && s.copied()
    }),
    ("holding: a copy of the held one, a number kept", |s| {
        s.is("late-keep-held") && s.copied() && s.keeps_number()
    }),
    ("holding: a copy of the held one after 1,000 ms", |s| {
        s.is("late-keep-held") && s.copied() && s.is_old()
    }),
    ("holding: a late one after 1,000 ms", |s| {
        s.is("late-keep-held") && !s.copied() && s.is_old()
    }),
    ("holding: a jump after 1,000 ms", |s| {
        s.is("jump-keep-held") && s.is_old()
    }),
    ("holding: a jump while a number is kept", |s| {
        s.is("jump-keep-held") && s.keeps_number()
    }),
    ("holding: a nearer one after 1,000 ms", |s| {
        s.is("new-before-held") && s.is_old()
    }),
    ("holding: a nearer one with marks", |s| {
        s.is("new-before-held") && s.marks()
    }),
    (
        "holding: a nearer one that closes the held one's gap",
        |s| s.is("new-before-held") && s.is_closed_behind_new(),
    ),
    (
        "holding: a nearer one, the held one's gap closed before",
        |s| s.is("new-before-held") && s.is_closed(),
    ),
    ("holding: a nearer one, the held one past 65,535", |s| {
        s.is("new-before-held") && s.held() < s.number()
    }),
    ("holding: a farther one, the held one with marks", |s| {
        s.is("held-keep-new") && s.marks()
    }),
    ("holding: a farther one, the held one's gap closed", |s| {
        s.is("held-keep-new") && !s.marks()
    }),
    ("holding: a farther one, its own gap closed then", |s| {
        s.is("held-keep-new") && s.new_is_closed()
    }),
    ("holding: a farther one past 65,535", |s| {
        s.is("held-keep-new") && s.number() < s.held()
    }),
    ("holding: held at distance 1", |s| {
        s.is("keep-new") && s.distance() == 1
    }),
    ("holding: held one further than repeats can close", |s| {
        s.is("keep-new") && s.distance() == LEVEL as i16 + 1
    }),
    ("holding: held at distance 2,998", |s| {
        s.is("keep-new") && s.distance() == 2_998
    }),
    ("holding: not held, all older blocks wanted", |s| {
        s.is("new") && s.all_older() && s.distance() > 0
    }),
    ("holding: a break, the held one with marks", |s| {
        s.is("held-again") && s.marks()
    }),
    ("holding: a break, the held one's gap closed", |s| {
        s.is("held-again") && !s.marks()
    }),
    ("holding: given again, a break", |s| {
        s.is("break") && s.again
    }),
    ("holding: given again, held", |s| {
        s.is("keep-new") && s.again
    }),
    ("holding: given again, in order", |s| s.is("new") && s.again),
    ("holding: none held, a packet lent", |s| {
        s.is("keep-new") && s.lends_packet()
    }),
    ("holding: none held, no packet lent", |s| {
        s.is("keep-new") && !s.lends_packet()
    }),
    ("holding: 5 with one held", |s| {
        s.refused(5) && s.lends_held()
    }),
    ("holding: 5 with one held and another lent", |s| {
        s.refused(5) && s.has_held() && !s.lends_held()
    }),
    ("holding: 27 with a packet that is refused", |s| {
        s.refused(27) && s.is_refused()
    }),
    ("holding: 27 with a packet that is good", |s| {
        s.refused(27) && !s.is_refused()
    }),
    ("holding: 16 with one held", |s| {
        s.refused(16) && s.has_held()
    }),
];

const WAITS: [Row; 18] = [
    ("waits: 999 ms after arrival", |s| {
        s.is("keep-held") && s.age() == Some(999)
    }),
    ("waits: 1,000 ms after arrival, marks", |s| {
        s.is("held") && s.marks() && s.age() == Some(1_000)
    }),
    ("waits: 1,001 ms after arrival, marks", |s| {
        s.is("held") && s.marks() && s.age() == Some(1_001)
    }),
    ("waits: later, marks", |s| {
        s.is("held") && s.marks() && s.age() > Some(1_001)
    }),
    ("waits: a gap closed in time", |s| {
        s.is("held") && !s.marks() && !s.is_old()
    }),
    ("waits: a gap closed in time by repeats", |s| {
        s.is("held") && !s.marks() && s.distance() > 0 && !s.is_old()
    }),
    ("waits: a gap open by one", |s| {
        s.is("keep-held") && s.missing() == Some(1)
    }),
    ("waits: all older blocks given", |s| {
        s.is("held") && s.all_older()
    }),
    ("waits: all of the most older blocks given", |s| {
        s.is("held") && s.step.step.given == LEVEL + 1
    }),
    ("waits: the held one given, a number kept", |s| {
        s.is("held") && s.keeps_number()
    }),
    (
        "waits: the held one stays in the clock's last second",
        |s| s.is("keep-held") && s.is_last_second(),
    ),
    (
        "waits: the held one given in the clock's last second",
        |s| s.is("held") && s.is_last_second(),
    ),
    ("waits: none held, a number kept", |s| {
        s.is("nothing") && s.keeps_number()
    }),
    ("waits: none held, no packet lent", |s| {
        s.is("nothing") && !s.lends_packet()
    }),
    ("waits: none held, a packet lent", |s| {
        s.is("nothing") && s.lends_packet()
    }),
    ("waits: 5 with one held", |s| s.refused(5) && s.has_held()),
    ("waits: 5 with none held", |s| s.refused(5) && !s.has_held()),
    ("waits: 27 after 1,000 ms", |s| s.refused(27) && s.is_old()),
];

/// Those of packets with several older blocks.
const STEPS_OF_SEVERAL: [Row; 2] = [
    ("holding: a nearer one with some of its older blocks", |s| {
        s.is("new-before-held") && s.some_older()
    }),
    (
        "holding: a farther one, some of the held one's older blocks",
        |s| s.is("held-keep-new") && s.some_older(),
    ),
];

const WAITS_OF_SEVERAL: [Row; 1] = [("waits: some older blocks given", |s| {
    s.is("held") && s.some_older()
})];

/// These rows, and those where several older blocks are read.
fn rows(rows: &'static [Row], of_several: &'static [Row]) -> impl Iterator<Item = &'static Row> {
    let several = if LEVEL > 1 { of_several } else { &[] };
    rows.iter().chain(several)
}

pub fn steps() -> impl Iterator<Item = &'static Row> {
    rows(&STEPS, &STEPS_OF_SEVERAL)
}

pub fn waits() -> impl Iterator<Item = &'static Row> {
    rows(&WAITS, &WAITS_OF_SEVERAL)
}

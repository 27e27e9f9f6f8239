//! Demand 3 where packets are held: the record over the answers held against
//! the sender's blocks.

mod lines;

use independent::channel::{Delivery, Line, State};
use independent::holding::{HoldingReceiver, Outcome, Step, Which, HOLD_TIME};
use independent::random::Random;
use independent::receiver::{Course, Receiver};
use independent::record::{add, expected, give, in_window, Entry, AHEAD, BEHIND};
use independent::sender::Settings;
use independent::LEVEL;
use lines::{another_makers, lettered, long_line, ours};

const LISTS: u64 = 1000;

/// How often the lists met what they are meant to meet.
#[derive(Debug, Default)]
struct Met {
    held: usize,
    closed: usize,
    timed_out: usize,
    sent_out: usize,
    nearer: usize,
    copies: usize,
    late: usize,
    refused: usize,
    marks: usize,
    wrapped: usize,
    farthest_ahead: usize,
    farthest_behind: usize,
}

/// A receiver that holds, its caller and the record.
struct Recording<'a> {
    line: &'a Line,
    receiver: HoldingReceiver,
    /// The packet that is held, by its place in the line.
    held: Option<usize>,
    record: Vec<Entry>,
    /// The packets handed out, in order.
    given: Vec<usize>,
}

impl<'a> Recording<'a> {
    fn open(settings: &Settings, line: &'a Line) -> Recording<'a> {
        Recording {
            line,
            receiver: HoldingReceiver::open(settings.t140, settings.red).unwrap(),
            held: None,
            record: vec![],
            given: vec![],
        }
    }

    fn lent(&self) -> &'a [u8] {
        self.held.map_or(&[], |k| &self.line.packets[k])
    }

    /// Records what is given and keeps what is to be kept. Inside the window
    /// there are no jumps.
    fn obey(&mut self, step: &Step, new: Option<usize>) {
        let jumps = match step.outcome {
            Outcome::Nothing { course, .. } => course == Course::Jump,
            Outcome::New { course, .. } => course == Course::Break,
            Outcome::Held { again, .. } => again,
        };
        assert!(!jumps, "{step:?} inside the window");
        if let Some((of, added)) = step.outcome.given() {
            give(&mut self.record, added);
            let of = if of == Which::New { new } else { self.held };
            assert!(of > self.given.last().copied());
            self.given.extend(of);
        }
        self.held = match step.keep {
            Which::Neither => None,
            Which::Held => self.held,
            Which::New => new,
        };
    }

    /// Calls without a packet until nothing is given. What is held then may
    /// not go yet.
    fn wait(&mut self, clock: u64, met: &mut Met) {
        loop {
            let arrival = self.receiver.held().map(|held| held.arrival);
            let step = self.receiver.wait(clock, self.lent()).unwrap();
            self.obey(&step, None);
            let Outcome::Held { added, .. } = step.outcome else {
                break;
            };
            met.closed += usize::from(added.loss == 0);
            met.timed_out += usize::from(added.loss > 0);
            met.marks += usize::from(added.loss);
            assert!(added.loss == 0 || clock - arrival.unwrap() >= HOLD_TIME);
        }
        if let Some(held) = self.receiver.held() {
            assert!(clock - held.arrival < HOLD_TIME);
        }
    }

    /// A packet of this place in the line arrives.
    fn take(&mut self, clock: u64, k: usize, packet: &[u8], met: &mut Met) {
        let before = self.receiver;
        let Ok(step) = self.receiver.step(clock, self.lent(), packet) else {
            assert_eq!(self.receiver, before);
            met.refused += 1;
            return;
        };
        if let Some(&newest) = self.given.last() {
            met.farthest_ahead += usize::from(k == newest + AHEAD);
            met.farthest_behind += usize::from(k + BEHIND == newest);
        }
        match (&step.outcome, step.keep) {
            (Outcome::Nothing { .. }, Which::New) => met.held += 1,
            (Outcome::Nothing { distance: 0.., .. }, _) => met.copies += 1,
            (Outcome::Nothing { .. }, _) => met.late += 1,
            (Outcome::Held { .. }, _) => met.sent_out += 1,
            (Outcome::New { .. }, Which::Held) => met.nearer += 1,
            _ => {}
        }
        // The packet of the line itself is lent later on: it is the same.
        assert_eq!(packet, self.line.packets[k]);
        self.obey(&step, Some(k));
        let expected = self.receiver.receiver().expected();
        met.wrapped += usize::from(expected < before.receiver().expected());
    }

    fn is_near(&self, k: usize) -> bool {
        in_window(self.given.last().copied(), k)
    }

    fn check(&self, level: usize) {
        assert_eq!(self.record, expected(&self.line.sent, level, &self.given));
    }
}

/// Gives the deliveries to a fresh receiver and checks its record. A packet
/// outside the window waits for the one held to go out, and is lost where it
/// still is outside.
fn receive(random: &mut Random, settings: &Settings, line: &Line, way: &[Delivery], met: &mut Met) {
    let mut recording = Recording::open(settings, line);
    let pace = random.pick(&[0, 1, 40, 300, 999, 1_000]);
    let mut clock = random.pick(&[0, 7, u64::MAX - 2_000_000_000]);
    for Delivery {
        number,
        packet,
        state,
    } in way
    {
        clock += pace;
        if !recording.is_near(*number) {
            clock += HOLD_TIME;
            recording.wait(clock, met);
        }
        // One of another source may be the first, and then it is no copy.
        if *state == State::OtherSource || !recording.is_near(*number) {
            continue;
        }
        recording.take(clock, *number, packet, met);
        if !random.once_in(8) {
            recording.wait(clock, met);
        }
    }
    recording.check(settings.level);
    recording.wait(clock + HOLD_TIME, met);
    recording.check(settings.level);
    assert_eq!(recording.held, None);
}

#[test]
fn random_lines() {
    for level in 0..=LEVEL {
        for make in [ours, another_makers] {
            let mut met = Met::default();
            lines::random_lines(LISTS, level, make, |random, settings, line, deliveries| {
                receive(random, settings, line, deliveries, &mut met);
            });
            let all = [met.held, met.closed, met.timed_out, met.sent_out];
            let more = [met.nearer, met.copies, met.late, met.refused, met.marks];
            let mut counts = all.iter().chain(&more).chain([&met.wrapped]);
            assert!(counts.all(|&count| count > 10), "level {level}: {met:?}");
        }
    }
}

#[test]
fn long_lines_to_the_ends_of_the_window() {
    for level in 0..=LEVEL {
        let mut met = Met::default();
        long_line(level, |random, settings, line, deliveries| {
            receive(random, settings, line, deliveries, &mut met);
        });
        let ends = [met.farthest_ahead, met.farthest_behind, met.wrapped];
        assert!(ends.iter().all(|&count| count > 10), "{met:?}");
    }
}

/// With each number above the one before, and waits to the end, nothing is
/// gained or lost by holding.
#[test]
fn rising_lists_as_without_holding() {
    for level in 0..=LEVEL {
        let mut random = Random::new(level as u64);
        let (settings, line) = lettered(&mut random, level, 20_000);
        for _ in 0..50 {
            let mut recording = Recording::open(&settings, &line);
            let mut plain = Receiver::open(settings.t140, settings.red).unwrap();
            let mut record = vec![];
            let mut met = Met::default();
            let (mut clock, mut k) = (0, 0);
            while k < line.packets.len() && recording.is_near(k) {
                recording.take(clock, k, &line.packets[k], &mut met);
                add(&mut record, &plain.step(&line.packets[k]));
                if random.once_in(2) {
                    clock += random.pick(&[0, 1, 999, 1_000]);
                    recording.wait(clock, &mut met);
                }
                let far = random.within(1, AHEAD / 3);
                k += random.pick(&[1, 1, 2, 3, LEVEL + 1, LEVEL + 2, far]);
            }
            recording.wait(clock + HOLD_TIME, &mut met);
            assert!(met.held > 10 && met.sent_out > 10, "{met:?}");
            assert_eq!(recording.record, record);
        }
    }
}

/// 0, 2, 1, 4, 3 and on: where each two packets have changed places nothing is
/// lost.
#[test]
fn swapped_packets() {
    let mut random = Random::new(1);
    let (settings, line) = lettered(&mut random, 0, 70_001);
    let mut recording = Recording::open(&settings, &line);
    let mut met = Met::default();
    let swapped = (1..=35_000).flat_map(|pair| [2 * pair, 2 * pair - 1]);
    for (clock, k) in (0..).step_by(20).zip([0].into_iter().chain(swapped)) {
        recording.take(clock, k, &line.packets[k], &mut met);
        recording.wait(clock, &mut met);
    }
    recording.check(0);
    assert_eq!(recording.record.len(), 70_001);
    assert_eq!((met.held, met.closed, met.marks), (35_000, 35_000, 0));
}

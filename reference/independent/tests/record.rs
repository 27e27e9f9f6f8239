//! Demand 3: the record of a line held against the sender's blocks.

mod lines;

use independent::channel::{Delivery, Line, State};
use independent::receiver::{Answer, Receiver};
use independent::record::{add, expected, in_window, run, Entry, Sent, AHEAD, BEHIND};
use independent::sender::Settings;
use independent::{read, LEVEL};
use lines::{another_makers, long_line, ours, Make};

const LISTS: u64 = 2000;

/// How often the lists met what they are meant to meet.
#[derive(Debug, Default)]
struct Met {
    forward: usize,
    late: usize,
    refused: usize,
    other_source: usize,
    wrong_ages: usize,
    marks: usize,
    repeated: usize,
    unwanted: usize,
    empty: usize,
    aged: usize,
    wrapped: usize,
    nothing: usize,
    farthest_ahead: usize,
    farthest_behind: usize,
}

impl Met {
    fn check(&self, level: usize) {
        let mut counts = vec![
            self.forward,
            self.late,
            self.refused,
            self.other_source,
            self.marks,
            self.wrapped,
            self.nothing,
        ];
        if level > 0 {
            counts.extend([self.repeated, self.unwanted, self.aged, self.empty]);
        }
        assert!(counts.iter().all(|&count| count > 10), "{self:?}");
    }
}

/// Gives the deliveries to a fresh receiver and checks its record.
fn receive(settings: &Settings, line: &Line, deliveries: &[Delivery], met: &mut Met) {
    let level = settings.level;
    let mut receiver = Receiver::open(settings.t140, settings.red).unwrap();
    let mut record = vec![];
    let mut accepted: Vec<usize> = vec![];
    let mut newest = None;
    for delivery in deliveries {
        let before = receiver;
        let k = delivery.number;
        let source = receiver.source();
        let good = read(source, settings.t140, settings.red, &delivery.packet).is_ok();
        assert!(!good || delivery.state != State::Broken);
        let answer = receiver.step(&delivery.packet);
        assert_eq!(good, !matches!(answer, Answer::Refused(_)));
        let after = record.len();
        add(&mut record, &answer);
        match &answer {
            Answer::Refused(number) => {
                assert_eq!(receiver, before);
                met.refused += 1;
                met.other_source += usize::from(*number == 16);
                met.wrong_ages += usize::from(*number == 22);
                continue;
            }
            Answer::Late { distance } => {
                assert_eq!(receiver, before);
                assert_eq!(*distance as i64, k as i64 - newest.unwrap() as i64 - 1);
                met.late += 1;
                met.farthest_behind += usize::from(newest == Some(k + BEHIND));
            }
            Answer::Jump { .. } | Answer::Break(_) => panic!("{answer:?} inside the window"),
            Answer::Forward(forward) => {
                let ahead = newest.map_or(0, |newest| k - newest - 1);
                assert_eq!(forward.distance as usize, ahead);
                met.farthest_ahead += usize::from(newest.is_some() && ahead + 1 == AHEAD);
                let blocks = forward.blocks();
                assert_eq!(forward.text(), blocks.concat());
                assert_eq!(forward.older(), run(&line.sent, level, k));
                assert_eq!(
                    record.len() - after,
                    usize::from(forward.loss) + blocks.len()
                );
                met.forward += 1;
                met.marks += usize::from(forward.loss);
                met.repeated += blocks.len() - 1;
                met.unwanted += forward.older() + 1 - blocks.len();
                let empty = blocks.iter().filter(|block| block.is_empty());
                met.empty += empty.count();
                met.aged += usize::from(forward.older() < level.min(k));
                let now = receiver.expected();
                met.wrapped += usize::from(now < before.expected());
            }
        }
        assert!(in_window(newest, k));
        newest = newest.max(Some(k));
        accepted.push(k);
    }
    met.nothing += usize::from(accepted.is_empty());
    assert_eq!(record, expected(&line.sent, level, &accepted));
}

fn random_lines(level: usize, make: Make) -> Met {
    let mut met = Met::default();
    lines::random_lines(LISTS, level, make, |_, settings, line, deliveries| {
        receive(settings, line, deliveries, &mut met);
    });
    met.check(level);
    met
}

/// None of its packets is refused for its ages.
#[test]
fn random_lines_of_our_sender() {
    for level in 0..=LEVEL {
        let met = random_lines(level, ours);
        assert_eq!(met.wrong_ages, 0, "level {level}");
    }
}

#[test]
fn random_lines_of_another_makers_sender() {
    for level in 0..=LEVEL {
        let met = random_lines(level, another_makers);
        assert_eq!(met.wrong_ages > 10, level > 0, "level {level}");
    }
}

#[test]
fn long_lines_to_the_ends_of_the_window() {
    for level in 0..=LEVEL {
        let mut met = Met::default();
        long_line(level, |_, settings, line, deliveries| {
            receive(settings, line, deliveries, &mut met);
        });
        let ends = [met.farthest_ahead, met.farthest_behind, met.wrapped];
        assert!(ends.iter().all(|&count| count > 10), "{met:?}");
    }
}

/// One past either end of the window the record is no longer promised: the
/// packet is a jump, and gives nothing though it is ahead.
#[test]
fn past_the_ends_of_the_window() {
    assert!(in_window(Some(40_000), 42_999) && !in_window(Some(40_000), 43_000));
    assert!(in_window(Some(40_000), 39_901) && !in_window(Some(40_000), 39_900));
    let packet = |k: u16| {
        let mut packet = vec![0x80, 98];
        packet.extend(k.to_be_bytes());
        packet.extend([0; 8]);
        packet
    };
    let mut heard = Receiver::open(98, 100).unwrap();
    heard.step(&packet(40_000));
    for (k, due) in [
        (39_901, Answer::Late { distance: -100 }),
        (39_900, Answer::Jump { distance: -101 }),
        (43_000, Answer::Jump { distance: 2_999 }),
    ] {
        let mut receiver = heard;
        assert_eq!(receiver.step(&packet(k)), due);
        assert_eq!(receiver.expected(), Some(40_001));
    }
    assert!(matches!(heard.step(&packet(42_999)), Answer::Forward(_)));
}

fn sent(blocks: &[(u64, &str)]) -> Vec<Sent> {
    let sent = blocks.iter().map(|&(clock, block)| Sent {
        clock,
        block: block.as_bytes().to_vec(),
    });
    sent.collect()
}

/// Records spelled out by hand, to hold `expected` itself.
#[test]
fn records_by_hand() {
    let line = sent(&[(0, "do "), (300, "not"), (600, ""), (900, " sell")]);
    let text = |text: &str| Entry::Block(text.into());
    let all = [text("do "), text("not"), text(""), text(" sell")];
    let gap = [text("do "), Entry::Mark, text(""), text(" sell")];
    assert_eq!(expected(&line, 1, &[]), []);
    assert_eq!(expected(&line, 2, &[0, 3]), all);
    assert_eq!(expected(&line, 1, &[0, 3]), gap);
    assert_eq!(expected(&line, 1, &[0, 3, 1, 2, 3]), gap);
    assert_eq!(expected(&line, 1, &[1, 0, 1, 2, 3]), all);
    assert_eq!(expected(&line, 1, &[2, 0, 1]), all[1..3]);
    assert_eq!(expected(&line, 0, &[2]), all[2..3]);
    let line = sent(&[(0, "a"), (1, "b"), (16_384, "c")]);
    assert_eq!(expected(&line, 2, &[2]), [text("b"), text("c")]);
    let gap = [text("a"), Entry::Mark, text("c")];
    assert_eq!(expected(&line, 0, &[0, 2]), gap);
    // A block that holds U+FFFD is no mark.
    assert_ne!(text("\u{fffd}"), Entry::Mark);
}

//! The longest packets of every level.

mod common;

use common::sent;
use independent::sender::{Clocked, Sender, Settings, LONGEST_PACKET};
use independent::{read, LEVEL};

/// With 160 bytes in each block, by the number of older ones.
const LENGTHS: [usize; 8] = [173, 337, 501, 665, 829, 993, 1_157, 1_321];

/// Letters of two bytes, so that the highest rate holds none back.
fn typed(level: usize) -> Sender {
    Sender::open(Settings {
        level,
        buffering: 300,
        rate: 100,
        t140: 98,
        red: 100,
        sequence: 65_530,
        timestamp: 0,
        source: 7,
    })
    .unwrap()
}

fn offer(sender: &mut Sender, clock: u64) {
    sender.offer(clock, "å".repeat(80).as_bytes()).unwrap();
}

#[test]
fn lengths() {
    assert_eq!(LONGEST_PACKET, LENGTHS[LEVEL]);
    for level in 1..=LEVEL {
        let mut sender = typed(level);
        for (k, clock) in (0..LEVEL + 3).zip((0..).step_by(300)) {
            offer(&mut sender, clock);
            let packet = sent(&mut sender, clock).unwrap();
            let run = k.min(level);
            assert_eq!(packet.len(), LENGTHS[run]);
            let read = read(None, 98, 100, &packet).unwrap();
            assert_eq!(read.older().len(), run);
            assert_eq!(usize::from(read.sequence), (65_530 + k) % 65_536);
            assert!(read.older().all(|older| older.length == 160));
        }
    }
    let mut sender = typed(0);
    offer(&mut sender, 0);
    assert_eq!(sent(&mut sender, 0).unwrap().len(), 172);
}

/// One byte less than the longest is refused, and then an empty primary
/// repeats as much.
#[test]
fn the_longest() {
    let last = 300 * LEVEL as u64;
    let mut sender = typed(LEVEL);
    for clock in (0..last).step_by(300) {
        offer(&mut sender, clock);
        sent(&mut sender, clock).unwrap();
    }
    offer(&mut sender, last);
    let mut space = [0; LONGEST_PACKET];
    let short = &mut space[..LONGEST_PACKET - 1];
    assert_eq!(sender.clock(last, short), Clocked::Refused(8));
    let answer = sender.clock(last, &mut space);
    assert_eq!(answer, Clocked::Sent(LENGTHS[LEVEL]));
    let packet = sent(&mut sender, last + 300).unwrap();
    assert_eq!(packet.len(), LENGTHS[LEVEL] - 160);
    let read = read(None, 98, 100, &packet).unwrap();
    assert_eq!((read.older().len(), read.primary()), (LEVEL, &[][..]));
}

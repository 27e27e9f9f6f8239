//! Clocks near 2^64, numbers past 65,535 and times past 2^32.

use independent::sender::{Clocked, Sender, Settings, LONGEST_PACKET};
use independent::{read, LEVEL};

fn settings(level: usize, buffering: u64) -> Settings {
    Settings {
        level,
        buffering,
        rate: 30,
        t140: 98,
        red: 100,
        sequence: 65_533,
        timestamp: u32::MAX - 100,
        source: 7,
    }
}

fn clock(sender: &mut Sender, clock: u64) -> (Clocked, Vec<u8>) {
    let mut space = vec![0; LONGEST_PACKET];
    let answer = sender.clock(clock, &mut space);
    if let Clocked::Sent(length) = answer {
        space.truncate(length);
    }
    (answer, space)
}

/// The last packet at 2^64 - 601 with buffering 500.
#[test]
fn near_the_end_of_the_clock() {
    let last = u64::MAX - 600;
    for level in 0..=LEVEL {
        let mut sender = Sender::open(settings(level, 500)).unwrap();
        sender.offer(last, b"A").unwrap();
        assert!(matches!(clock(&mut sender, last).0, Clocked::Sent(_)));
        sender.offer(last, b"B").unwrap();
        assert_eq!(clock(&mut sender, last + 499).0, Clocked::Quiet);
        let (answer, packet) = clock(&mut sender, last + 500);
        assert!(matches!(answer, Clocked::Sent(_)));
        let packet = read(None, 98, 100, &packet).unwrap();
        assert_eq!(packet.older().len(), level.min(1));
        assert!(packet.older().all(|older| older.offset == 500));
        assert!(!packet.marker);
        assert_eq!(clock(&mut sender, u64::MAX).0, Clocked::Quiet);
        assert_eq!(sender.offer(u64::MAX - 1, b"C"), Err(5));
        assert_eq!(sender.offer(u64::MAX, b"C"), Ok(()));
        assert_eq!(clock(&mut sender, u64::MAX).0, Clocked::Quiet);
        assert_eq!(clock(&mut sender, 0).0, Clocked::Refused(5));
    }
}

/// From clock 0 to the last one in a single step.
#[test]
fn across_the_whole_clock() {
    let mut sender = Sender::open(settings(LEVEL, 1)).unwrap();
    sender.offer(0, b"A").unwrap();
    assert!(matches!(clock(&mut sender, 0).0, Clocked::Sent(14)));
    assert_eq!(clock(&mut sender, u64::MAX).0, Clocked::Quiet);
    sender.offer(u64::MAX, b"B").unwrap();
    let (_, packet) = clock(&mut sender, u64::MAX);
    let packet = read(None, 98, 100, &packet).unwrap();
    assert!(packet.marker);
    assert_eq!(packet.older().len(), 0);
    assert_eq!(packet.timestamp, u32::MAX - 101);
}

#[test]
fn more_than_65_536_packets() {
    // So many ms apart, none is held back.
    const STEP: u64 = 11;
    for level in 0..=LEVEL {
        let settings = Settings {
            rate: 100,
            ..settings(level, STEP)
        };
        let mut sender = Sender::open(settings).unwrap();
        for k in 0..70_000_u64 {
            let letter = [b'a' + (k % 26) as u8];
            sender.offer(STEP * k, &letter).unwrap();
            let (_, packet) = clock(&mut sender, STEP * k);
            let packet = read(Some(7), 98, 100, &packet).unwrap();
            assert_eq!(u64::from(packet.sequence), (65_533 + k) % 65_536);
            let timestamp = (u64::from(u32::MAX) - 100 + STEP * k) % (1 << 32);
            assert_eq!(u64::from(packet.timestamp), timestamp);
            assert_eq!(packet.older().len() as u64, k.min(level as u64));
            let older: Vec<_> = packet.older().collect();
            for (older, back) in older.iter().rev().zip(1..) {
                let letter = [b'a' + ((k - back) % 26) as u8];
                assert_eq!(packet.block(older), letter);
                assert_eq!(u64::from(older.offset), STEP * back);
            }
            assert_eq!(packet.primary(), letter);
            assert_eq!(packet.marker, k == 0);
        }
    }
}

/// Packets 2^32 ms apart carry the same timestamp.
#[test]
fn timestamps_wrap() {
    let mut sender = Sender::open(settings(0, 500)).unwrap();
    let mut timestamps = vec![];
    for t in [5, 5 + (1 << 32)] {
        sender.offer(t, b"A").unwrap();
        let (_, packet) = clock(&mut sender, t);
        timestamps.push(read(None, 98, 100, &packet).unwrap().timestamp);
    }
    assert_eq!(timestamps, [u32::MAX - 95; 2]);
}

/// The run is broken by the first block too old, whatever the level.
#[test]
fn run_of_repeats() {
    let mut sender = Sender::open(settings(LEVEL, 1)).unwrap();
    for (t, text) in [(0, "a"), (1, "b"), (10_000, "c")] {
        sender.offer(t, text.as_bytes()).unwrap();
        clock(&mut sender, t);
    }
    for (t, carried) in [
        (16_383, "abc"),
        (16_384, "bc"),
        (16_385, "c"),
        (26_383, "c"),
    ] {
        let (_, packet) = clock(&mut sender.clone(), t);
        let packet = read(None, 98, 100, &packet).unwrap();
        let older = packet.older().map(|older| packet.block(&older));
        let carried = &carried[carried.len().saturating_sub(LEVEL)..];
        assert_eq!(older.collect::<Vec<_>>().concat(), carried.as_bytes());
    }
    assert_eq!(clock(&mut sender, 26_384).0, Clocked::Quiet);
    // Level 0 repeats nothing and falls silent at once.
    let mut sender = Sender::open(settings(0, 1)).unwrap();
    sender.offer(0, b"a").unwrap();
    assert!(matches!(clock(&mut sender, 0).0, Clocked::Sent(13)));
    assert_eq!(clock(&mut sender, 1).0, Clocked::Quiet);
}

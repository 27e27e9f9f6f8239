//! The sender's line tests, its refusals and its bounds.

mod common;

use common::sent;
use independent::sender::{Clocked, Sender, Settings, LONGEST_PACKET};
use independent::{left_out, read, Packet, LEVEL};

const USUAL: Settings = Settings {
    level: LEVEL,
    buffering: 300,
    rate: 30,
    t140: 98,
    red: 100,
    sequence: 65_535,
    timestamp: 1000,
    source: 0x11223344,
};

fn open(level: usize, buffering: u64) -> Sender {
    Sender::open(Settings {
        level,
        buffering,
        ..USUAL
    })
    .unwrap()
}

fn seen(packet: &[u8]) -> Packet<'_> {
    read(Some(USUAL.source), 98, 100, packet).unwrap()
}

/// Older blocks with their offsets, and the primary.
fn blocks(packet: &[u8]) -> (Vec<(u16, Vec<u8>)>, Vec<u8>) {
    let packet = seen(packet);
    let older = packet.older();
    let older = older.map(|older| (older.offset, packet.block(&older).to_vec()));
    (older.collect(), packet.primary().to_vec())
}

fn marker(sender: &mut Sender, clock: u64) -> bool {
    seen(&sent(sender, clock).unwrap()).marker
}

#[test]
fn t11() {
    if left_out("T11", 2) {
        return;
    }
    let mut sender = open(2, 300);
    sender.offer(0, b"A").unwrap();
    let packet = sent(&mut sender, 0).unwrap();
    assert_eq!(
        (seen(&packet).sequence, seen(&packet).marker),
        (65_535, true)
    );
    assert_eq!(blocks(&packet), (vec![], b"A".to_vec()));
    assert_eq!(sent(&mut sender, 299), None);
    let packet = sent(&mut sender, 300).unwrap();
    assert_eq!((seen(&packet).sequence, seen(&packet).marker), (0, false));
    assert_eq!(blocks(&packet), (vec![(300, b"A".to_vec())], vec![]));
    let packet = sent(&mut sender, 600).unwrap();
    assert_eq!((seen(&packet).sequence, seen(&packet).marker), (1, false));
    assert_eq!(seen(&packet).timestamp, 1600);
    let older = vec![(600, b"A".to_vec()), (300, vec![])];
    assert_eq!(blocks(&packet), (older, vec![]));
    assert_eq!(sent(&mut sender, 900), None);
}

#[test]
fn t12() {
    let mut sender = open(1, 300);
    sender.offer(0, b"A").unwrap();
    sent(&mut sender, 0).unwrap();
    let mut other = sender.clone();
    let packet = sent(&mut sender, 16_383).unwrap();
    assert_eq!(blocks(&packet), (vec![(16_383, b"A".to_vec())], vec![]));
    assert_eq!(sent(&mut other, 16_384), None);
}

#[test]
fn run_only_160_and_161_bytes_offered() {
    let settings = Settings { rate: 100, ..USUAL };
    let mut sender = Sender::open(settings).unwrap();
    assert_eq!(sender.offer(0, &[b'a'; 161]), Err(4));
    assert_eq!(sender, Sender::open(settings).unwrap());
    assert_eq!(sender.offer(0, &[b'a'; 160]), Ok(()));
    assert_eq!(sender.offer(0, b"b"), Err(4));
    let packet = sent(&mut sender, 0).unwrap();
    assert_eq!(blocks(&packet).1, [b'a'; 160]);
    assert_eq!(sender.offer(0, &[b'b'; 100]), Ok(()));
    assert_eq!(sender.offer(0, &[b'c'; 61]), Err(4));
    assert_eq!(sender.offer(0, &[b'c'; 60]), Ok(()));
    let packet = sent(&mut sender, 300).unwrap();
    let (older, primary) = blocks(&packet);
    assert_eq!(older, [(300, vec![b'a'; 160])]);
    assert_eq!(primary, [[b'b'; 100].as_slice(), &[b'c'; 60]].concat());
}

#[test]
fn run_only_bad_letters_offered() {
    for text in [&[0xc0, 0x80][..], &[0xf4, 0x90, 0x80, 0x80]] {
        let mut sender = open(LEVEL, 300);
        assert_eq!(sender.offer(0, text), Err(6));
        assert_eq!(sender, open(LEVEL, 300));
    }
}

/// Time 300, text sent at 0 and offered at 300 or 301.
#[test]
fn run_only_marker_after_300_and_301() {
    for level in 0..=LEVEL {
        for (offered, expected) in [(300, false), (301, true)] {
            let mut sender = open(level, 300);
            sender.offer(0, b"A").unwrap();
            assert!(marker(&mut sender, 0));
            sender.offer(offered, b"B").unwrap();
            assert_eq!(marker(&mut sender, offered), expected);
        }
    }
}

/// The first waiting byte counts, from the last packet that had text.
#[test]
fn marker_counts_the_first_byte_and_the_last_text() {
    let mut sender = open(LEVEL, 300);
    sender.offer(0, b"A").unwrap();
    sent(&mut sender, 0).unwrap();
    sender.offer(300, b"B").unwrap();
    sender.offer(5000, b"C").unwrap();
    assert!(!marker(&mut sender, 5000));
    assert!(!marker(&mut sender, 5300));
    sender.offer(5301, b"D").unwrap();
    assert!(marker(&mut sender, 5600));
    // Offered in the ms of the last text, sent long after.
    sender.offer(5600, b"E").unwrap();
    assert!(!marker(&mut sender, 50_000));
}

#[test]
fn openings() {
    let refused = |settings| Sender::open(settings).err();
    let bad = Settings {
        buffering: 0,
        t140: 0,
        ..USUAL
    };
    assert_eq!(refused(bad), Some(2));
    for level in [LEVEL + 1, LEVEL + 2, 255, 256, 1 << 32, usize::MAX] {
        assert_eq!(refused(Settings { level, ..bad }), Some(1));
        assert_eq!(refused(Settings { level, ..USUAL }), Some(1));
    }
    let buffering = |buffering| Settings { buffering, ..USUAL };
    assert_eq!(refused(buffering(501)), Some(2));
    assert_eq!(refused(buffering(u64::MAX)), Some(2));
    assert_eq!(refused(buffering(500)), None);
    assert_eq!(refused(buffering(1)), None);
    for level in 0..=LEVEL {
        assert_eq!(refused(Settings { level, ..USUAL }), None);
    }
    for (t140, red) in [(95, 100), (128, 100), (98, 95), (98, 128), (98, 98)] {
        assert_eq!(refused(Settings { t140, red, ..USUAL }), Some(3));
    }
}

#[test]
fn the_zero_sender() {
    let mut zero = Sender::zero();
    assert_eq!(zero.offer(0, b"A"), Err(2));
    assert_eq!(zero.offer(0, b""), Err(2));
    assert_eq!(zero.clock(0, &mut []), Clocked::Refused(2));
    assert_eq!(zero, Sender::zero());
}

/// 5, 7, 6, 4: each text below earns its number and those after it.
#[test]
fn refusal_orders() {
    let mut sender = open(LEVEL, 300);
    sender.offer(0, &[b'a'; 160]).unwrap();
    assert_eq!(sent(&mut sender, 100).unwrap().len(), 173);
    sender.offer(100, &[b'b'; 160]).unwrap();
    let before = sender.clone();
    for text in [&b""[..], &[0xff], b"c"] {
        assert_eq!(sender.offer(99, text), Err(5));
    }
    assert_eq!(sender.offer(200, b""), Err(7));
    assert_eq!(sender.offer(200, &[0xff]), Err(6));
    assert_eq!(sender.offer(200, &[0xff; 161]), Err(6));
    assert_eq!(sender.offer(200, b"c"), Err(4));
    assert_eq!(sender.clock(99, &mut []), Clocked::Refused(5));
    assert_eq!(sender.clock(400, &mut []), Clocked::Refused(8));
    assert_eq!(sender, before);
    // Not due: quiet, however short the space.
    assert_eq!(sender.clock(399, &mut []), Clocked::Quiet);
}

/// A refusal keeps no clock, 8 included; quiet does.
#[test]
fn which_calls_keep_the_clock() {
    let mut sender = open(LEVEL, 300);
    sender.offer(10, b"A").unwrap();
    assert_eq!(sender.clock(500, &mut [0; 13]), Clocked::Refused(8));
    assert_eq!(sender.offer(400, b"B"), Ok(()));
    assert_eq!(sender.offer(500, b""), Err(7));
    assert_eq!(sender.offer(400, b"C"), Ok(()));
    assert_eq!(sender.offer(399, b"D"), Err(5));
    assert_eq!(blocks(&sent(&mut sender, 400).unwrap()).1, b"ABC");
    assert_eq!(sender.clock(600, &mut []), Clocked::Quiet);
    assert_eq!(sender.offer(599, b"D"), Err(5));
    assert_eq!(sender.clock(599, &mut []), Clocked::Refused(5));
    assert_eq!(sender.offer(600, b"D"), Ok(()));
}

#[test]
fn space_one_byte_short_and_bytes_past_the_packet() {
    for level in 0..=LEVEL {
        let mut sender = open(level, 1);
        for clock in 0..8 {
            sender.offer(clock, b"ab").unwrap();
            let before = sender.clone();
            let packet = sent(&mut sender.clone(), clock).unwrap();
            for short in 0..packet.len() {
                let mut space = vec![0x55; short];
                let answer = sender.clock(clock, &mut space);
                assert_eq!(answer, Clocked::Refused(8));
                assert_eq!(space, vec![0x55; short]);
                assert_eq!(sender, before);
            }
            let mut space = vec![0x55; packet.len() + clock as usize];
            let answer = sender.clock(clock, &mut space);
            assert_eq!(answer, Clocked::Sent(packet.len()));
            assert_eq!(space[..packet.len()], packet);
            assert!(space[packet.len()..].iter().all(|&byte| byte == 0x55));
            let mut space = [0x55; LONGEST_PACKET];
            assert_eq!(sender.clock(clock, &mut space), Clocked::Quiet);
            assert_eq!(space, [0x55; LONGEST_PACKET]);
        }
    }
}

/// As many blocks as the highest level repeats are kept at every level, and
/// nothing else of what was sent counts.
#[test]
fn blocks_kept() {
    let text = |k: usize| vec![b'a' + k as u8; 1 + k % 3];
    let at = |k: usize| 1000 * k as u64 + 300;
    for level in 0..=LEVEL {
        let mut sender = open(level, 300);
        assert_eq!(sender.waiting().clock, 0);
        assert!(sender.waiting().is_empty());
        assert_eq!(sender.blocks().count(), 0);
        assert_eq!((sender.last_packet(), sender.last_text()), (None, None));
        for k in 0..LEVEL + 2 {
            sender.offer(at(k) - 200, &text(k)).unwrap();
            assert_eq!(sender.waiting().clock, at(k) - 200);
            assert_eq!(sender.waiting().text(), text(k));
            sent(&mut sender, at(k)).unwrap();
            assert_eq!(sender.waiting().clock, 0);
            assert_eq!(sender.waiting().len(), 0);
            let blocks = sender.blocks();
            let blocks = blocks.map(|block| (block.clock, block.text().to_vec()));
            let kept = (0..=k).rev().take(LEVEL);
            assert!(blocks.eq(kept.map(|k| (at(k), text(k)))));
        }
        assert_eq!(usize::from(sender.sequence()), LEVEL + 1);
        assert_eq!(sender.last_text(), Some(at(LEVEL + 1)));
    }
    // Two senders that differ in a block no longer kept become equal.
    let mut senders = [b"x", b"y"].map(|first| {
        let mut sender = open(0, 1);
        sender.offer(0, first).unwrap();
        sent(&mut sender, 0).unwrap();
        sender
    });
    for clock in 1..=LEVEL as u64 {
        assert_ne!(senders[0], senders[1]);
        for sender in &mut senders {
            sender.offer(clock, b"z").unwrap();
            sent(sender, clock).unwrap();
        }
    }
    assert_eq!(senders[0], senders[1]);
}

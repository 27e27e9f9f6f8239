//! The rate: what is sent and when, packet by packet, worked out by hand.

mod common;

use common::sent;
use independent::sender::{Clocked, Sender, Settings};
use independent::LEVEL;

/// One character a second, and so ten in ten seconds.
const SLOW: Settings = Settings {
    level: 0,
    buffering: 1,
    rate: 1,
    t140: 98,
    red: 100,
    sequence: 0,
    timestamp: 0,
    source: 7,
};

fn open(settings: Settings) -> Sender {
    Sender::open(settings).unwrap()
}

fn all_quiet(sender: &mut Sender, clocks: &[u64]) {
    for clock in clocks {
        assert_eq!(sent(sender, *clock), None, "at {clock}");
    }
}

/// A T140 packet of this source.
fn plain(marker: bool, sequence: u16, timestamp: u32, text: &[u8]) -> Option<Vec<u8>> {
    let mut packet = vec![0x80, u8::from(marker) << 7 | 98];
    packet.extend(sequence.to_be_bytes());
    packet.extend(timestamp.to_be_bytes());
    packet.extend([0, 0, 0, 7]);
    packet.extend(text);
    Some(packet)
}

/// 9 is looked at behind 3, and no part of a rate is cut off.
#[test]
fn rates() {
    let refused = |settings| Sender::open(settings).err();
    let rate = |rate| Settings { rate, ..SLOW };
    for good in [1, 2, 30, 99, 100] {
        assert_eq!(refused(rate(good)), None);
    }
    for bad in [0, 101, 256, 257, 65_537, (1 << 32) + 1, usize::MAX] {
        assert_eq!(refused(rate(bad)), Some(9));
    }
    let bad = Settings { red: 98, ..rate(0) };
    assert_eq!(refused(bad), Some(3));
    let bad = Settings {
        buffering: 0,
        ..bad
    };
    assert_eq!(refused(bad), Some(2));
    let level = LEVEL + 1;
    assert_eq!(refused(Settings { level, ..bad }), Some(1));
}

#[test]
fn letters_of_two_bytes() {
    let mut sender = open(SLOW);
    sender.offer(0, "å".repeat(11).as_bytes()).unwrap();
    let packet = sent(&mut sender, 0);
    assert_eq!(packet.as_ref().map(Vec::len), Some(32));
    assert_eq!(packet, plain(true, 0, 0, &[0xc3, 0xa5].repeat(10)));
    assert_eq!(sender.waiting().text(), [0xc3, 0xa5]);
    all_quiet(&mut sender, &[1, 5_000, 10_000]);
    let packet = sent(&mut sender, 10_001);
    assert_eq!(packet.as_ref().map(Vec::len), Some(14));
    assert_eq!(packet, plain(false, 1, 10_001, &[0xc3, 0xa5]));
}

/// Letters of one to four bytes are one each.
#[test]
fn letters_of_all_sizes() {
    let text = "aå€😀bß\u{800}\u{10ffff}\u{7f}\u{80}cd";
    for first in 1..=10 {
        let mut sender = open(SLOW);
        let typed = "x".repeat(10 - first);
        if !typed.is_empty() {
            sender.offer(0, typed.as_bytes()).unwrap();
            assert_eq!(sent(&mut sender, 0), plain(true, 0, 0, typed.as_bytes()));
        }
        sender.offer(1, text.as_bytes()).unwrap();
        let front: String = text.chars().take(first).collect();
        let packet = sent(&mut sender, 1).unwrap();
        assert_eq!(&packet[12..], front.as_bytes());
        let left: String = text.chars().skip(first).collect();
        assert_eq!(sender.waiting().text(), left.as_bytes());
        assert_eq!(sender.waiting().characters(), 12 - first);
    }
}

/// Text held back whole keeps its own offer time.
#[test]
fn held_back_whole() {
    for (offered, marker) in [(1, false), (2, true)] {
        let mut sender = open(SLOW);
        sender.offer(0, b"0123456789").unwrap();
        assert_eq!(sent(&mut sender, 0), plain(true, 0, 0, b"0123456789"));
        sender.offer(offered, b"x").unwrap();
        all_quiet(&mut sender, &[10_000]);
        assert_eq!(sender.waiting().clock, offered);
        assert_eq!(sent(&mut sender, 10_001), plain(marker, 1, 10_001, b"x"));
    }
}

#[test]
fn two_packets_in_the_interval() {
    let mut sender = open(SLOW);
    sender.offer(0, b"abcde").unwrap();
    assert_eq!(sent(&mut sender, 0), plain(true, 0, 0, b"abcde"));
    sender.offer(1, b"fghij").unwrap();
    assert_eq!(sent(&mut sender, 1), plain(false, 1, 1, b"fghij"));
    sender.offer(2, b"klmnopqrst").unwrap();
    all_quiet(&mut sender, &[10_000]);
    assert_eq!(sent(&mut sender, 10_001), plain(false, 2, 10_001, b"klmno"));
    assert_eq!(sent(&mut sender, 10_002), plain(false, 3, 10_002, b"pqrst"));
}

/// An empty primary goes out while text waits, and its block counts.
#[test]
fn repeats_go_on() {
    let mut sender = open(Settings {
        level: 1,
        buffering: 300,
        ..SLOW
    });
    sender.offer(0, b"0123456789x").unwrap();
    let header = |marker, sequence, timestamp| {
        let mut packet = plain(marker, sequence, timestamp, b"").unwrap();
        packet[1] += 2;
        packet
    };
    let first = [header(true, 0, 0), b"\x620123456789".to_vec()].concat();
    assert_eq!(sent(&mut sender, 0), Some(first));
    // 300 is 0x12c, of 14 bits, before a length of 10 bits.
    let repeat = [0xe2, 0x04, 0xb0, 0x0a, 0x62];
    let repeat = [&header(false, 1, 300), &repeat[..], b"0123456789"].concat();
    assert_eq!(repeat.len(), 27);
    assert_eq!(sent(&mut sender, 300), Some(repeat));
    assert_eq!(sender.waiting().text(), b"x");
    all_quiet(&mut sender, &[600, 10_000]);
    // 9,701 is 0x25e5.
    let last = [0xe2, 0x97, 0x94, 0x00, 0x62, b'x'];
    let last = [&header(false, 2, 10_001), &last[..]].concat();
    assert_eq!(sent(&mut sender, 10_001), Some(last));
    let repeat = [0xe2, 0x04, 0xb0, 0x01, 0x62, b'x'];
    let repeat = [&header(false, 3, 10_301), &repeat[..]].concat();
    assert_eq!(sent(&mut sender, 10_301), Some(repeat));
    all_quiet(&mut sender, &[10_601]);
}

/// A leftover counts as offered when the packet before it was sent.
#[test]
fn leftovers() {
    let text = b"abcdefghijklmnopqrstuvwxy";
    let mut sender = open(SLOW);
    sender.offer(0, text).unwrap();
    assert_eq!(sent(&mut sender, 0), plain(true, 0, 0, &text[..10]));
    assert_eq!(sender.waiting().clock, 0);
    all_quiet(&mut sender, &[10_000]);
    let packet = plain(false, 1, 10_001, &text[10..20]);
    assert_eq!(sent(&mut sender, 10_001), packet);
    assert_eq!(sender.waiting().clock, 10_001);
    all_quiet(&mut sender, &[20_001]);
    let packet = plain(false, 2, 20_002, &text[20..]);
    assert_eq!(sent(&mut sender, 20_002), packet);
    assert_eq!(sender.waiting().clock, 0);

    // What is offered behind a leftover shares its time.
    let mut sender = open(Settings {
        buffering: 500,
        ..SLOW
    });
    sender.offer(0, b"0123456789a").unwrap();
    assert_eq!(sent(&mut sender, 0), plain(true, 0, 0, b"0123456789"));
    sender.offer(9_000, b"b").unwrap();
    assert_eq!(sent(&mut sender, 10_001), plain(false, 1, 10_001, b"ab"));
}

/// Refusal 8 spends nothing, and keeps no clock.
#[test]
fn space_too_short() {
    let mut sender = open(SLOW);
    sender.offer(0, b"0123456789x").unwrap();
    let before = sender.clone();
    let mut space = [0x55; 22];
    assert_eq!(sender.clock(0, &mut space[..21]), Clocked::Refused(8));
    assert_eq!((space, &sender), ([0x55; 22], &before));
    assert_eq!(sender.clock(0, &mut space), Clocked::Sent(22));
    assert_eq!(Some(space.to_vec()), plain(true, 0, 0, b"0123456789"));
    // At 10,001 `x` would be free to go. That call is refused, so at 10,000
    // it is still held back.
    let before = sender.clone();
    assert_eq!(sender.clock(10_001, &mut [0; 12]), Clocked::Refused(8));
    assert_eq!(sender, before);
    all_quiet(&mut sender, &[10_000]);
    assert_eq!(sent(&mut sender, 10_001), plain(false, 1, 10_001, b"x"));
}

/// As many packets in the interval as there can be.
#[test]
fn a_letter_every_ms() {
    let mut sender = open(Settings { rate: 100, ..SLOW });
    let mut packets = vec![];
    let mut refused = 0;
    for clock in 0..=12_000 {
        let letter = [b'a' + (clock % 26) as u8];
        refused += usize::from(sender.offer(clock, &letter) == Err(4));
        if let Some(packet) = sent(&mut sender, clock) {
            assert_eq!(packet.len(), 13);
            packets.push(clock);
        }
    }
    let due: Vec<u64> = (0..1000).chain(10_001..=11_000).collect();
    assert_eq!(packets, due);
    // 160 letters wait, and each packet makes room for one.
    assert_eq!(refused, 12_001 - 2000 - 160);
}

#[test]
fn near_the_end_of_the_clock() {
    let mut sender = open(Settings {
        buffering: 500,
        ..SLOW
    });
    let first = u64::MAX - 10_001;
    sender.offer(first, b"0123456789x").unwrap();
    let timestamp = first as u32;
    let packet = plain(true, 0, timestamp, b"0123456789");
    assert_eq!(sent(&mut sender, first), packet);
    all_quiet(&mut sender, &[u64::MAX - 1]);
    let packet = plain(false, 1, u32::MAX, b"x");
    assert_eq!(sent(&mut sender, u64::MAX), packet);
}

/// 30 a second let 300 characters go in ten seconds, over several packets.
#[test]
fn the_usual_rate() {
    let mut sender = open(Settings { rate: 30, ..SLOW });
    for (clock, typed, front) in [(0, 160, 160), (1, 160, 140), (10_000, 140, 0)] {
        sender.offer(clock, &vec![b'a'; typed]).unwrap();
        let taken = sent(&mut sender, clock).map_or(0, |packet| packet.len() - 12);
        assert_eq!(taken, front, "at {clock}");
    }
    let packet = sent(&mut sender, 10_001).unwrap();
    assert_eq!((packet.len(), packet[1]), (12 + 160, 98));
    assert!(sender.waiting().is_empty());
    let spent: Vec<(u64, usize)> = sender.spent().collect();
    assert_eq!(spent, [(1, 140), (10_001, 160)]);
}

//! Which packets are forward, late, a jump or a break.

use stewpigeon::{Packet, Receiver, Refusal, Step};

/// A packet of type T140.
fn packet(sequence: u16) -> Vec<u8> {
    let [high, low] = sequence.to_be_bytes();
    vec![0x80, 98, high, low, 0, 0, 0, 0, 0, 0, 0, 7, b'A']
}

/// The texts of a packet with as many older blocks as there may be.
const TEXTS: &[u8] = b"ABCDEFGH".split_at(Packet::LEVEL + 1).0;

/// Such a packet, of type RED.
fn with_repeats(sequence: u16) -> Vec<u8> {
    let mut packet = packet(sequence);
    packet[1] = 100;
    packet.pop();
    for age in (1..=Packet::LEVEL as u8).rev() {
        packet.extend([0xe2, age, 0, 1]);
    }
    packet.push(98);
    packet.extend(TEXTS);
    packet
}

/// 5 is its newest number.
fn open() -> Receiver {
    let mut receiver = Receiver::open(98, 100).unwrap();
    receiver.step(&packet(5)).unwrap();
    receiver
}

const fn forward(distance: i16) -> Step<'static> {
    Step::Forward {
        loss: distance as u16,
        distance,
        older: 0,
        given: 1,
        text: b"A",
    }
}

const fn late(distance: i16) -> Step<'static> {
    Step::Late { distance }
}

const fn jump(distance: i16) -> Step<'static> {
    Step::Jump { distance }
}

const BREAK: Step = Step::Break {
    older: 0,
    given: 1,
    text: b"A",
};

/// Packets after 5, and the step that each must give.
fn steps(packets: &[(u16, Step)]) -> Receiver {
    let mut receiver = open();
    for &(sequence, step) in packets {
        assert_eq!(receiver.step(&packet(sequence)), Ok(step), "{sequence}");
    }
    receiver
}

#[test]
fn limits() {
    for (sequence, step, expected, kept) in [
        (6, forward(0), 7, None),
        (3_004, forward(2_998), 3_005, None),
        (3_005, jump(2_999), 6, Some(3_006)),
        (32_773, jump(32_767), 6, Some(32_774)),
        (32_774, jump(-32_768), 6, Some(32_775)),
        (65_441, jump(-101), 6, Some(65_442)),
        (65_442, late(-100), 6, None),
        (65_535, late(-7), 6, None),
        (0, late(-6), 6, None),
        (5, late(-1), 6, None),
    ] {
        let receiver = steps(&[(sequence, step)]);
        assert_eq!(receiver.source(), Some(7));
        assert_eq!(receiver.expected(), Some(expected), "{sequence}");
        assert_eq!(receiver.kept(), kept, "{sequence}");
    }
}

#[test]
fn breaks() {
    let receiver = steps(&[
        (32_773, jump(32_767)),
        (32_774, BREAK),
        (32_775, forward(0)),
        (5, jump(32_765)),
        (6, BREAK),
    ]);
    assert_eq!((receiver.expected(), receiver.kept()), (Some(7), None));
    steps(&[
        (10_000, jump(9_994)),
        (10_000, jump(9_994)),
        (10_001, BREAK),
    ]);
    steps(&[(65_000, jump(-542)), (65_001, BREAK), (65_000, late(-2))]);
}

/// Late and refused packets may stand between a jump and its break.
#[test]
fn what_keeps_the_number() {
    let mut receiver = steps(&[(10_000, jump(9_994)), (5, late(-1))]);
    let before = receiver.clone();
    let refused = &packet(10_001)[..11];
    assert_eq!(receiver.step(refused), Err(Refusal::Short));
    let mut other = packet(10_001);
    other[11] = 8;
    assert_eq!(receiver.step(&other), Err(Refusal::Source));
    assert_eq!(receiver, before);
    assert_eq!(receiver.step(&packet(10_001)), Ok(BREAK));
}

/// With the number kept a late packet is late nevertheless.
#[test]
fn late_with_the_kept_number() {
    let receiver = steps(&[(65_441, jump(-101)), (65_442, late(-100))]);
    assert_eq!(receiver.kept(), Some(65_442));
}

/// A forward packet clears it, and another jump takes its place.
#[test]
fn what_loses_the_number() {
    let receiver = steps(&[(10_000, jump(9_994)), (6, forward(0))]);
    assert_eq!((receiver.expected(), receiver.kept()), (Some(7), None));
    steps(&[
        (10_000, jump(9_994)),
        (6, forward(0)),
        (10_001, jump(9_994)),
        (10_002, BREAK),
    ]);
    steps(&[
        (10_000, jump(9_994)),
        (20_000, jump(19_994)),
        (10_001, jump(9_995)),
        (20_001, jump(19_995)),
    ]);
}

#[test]
fn the_kept_number_wraps() {
    let mut receiver = Receiver::open(98, 100).unwrap();
    receiver.step(&packet(40_000)).unwrap();
    assert_eq!(receiver.step(&packet(65_535)), Ok(jump(25_534)));
    assert_eq!(receiver.kept(), Some(0));
    assert_eq!(receiver.step(&packet(0)), Ok(BREAK));
    assert_eq!((receiver.expected(), receiver.kept()), (Some(1), None));
}

#[test]
fn a_break_gives_all_blocks() {
    let mut receiver = open();
    let first = with_repeats(40_000);
    assert_eq!(receiver.step(&first), Ok(jump(-25_542)));
    let second = with_repeats(40_001);
    let Ok(Step::Break { older, given, text }) = receiver.step(&second) else {
        panic!("the second packet is a break");
    };
    assert_eq!(older, Packet::LEVEL);
    assert_eq!((given, text), (TEXTS.len(), TEXTS));
    // It is the packet's own bytes.
    assert!(std::ptr::eq(text, &second[second.len() - given..]));
    let third = with_repeats(40_002);
    let Ok(Step::Forward { loss, text, .. }) = receiver.step(&third) else {
        panic!("the third packet is forward");
    };
    assert_eq!((loss, text), (0, &TEXTS[Packet::LEVEL..]));
}

//! Jumps and breaks: the rows of the paper's correction by hand, and every
//! number.

mod receiving;

use independent::packets::older;
use independent::receiver::{Answer, Receiver};
use independent::record::{add, Entry};
use independent::LEVEL;
use receiving::{expecting, forward, open, red};
use Short::{Break, Forward, Jump, Late, Refused};

/// An answer with its distance, or with its loss where it gives text.
#[derive(Debug, PartialEq, Eq)]
enum Short {
    Refused,
    Late(i32),
    Jump(i32),
    Forward(u16),
    Break,
}

/// A step, held against what each answer leaves.
fn step(receiver: &mut Receiver, packet: &[u8]) -> Short {
    let before = *receiver;
    let answer = receiver.step(packet);
    match answer {
        Answer::Refused(_) => {
            assert_eq!(*receiver, before);
            Refused
        }
        Answer::Late { distance } => {
            assert_eq!(*receiver, before);
            Late(distance)
        }
        Answer::Jump { distance } => {
            let sequence = u16::from_be_bytes([packet[2], packet[3]]);
            assert_eq!(receiver.kept(), Some(sequence.wrapping_add(1)));
            assert_eq!(receiver.source(), before.source());
            assert_eq!(receiver.expected(), before.expected());
            Jump(distance)
        }
        Answer::Forward(added) => {
            assert_eq!(receiver.kept(), None);
            Forward(added.loss)
        }
        Answer::Break(added) => {
            let mut fresh = open();
            assert_eq!(added, forward(fresh.step(packet)));
            assert_eq!(*receiver, fresh);
            assert_eq!(receiver.source(), before.source());
            Break
        }
    }
}

/// The packet of a number.
fn packet(number: u16) -> Vec<u8> {
    red(number, &[], b"x")
}

/// The packet of a number, refused 16.
fn other_source(number: u16) -> Vec<u8> {
    let mut packet = packet(number);
    packet[11] ^= 1;
    packet
}

/// The answers to packets after one with this number.
fn after(newest: u16, packets: &[Vec<u8>]) -> Vec<Short> {
    let mut receiver = expecting(newest.wrapping_add(1));
    let steps = packets.iter().map(|packet| step(&mut receiver, packet));
    steps.collect()
}

fn numbers(newest: u16, numbers: &[u16]) -> Vec<Short> {
    after(
        newest,
        &numbers.iter().copied().map(packet).collect::<Vec<_>>(),
    )
}

/// Each after packet 5, and the number that is kept.
#[test]
fn rows() {
    for (number, due, kept) in [
        (5, Late(-1), None),
        (6, Forward(0), None),
        (3_004, Forward(2_998), None),
        (3_005, Jump(2_999), Some(3_006)),
        (32_773, Jump(32_767), Some(32_774)),
        (32_774, Jump(-32_768), Some(32_775)),
        (65_441, Jump(-101), Some(65_442)),
        (65_442, Late(-100), None),
    ] {
        let mut receiver = expecting(6);
        assert_eq!(step(&mut receiver, &packet(number)), due);
        assert_eq!(receiver.kept(), kept);
    }
    let repeats = |number| red(number, older(LEVEL), b"x");
    let mut receiver = expecting(6);
    let forward = Forward(2_998 - LEVEL as u16);
    assert_eq!(step(&mut receiver, &repeats(3_004)), forward);
    assert_eq!(step(&mut receiver, &repeats(6_004)), Jump(2_999));
}

#[test]
fn breaks() {
    assert_eq!(numbers(5, &[32_773, 32_774]), [Jump(32_767), Break]);
    assert_eq!(numbers(5, &[3_005, 3_006]), [Jump(2_999), Break]);
    assert_eq!(numbers(5, &[65_440, 65_441]), [Jump(-102), Break]);
    assert_eq!(
        numbers(5, &[10_000, 10_000, 10_001]),
        [Jump(9_994), Jump(9_994), Break]
    );
    assert_eq!(numbers(40_000, &[65_535, 0]), [Jump(25_534), Break]);
    assert_eq!(numbers(40_000, &[0]), [Jump(25_535)]);
    // The receiver goes on from the break, and may jump back.
    assert_eq!(
        numbers(5, &[10_000, 10_001, 10_003, 10_001, 6, 7, 8]),
        [
            Jump(9_994),
            Break,
            Forward(1),
            Late(-3),
            Jump(-9_998),
            Break,
            Forward(0)
        ]
    );
}

/// Late and refused packets leave the number kept.
#[test]
fn late_and_refused_in_between() {
    let packets = [
        packet(10_000),
        packet(5),
        other_source(10_001),
        packet(10_001)[..11].to_vec(),
        packet(65_442),
        packet(10_001),
    ];
    assert_eq!(
        after(5, &packets),
        [Jump(9_994), Late(-1), Refused, Refused, Late(-100), Break]
    );
}

/// A forward packet clears the number, and a jump puts its own in its place.
#[test]
fn no_break() {
    assert_eq!(
        numbers(5, &[10_000, 6, 10_001]),
        [Jump(9_994), Forward(0), Jump(9_994)]
    );
    assert_eq!(
        numbers(5, &[10_000, 20_000, 10_001, 20_001]),
        [Jump(9_994), Jump(19_994), Jump(9_995), Jump(19_995)]
    );
    assert_eq!(
        numbers(5, &[10_000, 10_002, 10_001]),
        [Jump(9_994), Jump(9_996), Jump(9_995)]
    );
    // A break clears it too: 5 again is a jump, and 10,002 is in order.
    assert_eq!(
        numbers(5, &[10_000, 10_001, 5, 10_002]),
        [Jump(9_994), Break, Jump(-9_997), Forward(0)]
    );
}

/// The number kept, of a packet that is no jump.
#[test]
fn the_kept_number_forward_or_late() {
    assert_eq!(
        numbers(5, &[3_005, 9, 3_006]),
        [Jump(2_999), Forward(3), Forward(2_996)]
    );
    let mut receiver = expecting(6);
    assert_eq!(step(&mut receiver, &packet(65_441)), Jump(-101));
    assert_eq!(step(&mut receiver, &packet(65_442)), Late(-100));
    assert_eq!(receiver.kept(), Some(65_442));
}

/// All blocks, the older ones too, though all or none of them are wanted by
/// the distance.
#[test]
fn a_break_gives_all_blocks() {
    for r in 0..=LEVEL {
        let mut receiver = expecting(6);
        receiver.step(&packet(10_000));
        let packet = red(10_001, older(r), b"p");
        let Answer::Break(added) = receiver.step(&packet) else {
            panic!("{r} older blocks");
        };
        let blocks = [older(r), &[b"p"]].concat();
        assert_eq!((added.loss, added.distance), (0, 0));
        assert_eq!((added.older(), added.wanted), (r, r));
        assert_eq!(added.blocks(), blocks);
        let start = packet.len() - blocks.concat().len();
        assert_eq!(added.place(), (start, packet.len()));
        assert!(std::ptr::eq(added.text(), &packet[start..]));
        assert_eq!(receiver.expected(), Some(10_002));
    }
}

/// Every number that is a jump, and the one after it: a break, but for the
/// last of them, after which comes a late one.
#[test]
fn every_jump_and_the_next() {
    for newest in [0_u16, 5, 40_000, 65_535] {
        let heard = expecting(newest.wrapping_add(1));
        for ahead in 3_000..=65_436_u16 {
            let number = newest.wrapping_add(ahead);
            let mut receiver = heard;
            let jump = step(&mut receiver, &packet(number));
            assert!(matches!(jump, Jump(_)), "{newest} {number}: {jump:?}");
            let next = step(&mut receiver, &packet(number.wrapping_add(1)));
            let due = if ahead < 65_436 { Break } else { Late(-100) };
            assert_eq!(next, due, "{newest} {number}");
        }
    }
}

/// A jump adds nothing to the record, and a break its blocks without a mark.
#[test]
fn record_over_a_break() {
    let mut receiver = expecting(6);
    let mut entries = vec![];
    for packet in [
        packet(10_000),
        red(10_001, &[b"w"], b"y"),
        red(10_003, &[], b"z"),
    ] {
        add(&mut entries, &receiver.step(&packet));
    }
    let block = |text: &str| Entry::Block(text.into());
    let due = [block("w"), block("y"), Entry::Mark, block("z")];
    assert_eq!(entries, due);
}

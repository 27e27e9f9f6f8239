//! The older blocks' time offsets.

use independent::random::Random;
use independent::receiver::{Answer, Receiver};
use independent::{offsets, read, refusal, LEVEL};

/// A RED packet with older blocks of these offsets, each an `a`, and the
/// primary `b`.
fn packet(sequence: u16, offsets: &[u16]) -> Vec<u8> {
    let mut packet = vec![0x80, 100];
    packet.extend(sequence.to_be_bytes());
    packet.extend([0; 8]);
    for offset in offsets {
        let header = u32::from(0x80_u8 | 98) << 24 | u32::from(*offset) << 10 | 1;
        packet.extend(header.to_be_bytes());
    }
    packet.push(98);
    packet.extend(b"a".repeat(offsets.len()));
    packet.push(b'b');
    packet
}

fn answer(offsets: &[u16]) -> Option<u8> {
    read(None, 98, 100, &packet(0, offsets)).err()
}

/// Every list of as many of these as may be, in every order and with each of
/// them several times.
#[test]
fn every_list() {
    let some = [0, 1, 2, 3, 4, 300, 16_382, 16_383];
    let mut lists = vec![vec![]];
    assert_eq!(answer(&[]), None);
    for _ in 0..LEVEL {
        let mut longer = vec![];
        for list in &lists {
            longer.extend(some.map(|offset| [&list[..], &[offset]].concat()));
        }
        for list in &longer {
            // Sorted, without those that stand twice, it is the same list.
            let mut sorted = list.clone();
            sorted.sort_unstable_by(|one, other| other.cmp(one));
            sorted.dedup();
            let good = sorted == *list && !list.contains(&0);
            let due = (!good).then_some(refusal::BLOCK_AGES);
            assert_eq!(answer(list), due, "{list:?}");
        }
        lists = longer;
    }
}

#[test]
fn random_offsets_are_what_they_are_said_to_be() {
    let mut random = Random::new(22);
    assert_eq!(offsets::falling(&mut random, 0), [0; 0]);
    for round in 0..20_000 {
        let count = 1 + round % LEVEL;
        let falling = offsets::falling(&mut random, count);
        let wrong = offsets::wrong(&mut random, count);
        assert_eq!((falling.len(), wrong.len()), (count, count));
        assert_eq!(answer(&falling), None, "{falling:?}");
        assert_eq!(answer(&wrong), Some(22), "{wrong:?}");
        let below = wrong.iter().zip(wrong[1..].iter().chain(&[0]));
        let faults = below.filter(|(age, next)| age <= next).count();
        assert_eq!(faults, 1, "{wrong:?}");
    }
}

/// Whether it has heard a packet or not.
#[test]
fn a_refused_packet_leaves_the_receiver() {
    let fresh = Receiver::open(98, 100).unwrap();
    let mut heard = fresh;
    heard.step(&packet(5, &[]));
    for before in [fresh, heard] {
        for offsets in [&[0][..], &[600, 0], &[300, 300], &[300, 600], &[2, 3, 1]] {
            if offsets.len() > LEVEL {
                continue;
            }
            let mut receiver = before;
            for sequence in [5, 6, 9, 40_000] {
                let packet = packet(sequence, offsets);
                assert_eq!(receiver.step(&packet), Answer::Refused(22));
                assert_eq!(receiver, before);
            }
        }
    }
}

/// What a refused packet held comes with the repeats of the next.
#[test]
fn repeats_of_a_refused_packet() {
    let mut receiver = Receiver::open(98, 100).unwrap();
    receiver.step(&packet(5, &[]));
    let refused = packet(6, &[0]);
    assert_eq!(receiver.step(&refused), Answer::Refused(22));
    let next = packet(7, &[300]);
    let Answer::Forward(forward) = receiver.step(&next) else {
        panic!("it is the next");
    };
    assert_eq!((forward.loss, forward.text()), (0, &b"ab"[..]));
}

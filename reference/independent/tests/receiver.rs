//! The receiver's line tests, its refusals and its distances.

mod receiving;

use independent::packets::older;
use independent::receiver::{Answer, Receiver};
use independent::{left_out, paper, LEVEL};
use receiving::{expecting, forward, open, red};

fn case(name: &str) -> Vec<u8> {
    let mut cases = paper::cases().into_iter();
    cases.find(|case| case.name == name).unwrap().packet
}

#[test]
fn t1() {
    assert_eq!(open().step(&[]), Answer::Refused(10));
}

#[test]
fn t2() {
    let packet = [0x80, 0x62, 0, 0, 0, 0, 0, 0, 0, 0, 0, 0];
    let mut receiver = open();
    let answer = forward(receiver.step(&packet));
    assert_eq!(
        (answer.text(), answer.loss, answer.distance),
        (&[][..], 0, 0)
    );
    assert_eq!(answer.blocks(), [b""]);
    assert_eq!(receiver.expected(), Some(1));
    assert_eq!(receiver.source(), Some(0));
}

#[test]
fn t3() {
    let packet = case("T3");
    let mut receiver = open();
    let answer = forward(receiver.step(&packet));
    assert_eq!(answer.text(), b"A");
    assert_eq!(answer.blocks(), [&b"A"[..], b""]);
    assert_eq!((answer.loss, answer.distance, answer.older()), (0, 0, 1));
    assert_eq!(receiver.expected(), Some(6));
    let read = independent::read(None, 98, 100, &packet).unwrap();
    assert!(read.older().map(|older| older.offset).eq([300]));
}

#[test]
fn t4() {
    let packet = case("T3");
    let mut receiver = open();
    forward(receiver.step(&packet));
    let before = receiver;
    assert_eq!(receiver.step(&packet), Answer::Late { distance: -1 });
    assert_eq!(receiver, before);
}

#[test]
fn t5() {
    if left_out("T5", 2) {
        return;
    }
    let packet = red(9, &[b"g", b"h"], b"i");
    let mut receiver = expecting(6);
    let answer = forward(receiver.step(&packet));
    assert_eq!((answer.loss, answer.distance, answer.older()), (1, 3, 2));
    assert_eq!(answer.text(), b"ghi");
    assert_eq!(receiver.expected(), Some(10));
}

#[test]
fn t6() {
    let packet = red(0, &[b"a"], b"b");
    let mut receiver = expecting(65_535);
    let answer = forward(receiver.step(&packet));
    assert_eq!(
        (answer.loss, answer.distance, answer.text()),
        (0, 1, &b"ab"[..])
    );
    assert_eq!(receiver.expected(), Some(1));
}

#[test]
fn t7() {
    let packet = red(32_773, &[], b"x");
    let mut receiver = expecting(6);
    assert_eq!(receiver.step(&packet), Answer::Jump { distance: 32_767 });
    assert_eq!(receiver.expected(), Some(6));
    assert_eq!(receiver.kept(), Some(32_774));
}

#[test]
fn t8() {
    let packet = red(32_774, &[], b"x");
    let mut receiver = expecting(6);
    assert_eq!(receiver.step(&packet), Answer::Jump { distance: -32_768 });
    assert_eq!(receiver.expected(), Some(6));
    assert_eq!(receiver.kept(), Some(32_775));
}

const PLACES: [&str; 3] = ["in T140", "in a primary", "in an older block"];

#[test]
fn t9() {
    for place in PLACES {
        let mut receiver = open();
        let packet = case(&format!("T9 {place}"));
        assert_eq!(receiver.step(&packet), Answer::Refused(21));
        assert_eq!(receiver, open());
    }
}

#[test]
fn t10() {
    for place in PLACES {
        let packet = case(&format!("T10 {place}"));
        let answer = forward(open().step(&packet));
        assert_eq!(answer.text(), [0xf4, 0x8f, 0xbf, 0xbf]);
    }
}

#[test]
fn run_only_1472_and_1473_bytes() {
    let packet = case("1,472 bytes of T140");
    assert_eq!(forward(open().step(&packet)).text(), [b'a'; 1460]);
    let packet = case("1,472 bytes of RED");
    assert_eq!(forward(open().step(&packet)).text(), [b'a'; 1459]);
    assert_eq!(open().step(&case("1,473 bytes")), Answer::Refused(11));
}

#[test]
fn run_only_padding_equal_to_the_payload() {
    let packet = case("padding equal to the payload in T140");
    assert_eq!(forward(open().step(&packet)).text(), b"");
    let packet = case("padding equal to the payload in RED");
    assert_eq!(open().step(&packet), Answer::Refused(17));
}

#[test]
fn run_only_bad_letters() {
    for letter in ["C0 80", "F4 90 80 80"] {
        for place in PLACES {
            let packet = case(&format!("{letter} {place}"));
            assert_eq!(
                open().step(&packet),
                Answer::Refused(21),
                "{letter} {place}"
            );
        }
    }
}

#[test]
fn openings_and_the_zero_receiver() {
    for (t140, red) in [(95, 100), (128, 100), (98, 95), (98, 128), (98, 98), (0, 0)] {
        assert_eq!(Receiver::open(t140, red), Err(3));
    }
    for (t140, red) in [(96, 127), (127, 96)] {
        let opened = Receiver::open(t140, red).unwrap();
        assert_eq!((opened.t140(), opened.red()), (t140, red));
    }
    let mut zero = Receiver::zero();
    for packet in [case("T1"), case("T3"), case("1,473 bytes")] {
        assert_eq!(zero.step(&packet), Answer::Refused(3));
        assert_eq!(zero, Receiver::zero());
    }
}

/// Another source is refused, near and far, and a late packet with it too.
#[test]
fn source_of_the_first_accepted_packet() {
    let mut receiver = expecting(6);
    let before = receiver;
    for sequence in [5, 6, 7, 40_000] {
        let mut packet = red(sequence, &[], b"x");
        packet[11] ^= 1;
        assert_eq!(receiver.step(&packet), Answer::Refused(16));
        assert_eq!(receiver, before);
    }
}

/// Every number and every count of older blocks, counted up from the
/// expected one.
#[test]
fn every_distance() {
    const NEAR: usize = LEVEL + 4;
    for expected in [0, 1, 6, 32_767, 32_768, 65_534, 65_535] {
        let start = expecting(expected);
        let mut sequence = expected;
        for steps in 0..65_536 {
            for r in 0..=LEVEL {
                let near = matches!(steps, 0..=NEAR | 2_990..=3_010 | 65_430..);
                if r > 0 && !near && steps % 97 != 0 {
                    continue;
                }
                let mut receiver = start;
                let packet = red(sequence, older(r), b"p");
                let answer = receiver.step(&packet);
                if steps > 2_998 {
                    let late = steps > 65_435;
                    let distance = match steps {
                        2_999..=32_767 => steps as i32,
                        _ => steps as i32 - 65_536,
                    };
                    let due = match late {
                        true => Answer::Late { distance },
                        false => Answer::Jump { distance },
                    };
                    assert_eq!(answer, due);
                    assert_eq!(receiver.source(), start.source());
                    assert_eq!(receiver.expected(), Some(expected));
                    let kept = (!late).then_some(sequence.wrapping_add(1));
                    assert_eq!(receiver.kept(), kept);
                    continue;
                }
                let given = if steps > r { r } else { steps };
                let mut blocks = older(r)[r - given..].to_vec();
                blocks.push(b"p");
                let answer = forward(answer);
                assert_eq!(usize::from(answer.loss), steps - given);
                assert_eq!(answer.distance, steps as i32);
                assert_eq!((answer.older(), answer.wanted), (r, given));
                assert_eq!(answer.text(), blocks.concat());
                assert_eq!(answer.blocks(), blocks);
                assert_eq!(receiver.expected(), Some(sequence.wrapping_add(1)));
                assert_eq!(receiver.kept(), None);
            }
            sequence = sequence.wrapping_add(1);
        }
    }
}

#[test]
fn text_and_blocks_are_parts_of_the_packet() {
    if left_out("three older blocks", 3) {
        return;
    }
    let packet = red(8, &[b"abc", b"", b"de"], b"f");
    let answer = forward(expecting(6).step(&packet));
    assert_eq!(answer.blocks(), [&b""[..], b"de", b"f"]);
    let start = packet.len() - 3;
    assert_eq!(answer.place(), (start, packet.len()));
    assert!(std::ptr::eq(answer.text(), &packet[start..]));
    let blocks = answer.blocks();
    assert!(std::ptr::eq(blocks[1], &packet[start..start + 2]));
    assert!(std::ptr::eq(blocks[2], &packet[start + 2..]));
}

/// As many packets lost as are repeated, and one more.
#[test]
fn as_many_lost_as_repeated() {
    for r in 0..=LEVEL as u16 {
        for (lost, loss) in [(r, 0), (r + 1, 1)] {
            let packet = red(6 + lost, older(r.into()), b"p");
            let answer = forward(expecting(6).step(&packet));
            assert_eq!((answer.loss, answer.wanted), (loss, r.into()));
            assert_eq!(
                answer.text(),
                [&older(r.into()).concat()[..], b"p"].concat()
            );
        }
    }
}

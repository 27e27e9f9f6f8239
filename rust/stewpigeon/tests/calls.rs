use std::mem::size_of;

use stewpigeon::lent::{self, Block, Guarded, Log, TextAnswer, Texts};
use stewpigeon::{read, text, Refusal, Sender};

const PACKET: [u8; 19] = [
    0x80, 0xe4, 0x00, 0x05, 0x00, 0x00, 0x03, 0xe8, 0x11, 0x22, 0x33, 0x44, 0xe2, 0x04, 0xb0, 0x01,
    0x62, 0x41, 0x42,
];

#[test]
fn an_accepted_packet() {
    let packet = read(Some(0x11223344), 98, 100, &PACKET).unwrap();
    assert!(packet.marker);
    assert_eq!(packet.sequence, 5);
    assert_eq!(packet.timestamp, 1000);
    assert_eq!(packet.source, 0x11223344);
    assert_eq!(packet.older().len(), 1);
    assert_eq!(packet.older()[0].offset, 300);
    assert_eq!(packet.older()[0].text, b"A");
    assert_eq!(packet.primary, b"B");
}

#[test]
fn refused_packets() {
    assert_eq!(read(None, 98, 98, &PACKET), Err(Refusal::PayloadTypes));
    assert_eq!(read(None, 98, 100, &[]), Err(Refusal::Short));
    assert_eq!(read(Some(1), 98, 100, &PACKET), Err(Refusal::Source));
}

/// The packet with its older block 0 ms old.
fn undated() -> [u8; 19] {
    let mut packet = PACKET;
    packet[13..15].fill(0);
    packet
}

#[test]
fn older_blocks_of_impossible_ages() {
    let mut packet = undated();
    assert_eq!(read(None, 98, 100, &packet), Err(Refusal::BlockAges));
    packet[18] = 0xff;
    assert_eq!(read(None, 98, 100, &packet), Err(Refusal::BlockAges));
    packet[15] = 3;
    assert_eq!(read(None, 98, 100, &packet), Err(Refusal::BlockLengths));
    assert_eq!(read(Some(1), 98, 100, &packet), Err(Refusal::Source));
}

/// A word that no field has by chance.
const FILL: u64 = 0x9e37_79b9_7f4a_7c15;

#[test]
fn the_answer_to_a_packet() {
    let mut answer = Guarded::filled(|| FILL);
    let before = answer.clone();
    assert_eq!(lent::read_into(9, 1, 98, 100, &PACKET, &mut answer), 16);
    assert_eq!(answer.bytes(), before.bytes());
    let number = lent::read_into(0, 1, 98, 100, &undated(), &mut answer);
    assert_eq!((number, answer.bytes()), (22, before.bytes()));
    assert_eq!(lent::read_into(0, 1, 98, 100, &PACKET, &mut answer), 0);
    let mut wanted = lent::Packet {
        marker: 1,
        sequence: 5,
        timestamp: 1000,
        source: 0x11223344,
        count: 1,
        primary: 18,
        end: 19,
        ..lent::Packet::ZERO
    };
    wanted.older[0] = Block {
        offset: 300,
        at: 17,
        len: 1,
    };
    assert_eq!(answer.value(), wanted);
    assert_eq!(answer.around(), before.around());
}

#[test]
fn the_answer_to_a_text() {
    let ascii = [0x41; 127];
    for (text, is_text, characters, place) in [
        (&b""[..], 1, 0, 0),
        (b"AB", 1, 2, 0),
        (b"A\xff", 0, 0, 1),
        (b"\x7f", 1, 1, 0),
        (b"\x80", 0, 0, 0),
        (&ascii[..64], 1, 64, 0),
        (&[&ascii[..63], b"\x80"].concat(), 0, 0, 63),
        (&[&ascii[..64], b"\xc3"].concat(), 0, 0, 65),
        (&[&ascii[..64], b"\xc3\xa5"].concat(), 1, 65, 0),
        (
            &[&ascii[..63], b"\xc3\xa5", &[0x42; 64]].concat(),
            1,
            128,
            0,
        ),
        (&[b"\xe2\x82", &ascii[..64]].concat(), 0, 0, 2),
        (&[&ascii[..], b"\xff"].concat(), 0, 0, 127),
    ] {
        let mut answer = Guarded::filled(|| FILL);
        let before = answer.clone();
        lent::text_into(text, &mut answer);
        let wanted = TextAnswer {
            is_text,
            characters,
            place,
        };
        assert_eq!(answer.value(), wanted, "{text:02x?}");
        assert_eq!(answer.around(), before.around());
    }
}

#[test]
fn a_guarded_record() {
    let mut receiver = Guarded::new(lent::Receiver::ZERO, || u64::MAX);
    assert_eq!(receiver.value(), lent::Receiver::ZERO);
    // 32 bytes, the fields, 32 bytes and the rest of a word.
    let mut bytes = [0xff; 80];
    bytes[32..44].fill(0);
    assert_eq!(receiver.bytes(), bytes);
    receiver.set(lent::Receiver {
        has_kept: 7,
        kept: 0x0909,
        ..lent::Receiver::ZERO
    });
    (bytes[35], bytes[42], bytes[43]) = (7, 9, 9);
    assert_eq!(receiver.bytes(), bytes);
    assert_eq!(receiver.around(), [&bytes[..32], &bytes[44..]]);
}

#[test]
fn what_lies_between_guarded_fields() {
    let mut step = Guarded::new(lent::Step::ZERO, || u64::MAX);
    let mut bytes = [0xff; 104];
    for fields in [32..33, 34..38, 40..72] {
        bytes[fields].fill(0);
    }
    assert_eq!(step.bytes(), bytes);
    step.set(lent::Step {
        course: lent::Step::BREAK,
        distance: 0x0909,
        ..lent::Step::ZERO
    });
    (bytes[32], bytes[36], bytes[37]) = (3, 9, 9);
    assert_eq!(step.bytes(), bytes);
}

/// The course of the packet, which is 5.
fn course(receiver: &mut lent::Receiver) -> u8 {
    let mut step = lent::Step::ZERO;
    assert_eq!(lent::receiver_step(receiver, &PACKET, &mut step), 0);
    step.course
}

/// 0 is false, and all else true.
#[test]
fn flags() {
    for flag in [0, 1, 2, 128, 255] {
        let before = lent::Receiver {
            t140: 98,
            red: 100,
            has_source: flag,
            has_kept: flag,
            source: 0x11223344,
            expected: 6,
            kept: 5,
        };
        let fresh = lent::Receiver {
            has_source: 1,
            has_kept: 0,
            kept: 0,
            ..before
        };
        let mut receiver = before;
        match flag {
            0 => assert_eq!((course(&mut receiver), receiver), (0, fresh)),
            _ => assert_eq!((course(&mut receiver), receiver), (1, before)),
        }
        let jump = lent::Receiver {
            has_source: 1,
            has_kept: 1,
            expected: 20_000,
            kept: 6,
            ..before
        };
        receiver = lent::Receiver {
            kept: 5,
            has_kept: flag,
            ..jump
        };
        match flag {
            0 => assert_eq!((course(&mut receiver), receiver), (2, jump)),
            _ => assert_eq!((course(&mut receiver), receiver), (3, fresh)),
        }
    }
}

#[test]
fn texts() {
    assert_eq!(text("aé€😀".as_bytes()), Ok(4));
    assert_eq!(text(&[0xed, 0xa0, 0x80]), Err(1));
    assert_eq!(text(&[0x41, 0xe2, 0x82]), Err(3));
}

#[test]
fn refusals_and_their_numbers() {
    let numbers: Vec<u8> = Refusal::ALL.into_iter().map(Refusal::number).collect();
    assert_eq!(numbers, (1..=22).chain([27]).collect::<Vec<u8>>());
    for number in 0..=255 {
        let refusal = Refusal::of(number);
        assert_eq!(refusal.is_some(), numbers.contains(&number));
        assert!(refusal.is_none_or(|refusal| refusal.number() == number));
    }
    let shown = Refusal::Buffering.to_string();
    assert_eq!(
        shown,
        "refused 2: buffering time 0 or above 500 ms; open with 1 to 500 ms, 300 being usual"
    );
    let shown = Refusal::BlockAges.to_string();
    assert_eq!(
        shown,
        "refused 22: older blocks' time offsets do not fall to 1 or more; \
         drop it, and have the sender mended if more than its first packet is refused"
    );
    let shown = Refusal::Rate.to_string();
    assert_eq!(
        shown,
        "refused 9: rate 0 or above 100 characters a second; \
         open with 1 to 100 characters a second, 30 being usual"
    );
    let shown = Refusal::HeldPacket.to_string();
    assert_eq!(
        shown,
        "refused 27: the packet lent as held is refused or has another number; \
         lend, unaltered, the packet that the last accepted call said to keep"
    );
}

#[test]
fn sizes() {
    assert_eq!(size_of::<lent::Receiver>(), 12);
    assert_eq!(size_of::<lent::Step>(), 40);
    assert_eq!(size_of::<lent::HoldingReceiver>(), 32);
    assert_eq!(size_of::<lent::HoldingStep>(), 48);
    assert_eq!(size_of::<lent::Packet>(), 40 + 24 * Sender::LEVEL);
    assert_eq!(size_of::<TextAnswer>(), 24);
    assert_eq!(size_of::<lent::Sender>(), 136 + 16 * Sender::LEVEL);
    assert_eq!(size_of::<Texts>(), 160 * (Sender::LEVEL + 1));
    assert_eq!(size_of::<Log>(), 8000);
    assert_eq!(size_of::<Sender>(), 304 + 176 * Sender::LEVEL);
}

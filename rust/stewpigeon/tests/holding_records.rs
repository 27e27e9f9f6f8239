//! The records of a receiver that holds.

use stewpigeon::lent::{
    holding_receiver_open, holding_receiver_step, holding_receiver_wait, Guarded, HoldingReceiver,
    HoldingStep, Receiver, Step,
};

/// A word that no field has by chance.
const FILL: u64 = 0x9e37_79b9_7f4a_7c15;

/// A packet of type RED with one older block.
fn packet(sequence: u16) -> Vec<u8> {
    let [high, low] = sequence.to_be_bytes();
    let mut packet = vec![0x80, 100, high, low, 0, 0, 0, 0, 0, 0, 0, 7];
    packet.extend([0xe2, 0x04, 0xb0, 1, 98]);
    packet.extend(b"AB");
    packet
}

/// 5 is its newest number, and 20,001 is kept.
const NONE_HELD: HoldingReceiver = HoldingReceiver {
    receiver: Receiver {
        t140: 98,
        red: 100,
        has_source: 1,
        has_kept: 1,
        source: 7,
        expected: 6,
        kept: 20_001,
    },
    has_held: 0,
    held: 0,
    arrival: 0,
    clock: 30,
};

/// The same, and 9 is held.
const NINE_HELD: HoldingReceiver = HoldingReceiver {
    has_held: 1,
    held: 9,
    arrival: 10,
    ..NONE_HELD
};

/// Nothing is given.
const fn nothing(keep: u8, course: u8, distance: i16) -> HoldingStep {
    HoldingStep {
        keep,
        step: Step {
            course,
            distance,
            ..Step::ZERO
        },
        ..HoldingStep::ZERO
    }
}

/// A packet is given, with its older block or without.
const fn given(of: u8, keep: u8, loss: u16, distance: i16, given: usize) -> HoldingStep {
    HoldingStep {
        of,
        keep,
        again: 0,
        step: Step {
            course: Step::FORWARD,
            loss,
            distance,
            older: 1,
            given,
            from: 19 - given,
            to: 19,
        },
    }
}

const NEITHER: u8 = HoldingStep::NEITHER;
const HELD: u8 = HoldingStep::HELD;
const NEW: u8 = HoldingStep::NEW;

/// A call on a record between other bytes: with a packet at its clock, or
/// without one.
fn call(before: HoldingReceiver, clock: u64, new: Option<u16>) -> (HoldingReceiver, HoldingStep) {
    let mut receiver = Guarded::new(before, || FILL);
    let mut step = Guarded::filled(|| FILL);
    let around = (receiver.clone(), step.clone());
    let held = packet(before.held);
    let number = match new {
        Some(new) => holding_receiver_step(&mut receiver, clock, &held, &packet(new), &mut step),
        None => holding_receiver_wait(&mut receiver, clock, &held, &mut step),
    };
    assert_eq!(number, 0);
    assert_eq!(receiver.around(), around.0.around());
    assert_eq!(step.around(), around.1.around());
    (receiver.value(), step.value())
}

/// After a packet that was handed out.
fn handed_out(mut receiver: HoldingReceiver, sequence: u16) -> HoldingReceiver {
    receiver.receiver.expected = sequence + 1;
    receiver
}

/// With this packet held.
fn holding(receiver: HoldingReceiver, held: u16, arrival: u64) -> HoldingReceiver {
    HoldingReceiver {
        has_held: 1,
        held,
        arrival,
        ..receiver
    }
}

/// With no number kept.
fn cleared(mut receiver: HoldingReceiver) -> HoldingReceiver {
    receiver.receiver.has_kept = 0;
    receiver.receiver.kept = 0;
    receiver
}

#[test]
fn what_lies_between_guarded_fields() {
    let receiver = Guarded::new(HoldingReceiver::ZERO, || u64::MAX);
    let mut bytes = [0xff; 96];
    bytes[32..64].fill(0);
    bytes[45] = 0xff;
    assert_eq!(receiver.bytes(), bytes);
    let step = Guarded::new(HoldingStep::ZERO, || u64::MAX);
    let mut bytes = [0xff; 112];
    for fields in [32..35, 40..41, 42..46, 48..80] {
        bytes[fields].fill(0);
    }
    assert_eq!(step.bytes(), bytes);
}

#[test]
fn openings() {
    let mut receiver = Guarded::filled(|| FILL);
    let around = receiver.clone();
    assert_eq!(holding_receiver_open(&mut receiver, 98, 100), 0);
    let mut wanted = HoldingReceiver::ZERO;
    (wanted.receiver.t140, wanted.receiver.red) = (98, 100);
    assert_eq!(receiver.value(), wanted);
    for (t140, red) in [(98, 98), (95, 100), (98, 128)] {
        receiver = around.clone();
        assert_eq!(holding_receiver_open(&mut receiver, t140, red), 3);
        assert_eq!(receiver.value(), HoldingReceiver::ZERO);
        assert_eq!(receiver.around(), around.around());
    }
}

/// Every field of both records; the clock is the call's.
fn expect(
    before: HoldingReceiver,
    clock: u64,
    new: Option<u16>,
    after: HoldingReceiver,
    step: HoldingStep,
) {
    let after = HoldingReceiver { clock, ..after };
    assert_eq!(call(before, clock, new), (after, step), "{clock} {new:?}");
}

#[test]
fn with_none_held() {
    let packet = |new, after, step| expect(NONE_HELD, 31, Some(new), after, step);
    let cleared = cleared(NONE_HELD);
    packet(6, handed_out(cleared, 6), given(NEW, NEITHER, 0, 0, 1));
    packet(7, handed_out(cleared, 7), given(NEW, NEITHER, 0, 1, 2));
    packet(8, holding(cleared, 8, 31), nothing(NEW, Step::FORWARD, 2));
    packet(5, NONE_HELD, nothing(NEITHER, Step::LATE, -1));
    let mut jump = NONE_HELD;
    jump.receiver.kept = 30_001;
    packet(30_000, jump, nothing(NEITHER, Step::JUMP, 29_994));
    let mut step = given(NEW, NEITHER, 0, 0, 2);
    step.step.course = Step::BREAK;
    packet(20_001, handed_out(cleared, 20_001), step);
}

#[test]
fn with_one_held() {
    let packet = |new, after, step| expect(NINE_HELD, 31, Some(new), after, step);
    let cleared = cleared(NINE_HELD);
    packet(6, handed_out(cleared, 6), given(NEW, HELD, 0, 0, 1));
    packet(8, handed_out(cleared, 8), given(NEW, HELD, 1, 2, 2));
    let eleven = holding(cleared, 11, 31);
    packet(11, handed_out(eleven, 9), given(HELD, NEW, 2, 3, 2));
    packet(9, NINE_HELD, nothing(HELD, Step::LATE, 3));
    packet(4, NINE_HELD, nothing(HELD, Step::LATE, -2));
    let mut jump = NINE_HELD;
    jump.receiver.kept = 30_001;
    packet(30_000, jump, nothing(HELD, Step::JUMP, 29_994));
    let mut step = given(HELD, NEITHER, 2, 3, 2);
    step.again = 1;
    packet(20_001, handed_out(NONE_HELD, 9), step);
}

#[test]
fn without_a_packet() {
    let wait = |before, clock, after, step| expect(before, clock, None, after, step);
    let waits = nothing(HELD, Step::FORWARD, 0);
    wait(NONE_HELD, 30, NONE_HELD, HoldingStep::ZERO);
    wait(NINE_HELD, 1_009, NINE_HELD, waits);
    let nine = handed_out(NONE_HELD, 9);
    wait(NINE_HELD, 1_010, nine, given(HELD, NEITHER, 2, 3, 2));
    let six = handed_out(NINE_HELD, 6);
    wait(six, 31, six, waits);
    let step = given(HELD, NEITHER, 0, 1, 2);
    wait(handed_out(NINE_HELD, 7), 31, nine, step);
    let step = given(HELD, NEITHER, 0, 0, 1);
    wait(handed_out(NINE_HELD, 8), 31, nine, step);
}

/// Every byte stays, and the first number of 3, 5, 27, 10 to 22 is answered.
#[test]
fn refused_calls() {
    let [seven, nine] = [7, 9].map(packet);
    let mut stranger = packet(9);
    stranger[11] = 8;
    let mut types = NINE_HELD;
    types.receiver.red = 98;
    for (before, clock, held, packet, number) in [
        (types, 29, &seven[..], &nine[..11], 3),
        (NINE_HELD, 29, &nine, &nine, 5),
        (NINE_HELD, 29, &seven, &nine[..11], 5),
        (NONE_HELD, 29, &nine, &nine, 5),
        (NINE_HELD, 9_999, &seven, &nine[..11], 27),
        (NINE_HELD, 9_999, &stranger, &nine, 27),
        (NINE_HELD, 9_999, &nine[..11], &nine, 27),
        (NINE_HELD, 9_999, &nine, &nine[..11], 10),
        (NINE_HELD, 9_999, &nine, &stranger, 16),
        (NONE_HELD, 9_999, &[], &stranger, 16),
    ] {
        let mut receiver = Guarded::new(before, || FILL);
        let mut step = Guarded::filled(|| FILL);
        let (left, told) = (receiver.clone(), step.clone());
        let refusal = holding_receiver_step(&mut receiver, clock, held, packet, &mut step);
        assert_eq!(refusal, number);
        assert_eq!(receiver.bytes(), left.bytes());
        assert_eq!(step.bytes(), told.bytes());
        if let 3 | 5 | 27 = number {
            let refusal = holding_receiver_wait(&mut receiver, clock, held, &mut step);
            assert_eq!(refusal, number);
            assert_eq!(receiver.bytes(), left.bytes());
            assert_eq!(step.bytes(), told.bytes());
        }
    }
}

/// 0 is false, and all else true.
#[test]
fn flags() {
    for flag in 1..=255 {
        let before = HoldingReceiver {
            has_held: flag,
            ..NINE_HELD
        };
        let (after, step) = call(before, 31, Some(6));
        assert_eq!(step, given(NEW, HELD, 0, 0, 1));
        assert!(after.has_held != 0 && (after.held, after.arrival) == (9, 10));
        let (after, step) = call(before, 1_010, None);
        assert_eq!(step, given(HELD, NEITHER, 2, 3, 2));
        assert_eq!((after.has_held, after.held, after.arrival), (0, 0, 0));
        let mut receiver = before;
        let mut step = HoldingStep::ZERO;
        let refusal = holding_receiver_wait(&mut receiver, 31, &[], &mut step);
        assert_eq!((refusal, receiver), (27, before));
    }
}

/// Records such as no call leaves: a held packet goes by its distance alone.
#[test]
fn any_record_is_answered() {
    let mut before = NINE_HELD;
    before.receiver.has_source = 0;
    let (after, step) = call(before, 31, Some(7));
    let wanted = HoldingReceiver {
        clock: 31,
        ..handed_out(cleared(NINE_HELD), 7)
    };
    assert_eq!((after, step), (wanted, given(NEW, HELD, 0, 0, 2)));
    let (after, step) = call(before, 1_010, None);
    assert_eq!((after.receiver.has_source, after.receiver.source), (1, 7));
    assert_eq!(step, given(HELD, NEITHER, 2, 3, 2));

    let behind = handed_out(NINE_HELD, 9);
    let (_, step) = call(behind, 1_009, None);
    assert_eq!(step, nothing(HELD, Step::FORWARD, 0));
    let (after, step) = call(behind, 1_010, None);
    assert_eq!(step, given(HELD, NEITHER, 65_534, -1, 2));
    assert_eq!((after.has_held, after.receiver.expected), (0, 10));
}

//! Which packets are given, held and kept, and when.

mod line;

use line::{again, both, given, held, jump, late, nothing, packet, with_repeat, Line, BREAK};
use stewpigeon::{HoldingReceiver, Refusal, Which};
use Which::{Held, Neither, New};

#[test]
fn a_packet_waits_for_1000_ms() {
    let mut line = Line::open();
    line.step(10, 8, held(2));
    assert_eq!(line.numbers(), (Some(6), None, Some(8)));
    assert_eq!(line.receiver.arrival(), Some(10));
    line.wait(1009, nothing(Held));
    line.wait(1010, given(Held, Neither, 2));
    assert_eq!(line.numbers(), (Some(9), None, None));
    assert_eq!(line.receiver.arrival(), None);
    line.wait(1010, nothing(Neither));
}

#[test]
fn refusals_change_nothing() {
    let mut line = Line::open();
    line.step(10, 8, held(2));
    let (seven, eight, nine) = (packet(7), packet(8), packet(9));
    let mut stranger = packet(8);
    stranger[11] = 8;
    for held in [&eight, &seven, &vec![]] {
        line.refused(9, held, &nine, Refusal::Clock);
        line.refused(9, held, &[], Refusal::Clock);
        line.refused_to_wait(9, held, Refusal::Clock);
    }
    for held in [&seven, &nine, &stranger, &eight[..11].to_vec()] {
        line.refused(2000, held, &nine, Refusal::HeldPacket);
        line.refused(2000, held, &[], Refusal::HeldPacket);
        line.refused_to_wait(2000, held, Refusal::HeldPacket);
    }
    line.refused(2000, &eight, &[], Refusal::Short);
    stranger[3] = 9;
    line.refused(2000, &eight, &stranger, Refusal::Source);
    // Their clocks are not kept.
    line.wait(1009, nothing(Held));
    line.wait(1010, given(Held, Neither, 2));

    let opened = HoldingReceiver::open(98, 98);
    assert_eq!(opened, Err(Refusal::PayloadTypes));
}

/// What is lent as held is not looked at.
#[test]
fn none_held() {
    let mut receiver = HoldingReceiver::open(98, 100).unwrap();
    assert_eq!(receiver.wait(0, b"any"), Ok(nothing(Neither)));
    let first = with_repeat(8);
    assert_eq!(receiver.step(7, b"any", &first), Ok(both(New, 0)));
    assert_eq!(receiver.wait(7, &[]), Ok(nothing(Neither)));
    assert_eq!(receiver.source(), Some(7));
    assert_eq!(receiver.expected(), Some(9));
}

#[test]
fn the_gap_is_closed() {
    let mut line = Line::open();
    line.step(10, 8, held(2));
    line.step(20, 8, late(2, Held));
    line.step(30, 6, given(New, Held, 0));
    line.wait(30, nothing(Held));
    line.step(40, 7, given(New, Held, 0));
    line.step(50, 8, late(0, Held));
    line.step(60, 9, given(Held, New, 0));
    line.wait(60, given(Held, Neither, 0));
    assert_eq!(line.numbers(), (Some(10), None, None));
}

#[test]
fn a_second_packet_ahead() {
    let mut line = Line::open();
    line.step(10, 8, held(2));
    line.step(20, 10, given(Held, New, 2));
    assert_eq!(line.numbers(), (Some(9), None, Some(10)));
    line.wait(1019, nothing(Held));
    line.wait(1020, given(Held, Neither, 1));
}

/// It goes out with its own loss, and the held one waits from its arrival on.
#[test]
fn a_second_packet_between() {
    let mut line = Line::open();
    line.step(10, 10, held(4));
    line.step(20, 8, given(New, Held, 2));
    assert_eq!(line.numbers(), (Some(9), None, Some(10)));
    line.wait(1009, nothing(Held));
    line.wait(1010, given(Held, Neither, 1));
}

#[test]
fn repeats_close_the_gap() {
    let mut line = Line::open();
    line.take(10, with_repeat(9), held(3));
    line.step(20, 6, given(New, Held, 0));
    line.wait(20, nothing(Held));
    line.step(30, 7, given(New, Held, 0));
    line.wait(30, both(Held, 1));
    // Such a packet is not held.
    line.take(40, with_repeat(11), both(New, 1));
}

/// Only a call without a packet, a forward packet and a break let it go.
#[test]
fn late_packets_and_jumps_behind_the_time() {
    let mut line = Line::open();
    line.step(0, 12, held(6));
    line.step(5_000, 4, late(-2, Held));
    line.step(5_000, 30_000, jump(29_994, Held));
    assert_eq!(line.numbers(), (Some(6), Some(30_001), Some(12)));
    line.wait(5_000, given(Held, Neither, 6));
    // It leaves the number kept.
    assert_eq!(line.numbers(), (Some(13), Some(30_001), None));
    line.step(5_000, 30_001, BREAK);
    assert_eq!(line.numbers(), (Some(30_002), None, None));
}

#[test]
fn a_break_sends_the_held_one_out() {
    let mut line = Line::open();
    line.step(10, 8, held(2));
    line.step(20, 20_000, jump(19_994, Held));
    line.step(30, 20_001, again(2));
    assert_eq!(line.numbers(), (Some(9), Some(20_001), None));
    line.step(30, 20_001, BREAK);
    assert_eq!(line.numbers(), (Some(20_002), None, None));
}

/// The packet may be near the one that went out.
#[test]
fn no_break_when_given_again() {
    let mut line = Line::open();
    line.step(10, 3_000, held(2_994));
    line.step(20, 3_999, jump(3_993, Held));
    line.step(30, 4_000, again(2_994));
    assert_eq!(line.numbers(), (Some(3_001), Some(4_000), None));
    line.step(30, 4_000, held(999));
    assert_eq!(line.numbers(), (Some(3_001), None, Some(4_000)));
}

/// A forward packet clears the number when it arrives, a copy of it does not.
#[test]
fn the_kept_number() {
    let mut line = Line::open();
    line.step(10, 20_000, jump(19_994, Neither));
    line.step(20, 8, held(2));
    assert_eq!(line.numbers(), (Some(6), None, Some(8)));
    line.step(30, 20_000, jump(19_994, Held));
    line.step(40, 8, late(2, Held));
    assert_eq!(line.numbers(), (Some(6), Some(20_001), Some(8)));
    line.step(50, 7, given(New, Held, 1));
    assert_eq!(line.numbers(), (Some(8), None, Some(8)));
    line.step(60, 20_001, jump(19_993, Held));
}

#[test]
fn limits() {
    for (sequence, step, kept) in [
        (6, given(New, Neither, 0), None),
        (7, held(1), None),
        (3_004, held(2_998), None),
        (3_005, jump(2_999, Neither), Some(3_006)),
        (32_774, jump(-32_768, Neither), Some(32_775)),
        (65_441, jump(-101, Neither), Some(65_442)),
        (65_442, late(-100, Neither), None),
        (5, late(-1, Neither), None),
    ] {
        let mut line = Line::open();
        line.step(0, sequence, step);
        assert_eq!(line.receiver.kept(), kept, "{sequence}");
    }
}

/// Past 65,535, and up to the last clock.
#[test]
fn numbers_wrap() {
    let mut receiver = HoldingReceiver::open(98, 100).unwrap();
    let [newest, next, ahead] = [65_535, 0, 1].map(packet);
    let step = receiver.step(0, &[], &newest);
    assert_eq!(step, Ok(given(New, Neither, 0)));
    let clock = u64::MAX - HoldingReceiver::LONGEST_HOLD;
    assert_eq!(receiver.step(clock, &[], &ahead), Ok(held(1)));
    assert_eq!(receiver.wait(u64::MAX - 1, &ahead), Ok(nothing(Held)));
    let mut other = receiver.clone();
    let step = other.step(u64::MAX - 1, &ahead, &next);
    assert_eq!(step, Ok(given(New, Held, 0)));
    let step = other.wait(u64::MAX - 1, &ahead);
    assert_eq!(step, Ok(given(Held, Neither, 0)));
    let step = receiver.wait(u64::MAX, &ahead);
    assert_eq!(step, Ok(given(Held, Neither, 1)));
}

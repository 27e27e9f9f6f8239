//! The receiver that holds: calls worked out by hand, and what else each
//! answer must leave.

use independent::holding::cases::{self, packet, step, wait, Call, Seen};
use independent::holding::{Held, HoldingReceiver, Outcome, Step, Which};
use independent::packets::{older, red};
use independent::receiver::Course;
use independent::LEVEL;

/// A receiver with its caller, who keeps the packet that is held.
struct Caller {
    receiver: HoldingReceiver,
    held: Vec<u8>,
}

fn seen(answer: &Result<Step, u8>) -> Seen {
    let step = match answer {
        Ok(step) => step,
        Err(number) => return Seen::Refused(*number),
    };
    match step.outcome {
        Outcome::Nothing { course, distance } => match course {
            Course::Forward => Seen::Waits(distance),
            Course::Late => Seen::Late(distance),
            Course::Jump => Seen::Jump(distance),
            Course::Break => panic!("a break that gives nothing"),
        },
        Outcome::New { course, added } => match course {
            Course::Forward => Seen::New(added.loss, added.distance),
            Course::Break => {
                assert_eq!((added.loss, added.distance), (0, 0));
                assert_eq!(added.wanted, added.older());
                Seen::Break
            }
            Course::Late | Course::Jump => panic!("{course:?} gives something"),
        },
        Outcome::Held { added, again } => match again {
            false => Seen::Held(added.loss, added.distance),
            true => Seen::Again(added.loss, added.distance),
        },
    }
}

impl Caller {
    fn new() -> Caller {
        Caller {
            receiver: HoldingReceiver::open(98, 100).unwrap(),
            held: vec![],
        }
    }

    /// The number of the packet that is held.
    fn held(&self) -> Option<u16> {
        self.receiver.held().map(|held| held.number)
    }

    fn newest(&self) -> Option<u16> {
        let expected = self.receiver.receiver().expected();
        expected.map(|expected| expected.wrapping_sub(1))
    }

    fn call(&mut self, call: &Call) -> Seen {
        let before = self.receiver;
        let held = call.lent.clone().unwrap_or_else(|| self.held.clone());
        let answer = match &call.packet {
            Some(packet) => self.receiver.step(call.clock, &held, packet),
            None => self.receiver.wait(call.clock, &held),
        };
        match &answer {
            Ok(step) => self.obey(&before, call, &held, step),
            Err(_) => assert_eq!(self.receiver, before),
        }
        seen(&answer)
    }

    /// Keeps the packet it is told to, and holds the receiver against the
    /// answer.
    fn obey(&mut self, before: &HoldingReceiver, call: &Call, held: &[u8], step: &Step) {
        assert_eq!(self.receiver.clock(), call.clock);
        let new = call.packet.as_deref().unwrap_or(&[]);
        match step.keep {
            Which::Neither => {
                assert_eq!(self.receiver.held(), None);
                self.held = vec![];
            }
            Which::Held => assert_eq!(self.receiver.held(), before.held()),
            Which::New => {
                let number = u16::from_be_bytes([new[2], new[3]]);
                let arrival = call.clock;
                assert_eq!(self.receiver.held(), Some(Held { number, arrival }));
                self.held = new.to_vec();
            }
        }
        let Some((of, added)) = step.outcome.given() else {
            let expected = before.receiver().expected();
            assert_eq!(self.receiver.receiver().expected(), expected);
            return;
        };
        let whole = if of == Which::New { new } else { held };
        let (start, end) = added.place();
        assert!(std::ptr::eq(added.text(), &whole[start..end]));
        assert_eq!(added.text(), added.blocks().concat());
        assert_eq!(self.newest(), Some(added.packet.sequence));
    }
}

#[test]
fn cases_by_hand() {
    for case in cases::all() {
        let mut caller = Caller::new();
        for (place, (call, due, numbers)) in case.rows.iter().enumerate() {
            let seen = caller.call(call);
            let kept = caller.receiver.receiver().kept();
            let row = format!("{}, row {place}", case.name);
            assert_eq!(seen, *due, "{row}");
            assert_eq!([caller.held(), kept], *numbers, "{row}");
        }
    }
}

#[test]
fn openings_and_the_zero_receiver() {
    for (t140, red) in [(95, 100), (98, 128), (98, 98), (0, 0)] {
        assert_eq!(HoldingReceiver::open(t140, red), Err(3));
    }
    let mut zero = Caller::new();
    assert_eq!(zero.receiver.clock(), 0);
    zero.receiver = HoldingReceiver::zero();
    for clock in [0, 1, u64::MAX] {
        for call in [step(clock, packet(1)), step(clock, vec![]), wait(clock)] {
            assert_eq!(zero.call(&call), Seen::Refused(3));
        }
    }
}

/// The older block that closes the gap is given too.
#[test]
fn a_gap_closed_by_a_repeat() {
    let nine = red(9, &[b"8"], b"9");
    let mut receiver = HoldingReceiver::open(98, 100).unwrap();
    receiver.step(0, &[], &packet(6)).unwrap();
    receiver.step(0, &[], &nine).unwrap();
    receiver.step(0, &nine, &packet(7)).unwrap();
    let step = receiver.wait(0, &nine).unwrap();
    let (_, added) = step.outcome.given().unwrap();
    assert_eq!((added.loss, added.distance), (0, 1));
    assert_eq!(added.text(), b"89");
}

/// The first packet is given, and so are those in order.
#[test]
fn never_held() {
    for first in [0, 5, 65_535_u16] {
        let mut caller = Caller::new();
        for (call, due) in [
            (step(7, red(first, older(LEVEL), b"p")), Seen::New(0, 0)),
            (wait(7), Seen::Waits(0)),
            (step(7, packet(first.wrapping_add(1))), Seen::New(0, 0)),
        ] {
            assert_eq!(caller.call(&call), due);
            assert_eq!(caller.held(), None);
        }
    }
}

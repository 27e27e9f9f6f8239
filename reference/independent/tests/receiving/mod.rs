//! What tests of the receiver share.

pub use independent::packets::red;
use independent::receiver::{Added, Answer, Receiver};

pub fn open() -> Receiver {
    Receiver::open(98, 100).unwrap()
}

/// A receiver that expects this number next.
pub fn expecting(number: u16) -> Receiver {
    let mut receiver = open();
    receiver.step(&red(number.wrapping_sub(1), &[], b""));
    assert_eq!(receiver.expected(), Some(number));
    assert_eq!(receiver.kept(), None);
    receiver
}

pub fn forward(answer: Answer) -> Added {
    match answer {
        Answer::Forward(added) => added,
        answer => panic!("{answer:?}"),
    }
}

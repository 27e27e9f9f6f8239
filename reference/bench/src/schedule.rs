//! What a person types, and when the sender is asked for packets.

use compare::random::Random;

pub enum Event {
    Offer(u64, String),
    Clock(u64),
}

pub struct Schedule {
    /// The ms between clock calls.
    pub pace: u64,
    pub events: Vec<Event>,
}

impl Schedule {
    pub const OFTEN: u64 = 10;
    pub const SELDOM: u64 = 300;

    /// So many clock calls at this pace, with text offered between them.
    pub fn new(seed: u64, pace: u64, calls: u64) -> Schedule {
        let mut random = Random::new(seed);
        let mut events = vec![];
        let mut typed = 0;
        for call in 0..calls {
            let clock = call * pace;
            while typed <= clock {
                events.push(Event::Offer(typed, keystroke(&mut random)));
                typed += gap(&mut random);
            }
            events.push(Event::Clock(clock));
        }
        Schedule { pace, events }
    }
}

/// The ms to the next key: mostly typing, now and then a pause.
fn gap(random: &mut Random) -> u64 {
    match random.below(40) {
        0 => random.within(2_000, 10_000) as u64,
        _ => random.within(80, 350) as u64,
    }
}

/// A letter, nine of ten of them ASCII, or a pasted word.
fn keystroke(random: &mut Random) -> String {
    match random.below(40) {
        0 => "é".to_string(),
        1 => "€".to_string(),
        2 => "😀".to_string(),
        3 => "pasted word ".to_string(),
        _ => char::from(random.within(0x20, 0x7e) as u8).to_string(),
    }
}

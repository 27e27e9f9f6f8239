//! Random lists of calls for a sender, and a line that loses, copies,
//! delays and breaks its packets.

use crate::random::Random;
use crate::record::{Sent, AHEAD, BEHIND};
use crate::sender::{Clocked, Sender, Settings, LONGEST_PACKET};
use crate::LEVEL;

/// A call on a sender.
#[derive(Clone, Debug)]
pub enum Call {
    Offer { clock: u64, text: Vec<u8> },
    Clock { clock: u64, space: usize },
}

/// What a sender sent: packet k, and its block k.
#[derive(Clone, Debug, Default)]
pub struct Line {
    pub sent: Vec<Sent>,
    pub packets: Vec<Vec<u8>>,
}

#[derive(Clone, Copy, Debug, PartialEq, Eq)]
pub enum State {
    /// As sent.
    Whole,
    /// As sent, but for the source number.
    OtherSource,
    /// Refused by every receiver of this sender's payload types.
    Broken,
}

/// A packet as it arrives.
#[derive(Clone, Debug)]
pub struct Delivery {
    pub number: usize,
    pub packet: Vec<u8>,
    pub state: State,
}

/// Good settings with any numbers, their bounds being likely. Most rates hold
/// little back.
pub fn settings(random: &mut Random, level: usize) -> Settings {
    let t140 = random.within(96, 127) as u8;
    let mut red = t140;
    while red == t140 {
        red = random.within(96, 127) as u8;
    }
    let any = random.within(1, 500) as u64;
    let rate = random.within(1, 100);
    let sequence = random.number() as u16;
    let timestamp = random.number() as u32;
    Settings {
        level,
        buffering: random.pick(&[1, 2, 300, 300, 499, 500, any]),
        rate: random.pick(&[100, 100, 100, 100, 30, 30, rate, 2, 1]),
        t140,
        red,
        sequence: random.pick(&[0, 65_500, 65_530, 65_535, sequence]),
        timestamp: random.pick(&[0, u32::MAX - 1000, timestamp]),
        source: random.number() as u32,
    }
}

/// A list of calls, most of them good, with a clock that mostly rises.
pub fn calls(random: &mut Random, buffering: u64, count: usize) -> Vec<Call> {
    let start = random.number();
    let mut clock = random.pick(&[0, 0, 0, 7, start >> 20, u64::MAX - 20_000, u64::MAX - 601]);
    let pace = random.below(3);
    let mut calls = vec![];
    for _ in 0..count {
        let step = match (pace, random.below(12)) {
            (_, 0) => random.pick(&[16_382, 16_383, 16_384]),
            (_, 1) => random.pick(&[16_383 - buffering, 16_384 - buffering]),
            (_, 2) => random.below(20_000) as u64,
            (0, _) => random.pick(&[0, 0, 1, buffering - 1]),
            (1, _) => random.pick(&[0, buffering]),
            (_, 3) => random.below(1000) as u64,
            _ => random.pick(&[0, 1, buffering - 1, buffering, buffering + 1]),
        };
        clock = clock.saturating_add(step);
        let called = match random.once_in(20) {
            true => clock.saturating_sub(random.pick(&[1, step, 1000])),
            false => clock,
        };
        calls.push(match random.once_in(3) {
            true => offer(random, called),
            false => clock_call(random, called),
        });
    }
    calls
}

fn offer(random: &mut Random, clock: u64) -> Call {
    let length = match random.below(10) {
        0 => random.pick(&[158, 159, 160, 161, 200]),
        1 => random.below(160),
        2 => 0,
        _ => random.within(1, 8),
    };
    let mut text = random.text(length);
    if random.once_in(20) {
        text.push(random.pick(&[0x80, 0xc0, 0xc3, 0xed, 0xf4, 0xff]));
    }
    Call::Offer { clock, text }
}

fn clock_call(random: &mut Random, clock: u64) -> Call {
    let space = match random.below(10) {
        0 => random.below(40),
        1 => random.below(LONGEST_PACKET),
        _ => LONGEST_PACKET,
    };
    Call::Clock { clock, space }
}

/// Settings and calls for a line of so many packets, each with one letter. At
/// 11 ms from one to the next no letter is held back.
pub fn lettered(random: &mut Random, level: usize, packets: u64) -> (Settings, Vec<Call>) {
    let settings = Settings {
        buffering: 1,
        rate: 100,
        ..settings(random, level)
    };
    let mut calls = vec![];
    for clock in (0..packets).map(|k| 11 * k) {
        let text = vec![b'a' + (clock % 26) as u8];
        calls.push(Call::Offer { clock, text });
        let space = LONGEST_PACKET;
        calls.push(Call::Clock { clock, space });
    }
    (settings, calls)
}

/// Gives the calls to a sender and keeps what it sends.
pub fn send(settings: Settings, calls: &[Call]) -> Line {
    let mut sender = Sender::open(settings).expect("good settings");
    let mut line = Line::default();
    let mut waiting: Vec<u8> = vec![];
    for call in calls {
        match call {
            Call::Offer { clock, text } => {
                if sender.offer(*clock, text).is_ok() {
                    waiting.extend(text);
                }
            }
            Call::Clock { clock, space } => {
                let mut space = vec![0; *space];
                if let Clocked::Sent(length) = sender.clock(*clock, &mut space) {
                    space.truncate(length);
                    line.packets.push(space);
                    let taken = waiting.len() - sender.waiting().len();
                    line.sent.push(Sent {
                        clock: *clock,
                        block: waiting.drain(..taken).collect(),
                    });
                }
            }
        }
    }
    line
}

/// The packets in the order in which they arrive, if they do. One that is
/// delayed is behind by less than its delay.
pub fn deliveries(random: &mut Random, packets: &[Vec<u8>]) -> Vec<Delivery> {
    let loss = random.pick(&[2, 3, 5, 20, 1000]);
    let copy = random.pick(&[2, 5, 50]);
    let delay = random.pick(&[2, 5, 50]);
    let farthest = random.pick(&[2, 5, packets.len().clamp(1, BEHIND + 1)]);
    let mut lost = 0;
    let mut arrivals = vec![];
    for number in 0..packets.len() {
        if random.once_in(50) {
            lost = random.within(1, LEVEL + 3);
        }
        if lost > 0 || random.once_in(loss) {
            lost = lost.saturating_sub(1);
            continue;
        }
        loop {
            let late = match random.once_in(delay) {
                true => random.within(1, farthest),
                false => 0,
            };
            arrivals.push((number + late, number));
            if !random.once_in(copy) {
                break;
            }
        }
    }
    arrivals.sort_by_key(|arrival| arrival.0);
    let delivery = |(_, number): (usize, usize)| deliver(random, number, packets[number].clone());
    arrivals.into_iter().map(delivery).collect()
}

fn deliver(random: &mut Random, number: usize, mut packet: Vec<u8>) -> Delivery {
    let state = match random.below(60) {
        0 | 1 => State::Broken,
        2 => State::OtherSource,
        _ => State::Whole,
    };
    match (state, random.below(5)) {
        (State::Whole, _) => {}
        (State::OtherSource, _) => packet[8] ^= 1,
        (_, 0) => packet.truncate(random.below(12)),
        (_, 1) => packet.resize(1473, 0),
        (_, 2) => packet[0] ^= 0x40,
        (_, 3) if packet[0] & 0x20 == 0 => packet.push(0xff),
        _ => packet[1] &= 0x9f,
    }
    Delivery {
        number,
        packet,
        state,
    }
}

/// Packets heard in strides up to the window's ends, ahead and behind.
pub fn strides(random: &mut Random, packets: &[Vec<u8>]) -> Vec<Delivery> {
    let mut newest = random.below(packets.len().div_ceil(3).max(1));
    let mut deliveries = vec![];
    let mut deliver = |number: usize| {
        deliveries.push(Delivery {
            number,
            packet: packets[number].clone(),
            state: State::Whole,
        })
    };
    while newest < packets.len() {
        deliver(newest);
        let back = random.below(BEHIND);
        for back in [0, 1, back, BEHIND - 1, BEHIND] {
            if random.once_in(3) && back <= newest {
                deliver(newest - back);
            }
        }
        let on = random.within(1, AHEAD);
        newest += random.pick(&[1, 2, LEVEL + 1, LEVEL + 2, on, AHEAD - 1, AHEAD]);
    }
    deliveries
}

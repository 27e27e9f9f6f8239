//! What the rate lets go: "cps", the mean of characters per second over any
//! 10-second interval (RFC 4103, section 6).

use std::collections::VecDeque;

/// The interval in ms; both its ends belong to it.
const INTERVAL: u64 = 10_000;
const SECONDS: usize = 10;

/// When packets with text were sent and how many characters each had, oldest
/// first, as far back as the interval before the last packet goes.
#[derive(Debug, PartialEq, Eq)]
pub struct Spent {
    packets: VecDeque<(u64, usize)>,
    /// The characters of all these.
    characters: usize,
    /// The characters that one interval may have.
    most: usize,
}

impl Spent {
    /// Nothing was sent yet. No more is allocated afterwards.
    pub fn new(rate: usize) -> Self {
        let most = SECONDS * rate;
        Spent {
            packets: VecDeque::with_capacity(most),
            characters: 0,
            most,
        }
    }

    #[inline]
    pub fn packets(&self) -> impl Iterator<Item = (u64, usize)> + '_ {
        self.packets.iter().copied()
    }

    /// How many characters may be sent at `clock`. No packet was sent after
    /// it.
    #[inline]
    pub fn free(&self, clock: u64) -> usize {
        let passed: usize = self.passed(clock).map(|packet| packet.1).sum();
        self.most - (self.characters - passed)
    }

    /// So many characters were sent, as many as were free at most.
    #[inline]
    pub fn spend(&mut self, clock: u64, characters: usize) {
        while let Some((at, count)) = self.packets.front() {
            if !is_passed(*at, clock) {
                break;
            }
            self.characters -= count;
            self.packets.pop_front();
        }
        if characters > 0 {
            self.packets.push_back((clock, characters));
            self.characters += characters;
        }
    }

    /// The packets that share no interval with one sent at `clock`.
    #[inline]
    fn passed(&self, clock: u64) -> impl Iterator<Item = &(u64, usize)> {
        let oldest = self.packets.iter();
        oldest.take_while(move |packet| is_passed(packet.0, clock))
    }
}

#[inline]
fn is_passed(at: u64, clock: u64) -> bool {
    clock - at > INTERVAL
}

/// With room for as many packets.
impl Clone for Spent {
    fn clone(&self) -> Self {
        let mut packets = VecDeque::with_capacity(self.packets.capacity());
        packets.extend(&self.packets);
        Spent { packets, ..*self }
    }
}

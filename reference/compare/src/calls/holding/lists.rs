//! Random lists of calls on receivers that hold.

use super::super::lists::{number_near, packet, payload_types};
use super::super::tally::{Call, Tally};
use super::alterations::{anything, Alteration, ALTERATIONS};
use super::call::Stepped;
use super::met;
use super::pair::Pair;
use crate::random::Random;
use stewpigeon::lent::{HoldingStep, Step};

/// A list as far as it has come.
struct List {
    pair: Pair,
    source: u32,
    first: u16,
    /// The first clock.
    start: u64,
    /// The last jump's number.
    jump: Option<u16>,
}

impl List {
    fn open(random: &mut Random, tally: &mut Tally) -> Result<List, String> {
        let (t140, red) = payload_types(random);
        let any = random.number();
        Ok(List {
            pair: Pair::open(random, t140, red, tally)?,
            source: any as u32,
            first: random.pick(&[0, 5, 65_530, (any >> 32) as u16]),
            start: random.pick(&[0, 0, 1, any >> 20, u64::MAX - 5_000, u64::MAX - 1_000]),
            jump: None,
        })
    }

    /// A number near the one held, next to the last jump's, or about the next
    /// in order.
    fn number(&self, random: &mut Random) -> u16 {
        let Some(expected) = self.pair.expected() else {
            return self.first;
        };
        let on = random.pick(&[0, 1, 2, u16::MAX, u16::MAX - 1]);
        if let Some(held) = self.pair.held().filter(|_| random.once_in(4)) {
            return held.number.wrapping_add(on);
        }
        if let Some(jump) = self.jump.filter(|_| random.once_in(3)) {
            let next = random.pick(&[1, 1, 1, on]);
            return jump.wrapping_add(next);
        }
        number_near(random, expected)
    }

    /// A clock: mostly not below the latest, often about 1,000 ms after the
    /// held one's arrival.
    fn clock(&self, random: &mut Random) -> u64 {
        let latest = self.pair.clock().max(self.start);
        if random.once_in(16) {
            let back = random.pick(&[1, 1, 1_000, latest]);
            return self.pair.clock().saturating_sub(back);
        }
        let after = random.pick(&[0, 1, 20, 300, 999, 1_000, 1_001, 5_000, 1 << 32]);
        match self.pair.held().filter(|_| random.once_in(3)) {
            Some(held) => held.arrival.saturating_add(after).max(latest),
            None => latest.saturating_add(random.pick(&[0, 0, 0, 1, 20, 100, after])),
        }
    }

    /// A step, or without a packet a wait. What is lent as held is now and
    /// then altered, and where none is held anything.
    fn call(
        &mut self,
        random: &mut Random,
        clock: u64,
        packet: Option<&[u8]>,
        tally: &mut Tally,
    ) -> Result<Stepped, String> {
        let mut alteration: Option<Alteration> = None;
        let lent = match self.pair.held() {
            None => Some(anything(random, &self.pair, packet.unwrap_or(&[]))),
            Some(_) => {
                alteration = random.once_in(10).then(|| random.pick(&ALTERATIONS));
                alteration.map(|alteration| (alteration.bytes)(random, &self.pair))
            }
        };
        let answer = self
            .pair
            .call(random, clock, lent.as_deref(), packet, tally)?;
        if let Some(Alteration { name, is_due, .. }) = alteration {
            tally.meet(name, is_due(&answer));
        }
        Ok(answer)
    }

    fn step(&mut self, random: &mut Random, tally: &mut Tally) -> Result<(), String> {
        let again = self.pair.again().filter(|_| !random.once_in(4));
        let packet = match again {
            Some(packet) => packet.to_vec(),
            None => {
                let number = self.number(random);
                packet(random, self.source, number)
            }
        };
        let clock = self.clock(random);
        let answer = self.call(random, clock, Some(&packet), tally)?;
        if answer.is_ok_and(|step| step.step.course == Step::JUMP) {
            self.jump = Some(u16::from_be_bytes([packet[2], packet[3]]));
        }
        Ok(())
    }

    /// Waits at the latest clock until nothing is given, or at any, or not.
    fn waits(&mut self, random: &mut Random, tally: &mut Tally) -> Result<(), String> {
        if random.once_in(3) {
            let clock = self.pair.clock();
            let gives = |answer: Stepped| answer.is_ok_and(|step| step.of != HoldingStep::NEITHER);
            while gives(self.call(random, clock, None, tally)?) {}
            return Ok(());
        }
        for _ in 0..random.pick(&[0, 0, 0, 1, 2, 3]) {
            let clock = self.clock(random);
            self.call(random, clock, None, tally)?.ok();
        }
        Ok(())
    }
}

/// Lists of packets and of calls without one: late, copied, far and bad ones,
/// held packets altered, clocks that go back.
pub fn calls(random: &mut Random, calls: usize, tally: &mut Tally) -> Result<(), String> {
    met::all(tally);
    for alteration in ALTERATIONS {
        tally.meet(alteration.name, false);
    }
    let [steps, waits] = [Call::HoldingStep, Call::HoldingWait];
    let start = tally.calls(steps).max(tally.calls(waits));
    let made = |tally: &Tally| tally.calls(steps).min(tally.calls(waits));
    while made(tally) < start + calls {
        let mut list = List::open(random, tally)?;
        for place in 0..random.within(1, 60) {
            list.step(random, tally)
                .and_then(|()| list.waits(random, tally))
                .map_err(|difference| format!("packet {place} of a list: {difference}"))?;
        }
    }
    Ok(())
}

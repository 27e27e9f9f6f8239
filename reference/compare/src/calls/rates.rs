//! Senders held to their rates: more is typed than may go. What their packets
//! take is also held against the rate directly.

use std::iter::repeat_n;

use super::held::ROOM;
use super::senders::Pair;
use super::space::Space;
use super::tally::{Call, Tally};
use crate::random::Random;
use independent::sender::Settings;
use independent::{channel, read, LEVEL};

const RATES: [usize; 4] = [1, 2, 30, 100];
const BUFFERING: [u64; 2] = [1, 300];
const WINDOW: u64 = 10_000;

/// A line of which more is typed than may go.
struct Line<'a> {
    settings: &'a Settings,
    pair: Pair,
    clock: u64,
    /// When each character in its packets' primaries was sent.
    times: Vec<u64>,
}

/// How often text was held back.
#[derive(Default)]
struct Held {
    /// A packet took a part of the text.
    cut: usize,
    /// After a call that was refused for its space.
    again: usize,
    /// A packet took none of it.
    empty: usize,
    /// There was no packet, though the buffering time was over.
    whole: usize,
}

impl Line<'_> {
    fn limit(&self) -> usize {
        10 * self.settings.rate
    }

    /// When the oldest of the last characters that fill a window was sent, or
    /// any of these.
    fn recent(&self, random: &mut Random) -> Option<u64> {
        let first = self.times.len().checked_sub(self.limit())?;
        let any = first + random.below(self.limit());
        Some(self.times[random.pick(&[first, any])])
    }

    /// Goes on: mostly by the buffering time, at times to where a character
    /// is still in the window or no longer.
    fn wait(&mut self, random: &mut Random) {
        let buffering = self.settings.buffering;
        let later = match random.below(8) {
            0 => 0,
            1 => random.pick(&[1, buffering - 1, buffering + 1]),
            2 => random.below(600) as u64,
            3 => match self.recent(random) {
                Some(at) => {
                    let end = at.saturating_add(random.pick(&[WINDOW, WINDOW + 1]));
                    end.saturating_sub(self.clock)
                }
                None => buffering,
            },
            _ => buffering,
        };
        self.clock = self.clock.saturating_add(later);
    }

    fn offer(&mut self, random: &mut Random, tally: &mut Tally) -> Result<(), String> {
        let text = typed(random, ROOM - self.pair.waiting().len());
        self.pair.offer(random, self.clock, &text, tally)?;
        Ok(())
    }

    /// The last ten seconds have as many characters as they may.
    fn is_full(&self) -> bool {
        let first = self.times.len().checked_sub(self.limit());
        first.is_some_and(|first| self.clock - self.times[first] <= WINDOW)
    }

    fn clock_call(
        &mut self,
        random: &mut Random,
        held: &mut Held,
        tally: &mut Tally,
    ) -> Result<(), String> {
        let waited = self.pair.waiting().to_vec();
        let rested = self.pair.rested(self.clock);
        let space = Space::any(random);
        let mut answer = self.pair.clock(random, self.clock, space, tally)?;
        let again = answer == Err(8) && random.once_in(2);
        if again {
            answer = self.pair.clock(random, self.clock, Space::Exact, tally)?;
        }
        let Ok(packet) = answer else {
            return Ok(());
        };
        let sent = packet.is_some();
        if let Some(packet) = packet {
            self.sent(&waited, &packet)?;
        }
        let rest = self.pair.waiting().len();
        if rest == 0 || !rested {
            return Ok(());
        }
        if !self.is_full() {
            return Err(format!("text is held back for no reason at {}", self.clock));
        }
        match (sent, rest < waited.len()) {
            (true, true) => held.cut += 1,
            (true, false) => held.empty += 1,
            (false, _) => held.whole += 1,
        }
        held.again += usize::from(again && rest < waited.len());
        Ok(())
    }

    /// A packet took whole characters of what waited, and left the rest.
    fn sent(&mut self, waited: &[u8], packet: &[u8]) -> Result<(), String> {
        let Settings { t140, red, .. } = *self.settings;
        let packet = read(Some(self.settings.source), t140, red, packet)
            .map_err(|number| format!("a packet sent is refused {number}"))?;
        if [packet.primary(), self.pair.waiting()].concat() != waited {
            return Err("primary and rest are not the text that waited".to_string());
        }
        let primary = std::str::from_utf8(packet.primary());
        let characters = primary.map_or(0, |text| text.chars().count());
        self.times.extend(repeat_n(self.clock, characters));
        Ok(())
    }

    /// No window has more characters than it may.
    fn kept(&self) -> bool {
        let limit = self.limit();
        let mut one_more = self.times.windows(limit + 1);
        one_more.all(|times| times[limit] - times[0] > WINDOW)
    }
}

/// Up to so many bytes, or one more: mostly all of them, in letters of one
/// size or of all.
fn typed(random: &mut Random, free: usize) -> Vec<u8> {
    let length = match random.below(8) {
        0..=3 => free,
        4 => free + 1,
        5 => random.within(1, 12),
        _ => random.within(0, free),
    };
    let (size, low, high) = random.pick(&[
        (1, 0x20, 0x7e),
        (2, 0x80, 0x7ff),
        (3, 0x800, 0xd7ff),
        (4, 0x1_0000, 0x10_ffff),
    ]);
    if random.once_in(2) {
        return random.text(length);
    }
    let letter = |_| char::from_u32(random.within(low, high) as u32);
    let letters: String = (0..length / size).filter_map(letter).collect();
    letters.into_bytes()
}

fn line(
    random: &mut Random,
    settings: &Settings,
    held: &mut Held,
    tally: &mut Tally,
) -> Result<(), String> {
    let any = random.number() >> 20;
    let mut line = Line {
        settings,
        pair: Pair::open(random, settings, tally)?,
        clock: random.pick(&[0, 0, any, u64::MAX - 40_000]),
        times: vec![],
    };
    // The higher the rate, the longer it takes until text is held back.
    for _ in 0..random.within(40, 160) + 2 * settings.rate {
        if random.once_in(3) {
            line.wait(random);
        }
        if random.once_in(2) {
            line.offer(random, tally)?;
            continue;
        }
        line.wait(random);
        line.clock_call(random, held, tally)?;
    }
    match line.kept() {
        true => Ok(()),
        false => Err("more characters in ten seconds than the rate allows".to_string()),
    }
}

/// Lines at each rate and buffering time, until there were so many calls.
pub fn run(random: &mut Random, calls: usize, tally: &mut Tally) -> Result<(), String> {
    let made = |tally: &Tally| tally.calls(Call::Offer) + tally.calls(Call::Clock);
    let start = made(tally);
    let mut held = <[Held; RATES.len()]>::default();
    while made(tally) < start + calls {
        for (rate, held) in RATES.into_iter().zip(&mut held) {
            for buffering in BUFFERING {
                let level = random.within(0, LEVEL);
                let settings = Settings {
                    buffering,
                    rate,
                    ..channel::settings(random, level)
                };
                line(random, &settings, held, tally)
                    .map_err(|difference| format!("{settings:?}: {difference}"))?;
            }
        }
    }
    tally.meet("calls on senders held to their rates", made(tally) - start);
    for (rate, held) in RATES.into_iter().zip(held) {
        for (what, times) in [
            ("texts cut, a front sent", held.cut),
            ("texts cut, a front sent after refusal 8", held.again),
            ("texts held back whole, an empty primary sent", held.empty),
            ("texts held back whole, no packet", held.whole),
        ] {
            tally.meet(format!("rate {rate:>3}: {what}"), times);
        }
    }
    Ok(())
}

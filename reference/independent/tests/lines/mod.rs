//! Lines for the tests of demand 3.

use independent::channel::{self, Delivery, Line};
use independent::maker;
use independent::random::Random;
use independent::sender::Settings;

pub type Make = fn(&mut Random, &Settings) -> Line;

pub fn ours(random: &mut Random, settings: &Settings) -> Line {
    let count = random.pick(&[10, 100, 200]);
    let calls = channel::calls(random, settings.buffering, count);
    channel::send(*settings, &calls)
}

pub fn another_makers(random: &mut Random, settings: &Settings) -> Line {
    let count = random.pick(&[0, 1, 5, 20, 100]);
    maker::line(random, settings, count)
}

/// A line of so many packets, each with a letter.
pub fn lettered(random: &mut Random, level: usize, count: u64) -> (Settings, Line) {
    let (settings, calls) = channel::lettered(random, level, count);
    let line = channel::send(settings, &calls);
    assert_eq!(line.packets.len() as u64, count);
    (settings, line)
}

/// So many random lines of a sender at this level, each over a random way.
pub fn random_lines(
    lists: u64,
    level: usize,
    make: Make,
    mut receive: impl FnMut(&mut Random, &Settings, &Line, &[Delivery]),
) {
    for seed in 0..lists {
        let mut random = Random::new(seed << 8 | level as u64);
        let settings = channel::settings(&mut random, level);
        let line = make(&mut random, &settings);
        let deliveries = channel::deliveries(&mut random, &line.packets);
        receive(&mut random, &settings, &line, &deliveries);
    }
}

/// A line of 150,000 packets, more than two rounds of the numbers, heard in
/// strides up to the window's ends.
pub fn long_line(
    level: usize,
    mut receive: impl FnMut(&mut Random, &Settings, &Line, &[Delivery]),
) {
    let mut random = Random::new(level as u64);
    let (settings, line) = lettered(&mut random, level, 150_000);
    for _ in 0..20 {
        let deliveries = channel::strides(&mut random, &line.packets);
        receive(&mut random, &settings, &line, &deliveries);
    }
}

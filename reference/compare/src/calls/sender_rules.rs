//! The rules of the calls on any sender, also on such as no call leaves: a
//! time that has not come yet is no time ago, and in a flag 0 is false and all
//! else true.

use std::iter::repeat_n;

use super::held::{Block, Meaning, ROOM};
use super::receiver_rules::types_bad;
use independent::LEVEL;
use stewpigeon::lent;

const OLDEST: u64 = 16_383;
const WINDOW: u64 = 10_000;

fn settings_number(settings: &lent::Settings) -> u8 {
    if settings.level > LEVEL {
        1
    } else if settings.buffering == 0 || settings.buffering > 500 {
        2
    } else if types_bad(settings.t140, settings.red) {
        3
    } else if settings.rate == 0 || settings.rate > 100 {
        9
    } else {
        0
    }
}

pub fn offer(sender: &mut Meaning, clock: u64, offered: &[u8]) -> u8 {
    let number = settings_number(&sender.settings);
    if number != 0 {
        return number;
    }
    if clock < sender.clock {
        return 5;
    }
    if offered.is_empty() {
        return 7;
    }
    let Ok(text) = std::str::from_utf8(offered) else {
        return 6;
    };
    if sender.waiting.len() + offered.len() > ROOM {
        return 4;
    }
    if sender.waiting.is_empty() {
        sender.since = clock;
    }
    sender.waiting.extend(offered);
    sender.characters = ROOM.min(sender.characters + text.chars().count());
    sender.clock = clock;
    0
}

/// The most of so many characters that may go at a clock, by the times of
/// those before, newest first: all before the last `limit` ones, these among
/// them, were sent more than the window ago.
fn allowed(limit: usize, times: &[u64], clock: u64, characters: usize) -> usize {
    let fits = |n: &usize| match times.get(limit - n) {
        Some(at) => clock.saturating_sub(*at) > WINDOW,
        None => true,
    };
    let mut least = (1..=characters.min(limit)).rev();
    least.find(fits).unwrap_or(0)
}

/// The bytes of the first so many characters, each as long as its first byte
/// says. A byte that begins none ends them.
fn front(text: &[u8], characters: usize) -> usize {
    let mut end = 0;
    for _ in 0..characters {
        end += match text.get(end) {
            Some(0x00..=0x7f) => 1,
            Some(0xc2..=0xdf) => 2,
            Some(0xe0..=0xef) => 3,
            Some(0xf0..=0xf4) => 4,
            _ => break,
        };
    }
    end.min(text.len())
}

/// What a packet takes of the text that waits.
#[derive(Clone, Copy)]
struct Taken {
    bytes: usize,
    characters: usize,
}

fn taken(sender: &Meaning, times: &[u64], clock: u64) -> Taken {
    let limit = 10 * sender.settings.rate;
    let characters = allowed(limit, times, clock, sender.characters);
    let bytes = match characters == sender.characters {
        true => sender.waiting.len(),
        false => front(&sender.waiting, characters),
    };
    Taken { bytes, characters }
}

fn age(block: &Block, clock: u64) -> u64 {
    clock.saturating_sub(block.at)
}

/// The blocks that a packet at this clock repeats, newest first.
fn run(sender: &Meaning, clock: u64) -> &[Block] {
    let blocks = &sender.blocks;
    let most = sender.settings.level.min(blocks.len());
    let fresh = |block: &&Block| age(block, clock) <= OLDEST;
    let run = blocks[..most].iter().take_while(fresh).count();
    &blocks[..run]
}

fn due(sender: &Meaning, clock: u64, taken: Taken) -> bool {
    let rest = clock.saturating_sub(sender.progress.last);
    let rested = sender.progress.sent == 0 || rest >= sender.settings.buffering;
    let mut repeats = run(sender, clock).iter();
    rested && (taken.bytes > 0 || repeats.any(|block| !block.text.is_empty()))
}

fn marker(sender: &Meaning, taken: Taken) -> bool {
    let after = sender.since.saturating_sub(sender.progress.last_text);
    sender.progress.sent == 0 || taken.bytes > 0 && after > sender.settings.buffering
}

fn packet(sender: &Meaning, clock: u64, taken: Taken) -> Vec<u8> {
    let settings = &sender.settings;
    let plain = settings.level == 0;
    let payload_type = if plain { settings.t140 } else { settings.red };
    let timestamp = settings.timestamp.wrapping_add(clock as u32);
    let mut packet = vec![0x80, u8::from(marker(sender, taken)) << 7 | payload_type];
    packet.extend(sender.progress.next.to_be_bytes());
    packet.extend(timestamp.to_be_bytes());
    packet.extend(settings.source.to_be_bytes());
    let run = run(sender, clock);
    for block in run.iter().rev() {
        let offset = (age(block, clock) as u32) << 10;
        let header = offset | block.text.len() as u32;
        packet.push(0x80 | settings.t140);
        packet.extend(&header.to_be_bytes()[1..]);
    }
    if !plain {
        packet.push(settings.t140);
    }
    for block in run.iter().rev() {
        packet.extend(&block.text);
    }
    packet.extend(&sender.waiting[..taken.bytes]);
    packet
}

/// The sender goes on behind its packet.
fn sent(sender: &mut Meaning, clock: u64, taken: Taken) {
    let text: Vec<u8> = sender.waiting.drain(..taken.bytes).collect();
    let progress = &mut sender.progress;
    progress.sent = 1;
    progress.last = clock;
    if !text.is_empty() {
        progress.last_text = clock;
        sender.since = clock;
    }
    progress.next = progress.next.wrapping_add(1);
    sender.clock = clock;
    sender.characters -= taken.characters;
    sender.blocks.insert(0, Block { text, at: clock });
    sender.blocks.truncate(LEVEL);
}

/// A clock call on a sender, the times of whose last characters are these,
/// newest first.
pub fn clock(sender: &mut Meaning, times: &mut Vec<u64>, clock: u64, space: &mut [u8]) -> i64 {
    let number = settings_number(&sender.settings);
    if number != 0 {
        return -i64::from(number);
    }
    if clock < sender.clock {
        return -5;
    }
    let taken = taken(sender, times, clock);
    if !due(sender, clock, taken) {
        sender.clock = clock;
        return 0;
    }
    let packet = packet(sender, clock, taken);
    let Some(place) = space.get_mut(..packet.len()) else {
        return -8;
    };
    place.copy_from_slice(&packet);
    sent(sender, clock, taken);
    times.splice(..0, repeat_n(clock, taken.characters));
    times.truncate(10 * sender.settings.rate);
    packet.len() as i64
}

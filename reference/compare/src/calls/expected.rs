//! What the library's sender must be, by an independent one.

use super::held::{Block, Meaning, KEPT};
use independent::sender::{Sender, Settings};
use stewpigeon::lent::{self, Pace};

pub fn library_settings(settings: &Settings) -> lent::Settings {
    lent::Settings {
        level: settings.level,
        buffering: settings.buffering,
        rate: settings.rate,
        t140: settings.t140,
        red: settings.red,
        sequence: settings.sequence,
        timestamp: settings.timestamp,
        source: settings.source,
    }
}

fn progress(sender: &Sender) -> lent::Progress {
    lent::Progress {
        sent: sender.last_packet().is_some().into(),
        last: sender.last_packet().unwrap_or(0),
        last_text: sender.last_text().unwrap_or(0),
        next: sender.sequence(),
    }
}

/// When the first text that waits was offered or left behind. Where none
/// waits, the last packet that had some left none behind.
fn since(sender: &Sender) -> u64 {
    let waiting = sender.waiting();
    match waiting.is_empty() {
        true => sender.last_text().unwrap_or(0),
        false => waiting.clock,
    }
}

/// The slots are used in a circle, one after the other.
fn pace(sender: &Sender, characters: usize) -> Pace {
    let slots = 10 * sender.settings().rate;
    Pace {
        next: characters.checked_rem(slots).unwrap_or(0),
        used: characters.min(slots),
    }
}

/// The record of an independent sender in this slot that has sent so many
/// characters: zeros past its count.
pub fn record(sender: &Sender, room: usize, characters: usize) -> lent::Sender {
    let mut lens = [0; KEPT];
    let mut ats = [0; KEPT];
    let mut count = 0;
    for block in sender.blocks() {
        lens[count] = block.len();
        ats[count] = block.clock;
        count += 1;
    }
    lent::Sender {
        settings: library_settings(sender.settings()),
        clock: sender.latest(),
        room,
        len: sender.waiting().len(),
        characters: sender.waiting().characters(),
        since: since(sender),
        lens,
        ats,
        count,
        pace: pace(sender, characters),
        progress: progress(sender),
    }
}

/// What an independent sender says of itself.
pub fn meaning(sender: &Sender) -> Meaning {
    let blocks = sender.blocks().map(|block| Block {
        text: block.text().to_vec(),
        at: block.clock,
    });
    Meaning {
        settings: library_settings(sender.settings()),
        clock: sender.latest(),
        waiting: sender.waiting().text().to_vec(),
        characters: sender.waiting().characters(),
        since: since(sender),
        blocks: blocks.collect(),
        progress: progress(sender),
    }
}

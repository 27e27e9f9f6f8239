//! The times of a sender's last characters, in its log.

use crate::patterns::guarded;
use crate::random::Random;
use stewpigeon::lent::{self, Guarded, Pace, Sender};

/// The characters that may go in ten seconds, and so the slots that are used.
pub fn limit(sender: &Sender) -> usize {
    10 * sender.settings.rate.min(100)
}

/// The slot of the next character.
fn next(sender: &Sender) -> usize {
    match sender.pace.next {
        next if next < limit(sender) => next,
        _ => 0,
    }
}

/// What a sender's log means: when each of the last characters was sent,
/// newest first.
pub fn times(sender: &Sender, log: &lent::Log) -> Vec<u64> {
    let (before, behind) = log[..limit(sender)].split_at(next(sender));
    let back = before.iter().rev().chain(behind.iter().rev());
    back.take(sender.pace.used).copied().collect()
}

/// How far it is in its log behind so many characters.
pub fn behind(sender: &Sender, characters: usize) -> Pace {
    let slots = limit(sender);
    let used = sender.pace.used.min(slots);
    Pace {
        next: (next(sender) + characters) % slots,
        used: slots.min(used + characters),
    }
}

/// A log that is lent among other bytes, and what it must be.
pub struct Log {
    pub lent: Guarded<lent::Log>,
    due: Guarded<lent::Log>,
}

impl Log {
    /// Of any times, each as much above the one before.
    pub fn any(random: &mut Random) -> Log {
        let [mut time, step] = [random.number(), random.number()];
        let mut times = [0; 1000];
        for slot in &mut times {
            *slot = time;
            time = time.wrapping_add(step);
        }
        Log::new(random, &times)
    }

    pub fn new(random: &mut Random, times: &lent::Log) -> Log {
        let lent = guarded(random, *times);
        let due = lent.clone();
        Log { lent, due }
    }

    /// Every byte is the one that is due, in its slots and around them.
    pub fn is_due(&self) -> bool {
        self.lent.bytes() == self.due.bytes()
    }

    /// The first slot that is not as it is due.
    pub fn difference(&self) -> String {
        let [ours, due] = [&self.lent, &self.due].map(|log| log.record());
        match (0..due.len()).find(|slot| ours[*slot] != due[*slot]) {
            None => "its slots are as due".to_string(),
            Some(slot) => format!("slot {slot} is {}, {} is due", ours[slot], due[slot]),
        }
    }

    /// The slots in use, read round the circle, must hold the last of these
    /// times, oldest first, and all other bytes stay.
    pub fn hold(&mut self, sender: &Sender, times: &[u64]) {
        let slots = limit(sender);
        let Pace { next, used } = sender.pace;
        let last = &times[times.len() - used..];
        let start = (next + slots - used) % slots;
        let (older, newer) = last.split_at(used.min(slots - start));
        let due = self.due.record_mut();
        due[start..][..older.len()].copy_from_slice(older);
        due[..newer.len()].copy_from_slice(newer);
    }

    /// So many characters more must have gone at this clock.
    pub fn spend(&mut self, sender: &Sender, clock: u64, characters: usize) {
        let (slots, next) = (limit(sender), next(sender));
        let due = self.due.record_mut();
        for k in 0..characters {
            due[(next + k) % slots] = clock;
        }
    }
}

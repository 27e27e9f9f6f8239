//! Random lists of calls on a sender, held against the sender's section of
//! the paper and the rate, worked out each time from all that was accepted
//! and sent.

use std::collections::BTreeMap;

use independent::channel::{calls, settings, Call};
use independent::random::Random;
use independent::record::{run, Sent};
use independent::sender::{Clocked, Sender, Settings};
use independent::{read, LEVEL};

/// An accepted offer.
struct Offered {
    clock: u64,
    text: Vec<u8>,
    /// How many packets were sent before it.
    packets: usize,
}

/// All that was accepted and sent since the opening.
struct Ledger {
    settings: Settings,
    latest: u64,
    offers: Vec<Offered>,
    sent: Vec<Sent>,
}

fn characters(text: &[u8]) -> usize {
    std::str::from_utf8(text).unwrap().chars().count()
}

impl Ledger {
    /// What was typed and is in no packet yet.
    fn waiting(&self) -> Vec<u8> {
        let typed = self.offers.iter().flat_map(|offer| &offer.text);
        let sent: usize = self.sent.iter().map(|sent| sent.block.len()).sum();
        typed.skip(sent).copied().collect()
    }

    /// When the first byte that waits was offered. Where a packet with text
    /// came since then, it was left behind, and counts as offered with it.
    fn since(&self) -> Option<u64> {
        let sent: usize = self.sent.iter().map(|sent| sent.block.len()).sum();
        let mut typed = 0;
        let first = self.offers.iter().find(|offer| {
            typed += offer.text.len();
            typed > sent
        })?;
        let mut since = self.sent[first.packets..].iter();
        let left = since.rfind(|sent| !sent.block.is_empty());
        Some(left.map_or(first.clock, |sent| sent.clock))
    }

    fn offer(&mut self, clock: u64, text: &[u8]) -> Result<(), u8> {
        if clock < self.latest {
            return Err(5);
        }
        if text.is_empty() {
            return Err(7);
        }
        if std::str::from_utf8(text).is_err() {
            return Err(6);
        }
        if self.waiting().len() + text.len() > 160 {
            return Err(4);
        }
        self.latest = clock;
        self.offers.push(Offered {
            clock,
            text: text.to_vec(),
            packets: self.sent.len(),
        });
        Ok(())
    }

    /// The characters sent from `start` to 10,000 ms later, both included.
    fn within(&self, start: u64) -> usize {
        let end = start.saturating_add(10_000);
        let sent = self.sent.iter();
        let within = sent.filter(|sent| (start..=end).contains(&sent.clock));
        within.map(|sent| characters(&sent.block)).sum()
    }

    fn limit(&self) -> usize {
        10 * self.settings.rate
    }

    /// No 10,000 ms have more characters than the rate allows. The fullest
    /// start with a packet.
    fn check_rate(&self) {
        for sent in &self.sent {
            assert!(self.within(sent.clock) <= self.limit());
        }
    }

    /// The longest front in whole characters that a packet at this clock can
    /// take: every 10,000 ms that hold this clock keep to the rate.
    fn front(&self, clock: u64) -> Vec<u8> {
        let starts = self.sent.iter().map(|sent| sent.clock);
        let around = starts.filter(|start| clock - start <= 10_000);
        let fullest = around.map(|start| self.within(start)).max();
        let free = self.limit() - fullest.unwrap_or(0);
        let waiting = String::from_utf8(self.waiting()).unwrap();
        waiting.chars().take(free).collect::<String>().into_bytes()
    }

    /// The older blocks of a packet at this clock, oldest first.
    fn older(&self, clock: u64) -> Vec<Sent> {
        let mut sent = self.sent.clone();
        let k = sent.len();
        let block = vec![];
        sent.push(Sent { clock, block });
        let run = run(&sent, self.settings.level, k);
        sent[k - run..k].to_vec()
    }

    fn due(&self, clock: u64) -> bool {
        let buffering = u128::from(self.settings.buffering);
        let rested = self
            .sent
            .last()
            .is_none_or(|last| u128::from(clock) >= u128::from(last.clock) + buffering);
        let repeats = self.older(clock).iter().any(|sent| !sent.block.is_empty());
        rested && (!self.front(clock).is_empty() || repeats)
    }

    fn marker(&self, clock: u64) -> bool {
        if self.sent.is_empty() {
            return true;
        }
        let last = self.sent.iter().rfind(|sent| !sent.block.is_empty());
        match (last, self.since()) {
            (Some(last), Some(offered)) if !self.front(clock).is_empty() => {
                let limit = u128::from(last.clock) + u128::from(self.settings.buffering);
                u128::from(offered) > limit
            }
            _ => false,
        }
    }

    fn length(&self, clock: u64) -> usize {
        let older = self.older(clock);
        let headers = match self.settings.level {
            0 => 0,
            _ => 4 * older.len() + 1,
        };
        let text: usize = older.iter().map(|sent| sent.block.len()).sum();
        12 + headers + text + self.front(clock).len()
    }

    /// Reads the packet written at this clock and holds it against the rules.
    fn check(&self, clock: u64, packet: &[u8]) {
        let settings = &self.settings;
        let payload_type = match settings.level {
            0 => settings.t140,
            _ => settings.red,
        };
        assert_eq!(packet[0], 0x80);
        assert_eq!(packet[1] & 0x7f, payload_type);
        let packet = read(Some(settings.source), settings.t140, settings.red, packet).unwrap();
        let k = self.sent.len() as u64;
        let sequence = (u64::from(settings.sequence) + k) % 65_536;
        let timestamp = (u128::from(settings.timestamp) + u128::from(clock)) % (1 << 32);
        assert_eq!(u64::from(packet.sequence), sequence);
        assert_eq!(u128::from(packet.timestamp), timestamp);
        assert_eq!(packet.marker, self.marker(clock));
        let older = self.older(clock);
        assert_eq!(packet.older().len(), older.len());
        for (read, sent) in packet.older().zip(&older) {
            assert_eq!(u64::from(read.offset), clock - sent.clock);
            assert_eq!(packet.block(&read), sent.block);
        }
        assert_eq!(packet.primary(), self.front(clock));
    }

    /// Holds what the sender says of itself against what was accepted and
    /// sent.
    fn check_state(&self, sender: &Sender) {
        let sequence = self.settings.sequence.wrapping_add(self.sent.len() as u16);
        let text = self.sent.iter().rfind(|sent| !sent.block.is_empty());
        let last = self.sent.iter().rev().take(LEVEL);
        let last = last.map(|sent| (sent.clock, &sent.block[..]));
        assert_eq!(*sender.settings(), self.settings);
        assert_eq!(sender.latest(), self.latest);
        assert_eq!(sender.waiting().text(), self.waiting());
        assert_eq!(sender.waiting().characters(), characters(&self.waiting()));
        assert_eq!(sender.waiting().clock, self.since().unwrap_or(0));
        assert_eq!(sender.sequence(), sequence);
        let blocks = sender.blocks().map(|block| (block.clock, block.text()));
        assert!(blocks.eq(last));
        let last = self.sent.last().map(|last| last.clock);
        assert_eq!(sender.last_packet(), last);
        assert_eq!(sender.last_text(), text.map(|last| last.clock));
        let recent = self.sent.iter().filter(|sent| {
            !sent.block.is_empty() && self.sent.last().unwrap().clock - sent.clock <= 10_000
        });
        let spent = recent.map(|sent| (sent.clock, characters(&sent.block)));
        assert!(sender.spent().eq(spent));
    }

    fn clock(&mut self, clock: u64, space: usize) -> Clocked {
        if clock < self.latest {
            return Clocked::Refused(5);
        }
        if !self.due(clock) {
            self.latest = clock;
            return Clocked::Quiet;
        }
        match self.length(clock) {
            length if length > space => Clocked::Refused(8),
            length => Clocked::Sent(length),
        }
    }
}

/// How often each answer was met, and how text was held back.
type Met = BTreeMap<String, usize>;

fn list(random: &mut Random, level: usize, met: &mut Met) {
    let mut meet = |what: &str| *met.entry(what.to_string()).or_default() += 1;
    let settings = settings(random, level);
    let mut sender = Sender::open(settings).unwrap();
    let mut ledger = Ledger {
        settings,
        latest: 0,
        offers: vec![],
        sent: vec![],
    };
    let count = random.within(1, 60);
    for call in calls(random, settings.buffering, count) {
        let before = sender.clone();
        let refused = match call {
            Call::Offer { clock, text } => {
                let answer = sender.offer(clock, &text);
                assert_eq!(answer, ledger.offer(clock, &text));
                answer.err()
            }
            Call::Clock { clock, space } => {
                let mut lent = random.bytes(space);
                let untouched = lent.clone();
                let (front, waiting) = (ledger.front(clock), ledger.waiting());
                let answer = sender.clock(clock, &mut lent);
                assert_eq!(answer, ledger.clock(clock, space));
                let mut written = 0;
                if let Clocked::Sent(length) = answer {
                    ledger.check(clock, &lent[..length]);
                    let block = front.clone();
                    ledger.sent.push(Sent { clock, block });
                    ledger.latest = clock;
                    written = length;
                }
                assert_eq!(lent[written..], untouched[written..]);
                match answer {
                    Clocked::Sent(_) if front == waiting => meet("sent all"),
                    Clocked::Sent(_) if front.is_empty() => meet("sent none"),
                    Clocked::Sent(_) => meet("sent a part"),
                    Clocked::Quiet if front == waiting => meet("quiet"),
                    Clocked::Quiet if front.is_empty() => meet("quiet, held back"),
                    _ => {}
                }
                match answer {
                    Clocked::Refused(number) => Some(number),
                    _ => None,
                }
            }
        };
        if let Some(number) = refused {
            assert_eq!(sender, before);
            meet(&format!("refused {number}"));
        }
        ledger.check_state(&sender);
    }
    ledger.check_rate();
}

#[test]
fn random_lists_of_calls() {
    let mut met = Met::new();
    for level in 0..=LEVEL {
        for seed in 0..2000 {
            let mut random = Random::new(seed << 8 | level as u64);
            list(&mut random, level, &mut met);
        }
    }
    for number in 4..=8 {
        assert!(met[&format!("refused {number}")] > 1000, "{met:?}");
    }
    for (what, times) in [
        ("sent all", 1000),
        ("sent a part", 1000),
        ("sent none", 100),
        ("quiet", 1000),
        ("quiet, held back", 1000),
    ] {
        assert!(met[what] > times, "{met:?}");
    }
}

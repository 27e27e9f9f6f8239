//! Whole lines: packets of a sender lost, copied and delayed on their way to
//! the library's receivers, and their records held against demand 3.

use std::collections::BTreeSet;
use std::iter::repeat_n;

use super::each::Each;
use super::space::Space;
use super::tally::{Call, Tally};
use super::{holding, receivers, senders};
use crate::random::Random;
use independent::channel::{self, Delivery, Line};
use independent::record::{expected, in_window, Entry, Sent, AHEAD, BEHIND};
use independent::sender::Settings;
use independent::{maker, read, LEVEL};
use stewpigeon::lent::Step;

/// Adds what the library's step gives: its loss in marks, then its blocks,
/// whose places are read again. Inside the window there are no jumps.
pub fn add(
    record: &mut Vec<Entry>,
    settings: &Settings,
    packet: &[u8],
    step: &Step,
) -> Result<(), String> {
    match step.course {
        Step::FORWARD => {}
        Step::LATE => return Ok(()),
        course => return Err(format!("course {course} inside the window")),
    }
    let read = read(None, settings.t140, settings.red, packet)
        .map_err(|number| format!("an accepted packet is refused {number}"))?;
    let given = read.older().skip(read.older().len() + 1 - step.given);
    let mut blocks: Vec<&[u8]> = given.map(|older| read.block(&older)).collect();
    blocks.push(read.primary());
    if blocks.concat() != packet[step.from..step.to] {
        return Err("the text given is not that of the blocks given".to_string());
    }
    record.extend(repeat_n(Entry::Mark, step.loss.into()));
    record.extend(blocks.into_iter().map(|block| Entry::Block(block.to_vec())));
    Ok(())
}

/// The first place at which two records differ.
pub fn difference(ours: &[Entry], wanted: &[Entry]) -> String {
    let same = ours.iter().zip(wanted).take_while(|(a, b)| a == b).count();
    format!(
        "the record differs from demand 3's at entry {same}\n\
         library:   {} entries, there {:?}\ndemand 3:  {} entries, there {:?}",
        ours.len(),
        ours.get(same),
        wanted.len(),
        wanted.get(same)
    )
}

/// A line, and its packets as they arrive.
pub struct Transmission<'a> {
    pub settings: &'a Settings,
    pub line: &'a Line,
    pub deliveries: Vec<Delivery>,
}

impl Transmission<'_> {
    /// The record is the one due by these packets of the line, in this order.
    pub fn check(&self, record: &[Entry], accepted: &[usize]) -> Result<(), String> {
        let wanted = expected(&self.line.sent, self.settings.level, accepted);
        if record == wanted {
            return Ok(());
        }
        let details = difference(record, &wanted);
        let first = &accepted[..accepted.len().min(200)];
        let settings = self.settings;
        Err(format!(
            "{settings:?}\nthe first accepted {first:?}\n{details}"
        ))
    }
}

/// How many marks a record has.
pub fn marks(record: &[Entry]) -> usize {
    let marks = record.iter().filter(|entry| **entry == Entry::Mark);
    marks.count()
}

/// Gives the deliveries to a receiver that does not hold, and checks its
/// record.
fn receive(
    random: &mut Random,
    transmission: &Transmission,
    tally: &mut Tally,
) -> Result<(), String> {
    let settings = transmission.settings;
    let mut pair = receivers::Pair::open(random, settings.t140, settings.red, tally)?;
    let mut record = vec![];
    let mut accepted: Vec<usize> = vec![];
    let mut newest = None;
    for delivery in &transmission.deliveries {
        let k = delivery.number;
        let packet = &delivery.packet;
        let Ok(step) = pair.step(random, packet, tally)? else {
            continue;
        };
        if !in_window(newest, k) {
            return Err(format!("packet {k} is outside the window"));
        }
        add(&mut record, settings, packet, &step)?;
        if let Some(newest) = newest {
            tally.meet("packets of lines 2,999 ahead", k == newest + AHEAD);
            tally.meet("packets of lines 99 behind", k + BEHIND == newest);
            if k > newest {
                tally.each(Each::LostInLines, k - newest - 1);
            }
        }
        newest = newest.max(Some(k));
        accepted.push(k);
    }
    transmission.check(&record, &accepted)?;
    tally.meet("marks in records of lines", marks(&record));
    tally.meet("entries in records of lines", record.len());
    tally.meet("lines of which nothing was accepted", accepted.is_empty());
    Ok(())
}

/// The packets of a line as they arrive.
type Way = fn(&mut Random, &[Vec<u8>]) -> Vec<Delivery>;

/// Sends a line over a way to receivers of both kinds.
fn transmit(
    random: &mut Random,
    settings: &Settings,
    line: &Line,
    way: Way,
    tally: &mut Tally,
) -> Result<(), String> {
    let transmission = Transmission {
        settings,
        line,
        deliveries: way(random, &line.packets),
    };
    receive(random, &transmission, tally)?;
    holding::receive(random, &transmission, tally)
        .map_err(|difference| format!("to a receiver that holds: {difference}"))
}

/// Gives the calls to the library's sender and keeps what it sends.
fn send(
    random: &mut Random,
    settings: &Settings,
    calls: &[channel::Call],
    space: fn(&mut Random) -> Space,
    tally: &mut Tally,
) -> Result<Line, String> {
    let mut pair = senders::Pair::open(random, settings, tally)?;
    let mut line = Line::default();
    for call in calls {
        let clock = match call {
            channel::Call::Offer { clock, text } => {
                pair.offer(random, *clock, text, tally)?;
                continue;
            }
            channel::Call::Clock { clock, .. } => *clock,
        };
        let mut block = pair.waiting().to_vec();
        let space = space(random);
        if let Ok(Some(packet)) = pair.clock(random, clock, space, tally)? {
            let read = read(Some(settings.source), settings.t140, settings.red, &packet)
                .map_err(|number| format!("a packet sent is refused {number}"))?;
            if [read.primary(), pair.waiting()].concat() != block {
                return Err("primary and rest are not the text that waited".to_string());
            }
            block.truncate(read.primary().len());
            line.sent.push(Sent { clock, block });
            line.packets.push(packet);
        }
    }
    Ok(line)
}

type Make = fn(&mut Random, &Settings, &mut Tally) -> Result<Line, String>;

/// Lines of a sender, each over a random way, until so many packets came.
fn lines(random: &mut Random, calls: usize, tally: &mut Tally, make: Make) -> Result<(), String> {
    let start = tally.calls(Call::Step);
    while tally.calls(Call::Step) < start + calls {
        let level = random.within(0, LEVEL);
        let settings = channel::settings(random, level);
        let line = make(random, &settings, tally)?;
        transmit(random, &settings, &line, channel::deliveries, tally)?;
    }
    Ok(())
}

pub fn ours(random: &mut Random, calls: usize, tally: &mut Tally) -> Result<(), String> {
    lines(random, calls, tally, |random, settings, tally| {
        let count = random.pick(&[10, 100, 300]);
        let calls = channel::calls(random, settings.buffering, count);
        tally.meet("lines of our sender", true);
        send(random, settings, &calls, Space::any, tally)
    })
}

pub fn another_makers(random: &mut Random, calls: usize, tally: &mut Tally) -> Result<(), String> {
    lines(random, calls, tally, |random, settings, tally| {
        let count = random.pick(&[0, 1, 5, 20, 100]);
        tally.meet("lines of another maker's sender", true);
        Ok(maker::line(random, settings, count))
    })
}

/// How many packets a long line has: more than two rounds of the numbers.
const LONG: u64 = 140_000;

/// Lines of our sender that pass 65,535 several times: heard in strides up to
/// the window's ends, and with losses, copies and delays all along.
pub fn long(random: &mut Random, calls: usize, tally: &mut Tally) -> Result<(), String> {
    let packets = LONG.min(2 * calls as u64);
    for level in BTreeSet::from([0, 1, LEVEL / 2, LEVEL]) {
        let (settings, calls) = channel::lettered(random, level, packets);
        let line = send(random, &settings, &calls, Space::enough, tally)?;
        for _ in 0..10 {
            transmit(random, &settings, &line, channel::strides, tally)?;
        }
        transmit(random, &settings, &line, channel::deliveries, tally)?;
        tally.meet("long lines of our sender", true);
    }
    Ok(())
}

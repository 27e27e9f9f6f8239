//! A sender's calls.

use std::time::{Duration, Instant};

use crate::contest::{add, contest, timed, Run};
use crate::schedule::{Event, Schedule};
use compare::calls::library_settings;
use compare::say;
use independent::sender::{Clocked, Sender, Settings};
use stewpigeon::lent;

const SPACE: usize = stewpigeon::Sender::LONGEST_PACKET;

fn settings(level: usize, rate: usize) -> Settings {
    Settings {
        level,
        buffering: 300,
        rate,
        t140: 98,
        red: 100,
        sequence: 65_000,
        timestamp: 1000,
        source: 0x11223344,
    }
}

/// The proved sender: its record, and the texts and the log that are lent with
/// it.
#[derive(Clone)]
struct Proved {
    record: lent::Sender,
    texts: lent::Texts,
    log: Box<lent::Log>,
}

impl Proved {
    /// Takes back a call. Of the log only what it wrote: all of it would drive
    /// the rest out of the cache.
    fn take_back(&mut self, before: &Self) {
        let slots = 10 * before.record.settings.rate;
        let mut slot = before.record.pace.next;
        while slot != self.record.pace.next {
            self.log[slot] = before.log[slot];
            slot = (slot + 1) % slots;
        }
        self.record = before.record;
        self.texts = before.texts;
    }
}

fn proved_open(line: &Line<'_>) -> Proved {
    let settings = library_settings(&settings(line.level, line.rate));
    let mut sender = Proved {
        record: lent::Sender::ZERO,
        texts: [0; size_of::<lent::Texts>()],
        log: Box::new([0; 1000]),
    };
    let number = lent::sender_open(&mut sender.record, &mut sender.texts, settings);
    assert_eq!(number, 0);
    sender
}

fn independent_open(line: &Line<'_>) -> Sender {
    Sender::open(settings(line.level, line.rate)).expect("good settings")
}

/// The figure of an answer: the length, and parts of the packet written.
fn figure(answer: i64, space: &[u8]) -> u64 {
    match answer {
        1.. => {
            let end = answer as usize;
            let numbers = u64::from(space[3]) + 3 * u64::from(space[7]);
            numbers + 5 * answer as u64 + 7 * u64::from(space[end - 1])
        }
        answer => answer as u64,
    }
}

/// A call of the proved sender, and its figure.
fn proved_call(sender: &mut Proved, event: &Event, space: &mut [u8]) -> u64 {
    let Proved { record, texts, log } = sender;
    match event {
        Event::Offer(clock, text) => {
            u64::from(lent::sender_offer(record, texts, *clock, text.as_bytes()))
        }
        Event::Clock(clock) => {
            let answer = lent::sender_clock(record, texts, &mut **log, *clock, space);
            figure(answer, space)
        }
    }
}

#[inline(never)]
fn offer(sender: &mut Sender, clock: u64, text: &[u8]) -> Result<(), u8> {
    sender.offer(clock, text)
}

#[inline(never)]
fn clock_call(sender: &mut Sender, clock: u64, space: &mut [u8]) -> Clocked {
    sender.clock(clock, space)
}

/// A call of the independent sender, and its figure.
fn independent_call(sender: &mut Sender, event: &Event, space: &mut [u8]) -> u64 {
    match event {
        Event::Offer(clock, text) => {
            let refusal = offer(sender, *clock, text.as_bytes()).err();
            u64::from(refusal.unwrap_or(0))
        }
        Event::Clock(clock) => {
            let answer = match clock_call(sender, *clock, space) {
                Clocked::Refused(number) => -i64::from(number),
                Clocked::Quiet => 0,
                Clocked::Sent(length) => length as i64,
            };
            figure(answer, space)
        }
    }
}

/// A typed line at a repeat level and a rate.
pub struct Line<'a> {
    pub level: usize,
    pub rate: usize,
    pub schedule: &'a Schedule,
}

/// All calls of a line.
fn all<S>(line: &Line<'_>, mut sender: S, call: impl Fn(&mut S, &Event, &mut [u8]) -> u64) -> u64 {
    let mut space = [0; SPACE];
    let mut sum = 0;
    for event in &line.schedule.events {
        sum = add(sum, call(&mut sender, event, &mut space));
    }
    sum
}

fn proved(line: &Line<'_>) -> u64 {
    all(line, proved_open(line), proved_call)
}

fn independent(line: &Line<'_>) -> u64 {
    all(line, independent_open(line), independent_call)
}

/// Calls of one kind, and the senders as they are before them.
#[derive(Default)]
struct Prepared<'a> {
    proved: Vec<Proved>,
    independent: Vec<Sender>,
    events: Vec<&'a Event>,
    /// How many of them the line has.
    count: usize,
}

const PREPARED: usize = 200;
const TIMES: usize = 500;

/// Runs a line and keeps senders before offers, before clock calls that send
/// and before quiet ones.
fn prepare<'a>(line: &Line<'a>) -> [Prepared<'a>; 3] {
    let mut prepared = <[Prepared; 3]>::default();
    let mut ours = proved_open(line);
    let mut theirs = independent_open(line);
    let mut space = [0; SPACE];
    for event in &line.schedule.events {
        let before = (ours.clone(), theirs.clone());
        let figure = proved_call(&mut ours, event, &mut space);
        independent_call(&mut theirs, event, &mut space);
        let kind = match (event, figure) {
            (Event::Offer(..), _) => &mut prepared[0],
            (Event::Clock(_), 1..) => &mut prepared[1],
            (Event::Clock(_), 0) => &mut prepared[2],
        };
        kind.count += 1;
        if kind.events.len() < PREPARED {
            kind.proved.push(before.0);
            kind.independent.push(before.1);
            kind.events.push(event);
        }
    }
    prepared
}

/// Times these calls alone, so many times over, each on a copy of its sender
/// that is then taken back.
fn alone<S: Clone>(
    times: usize,
    senders: &[S],
    events: &[&Event],
    call: impl Fn(&mut S, &Event, &mut [u8]) -> u64,
    take_back: impl Fn(&mut S, &S),
) -> Run {
    let mut space = [0; SPACE];
    let mut sum = 0;
    let mut time = Duration::ZERO;
    let mut copies = senders.to_vec();
    for _ in 0..times {
        let start = Instant::now();
        for (sender, event) in copies.iter_mut().zip(events) {
            sum = add(sum, call(sender, event, &mut space));
        }
        time += start.elapsed();
        for (copy, sender) in copies.iter_mut().zip(senders) {
            take_back(copy, sender);
        }
    }
    Run { time, sum }
}

fn proved_alone(times: usize, prepared: &Prepared<'_>) -> Run {
    let senders = &prepared.proved;
    let events = &prepared.events;
    alone(times, senders, events, proved_call, Proved::take_back)
}

fn independent_alone(times: usize, prepared: &Prepared<'_>) -> Run {
    let senders = &prepared.independent;
    let events = &prepared.events;
    alone(times, senders, events, independent_call, Sender::clone_from)
}

fn calls_alone(level: usize, what: &str, name: &str, prepared: &Prepared<'_>) {
    let calls = prepared.events.len();
    say!("SENDING: {what} alone, level {level}, {calls} senders {TIMES} times\n");
    contest(
        calls * TIMES,
        "call",
        (name, &|| proved_alone(TIMES, prepared)),
        ("independent Rust", &|| independent_alone(TIMES, prepared)),
    );
}

/// A typed line with clock calls at its pace. Where these are frequent and the
/// rate is the highest, also the calls of each kind alone.
pub fn times(line: &Line<'_>) {
    let Line { level, rate, .. } = *line;
    let pace = line.schedule.pace;
    let [offers, sent, quiet] = prepare(line);
    say!(
        "SENDING: a typed line, level {level}, buffering 300 ms, rate {rate}, a clock call every\n\
         {pace} ms: {} offers, {} clock calls that send, {} quiet ones\n",
        offers.count,
        sent.count,
        quiet.count
    );
    contest(
        sent.count + quiet.count,
        "clock call, offers included",
        ("stewpigeon, proved", &|| timed(proved, line)),
        ("independent Rust", &|| timed(independent, line)),
    );
    if pace == Schedule::OFTEN && rate == lent::Settings::HIGHEST_RATE {
        let [offer, clock] =
            ["offer", "clock"].map(|call| format!("stewpigeon_sender_{call}_in, proved"));
        calls_alone(level, "sending clock calls", &clock, &sent);
        calls_alone(level, "quiet clock calls", &clock, &quiet);
        calls_alone(level, "offers", &offer, &offers);
    }
}

/// Calls of one kind, so many times over by both programs, for whoever counts
/// their instructions. Answers how many calls each has made in a turn; none
/// where there is no such kind.
pub fn repeated(kind: &str, line: &Line<'_>, times: usize) -> Option<usize> {
    let [offers, sent, quiet] = prepare(line);
    let prepared = match kind {
        "offers" => offers,
        "sending" => sent,
        "quiet" => quiet,
        _ => return None,
    };
    let [ours, theirs] = [proved_alone, independent_alone].map(|run| run(times, &prepared).sum);
    assert_eq!(ours, theirs, "the answers differ");
    Some(prepared.events.len())
}

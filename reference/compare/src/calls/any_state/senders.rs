//! Offers and clock calls on senders of any values.

use super::super::held::{Held, Meaning, KEPT, ROOM, SLOTS};
use super::super::log::{limit, times, Log};
use super::super::senders::{clocked, offered};
use super::super::tally::{Answer, Call, Tally};
use super::super::{library, sender_rules as rules};
use super::{log, sender};
use crate::check::hex;
use crate::patterns::Lent;
use crate::random::Random;
use independent::sender::LONGEST_PACKET;
use stewpigeon::lent;

/// A clock at, after or before the latest.
fn clock(random: &mut Random, sender: &lent::Sender) -> u64 {
    let any = random.number();
    let later = random.pick(&[0, 1, 300, 500, 10_000, 10_001, 16_383, 16_384, any]);
    match random.below(10) {
        0 => sender.clock.saturating_sub(1),
        _ => sender.clock.saturating_add(later),
    }
}

/// What a difference shows of the senders.
fn states(before: &Held, library: &Held, wanted: &Held, meant: &Meaning) -> String {
    format!(
        "before:  {:?}\n{}\nlibrary: {:?}\n{}\ndue:     {:?}\n{}\nto mean {meant:?}",
        before.record,
        hex(&before.texts),
        library.record,
        hex(&library.texts),
        wanted.record,
        hex(&wanted.texts)
    )
}

/// The sender afterwards is the one due, and it means what the rules say.
fn as_due(library: &Held, wanted: &Held, meant: &Meaning) -> bool {
    library.counted() == wanted.counted() && Meaning::of(library) == *meant
}

/// A call was done on this record, which may be such as no call leaves.
fn meet(record: &lent::Sender, done: bool, tally: &mut Tally) {
    let count = record.count.min(KEPT);
    let long = record.lens[..count].iter().any(|len| *len > ROOM);
    for (what, met) in [
        (
            "calls done in any state: a room past the last slot",
            record.room >= SLOTS,
        ),
        ("calls done in any state: a block's length above 160", long),
        (
            "calls done in any state: a count above the most blocks",
            record.count > KEPT,
        ),
        (
            "calls done in any state: characters above 160",
            record.characters > ROOM,
        ),
    ] {
        tally.meet(what, done && met);
    }
}

/// An offer to this sender, made twice.
pub fn offer_to(
    random: &mut Random,
    before: &Held,
    clock: u64,
    text: &[u8],
    tally: &mut Tally,
) -> Result<Answer, String> {
    let [mut library, mut again] = [*before; 2];
    let number = library::offer(random, &mut library, clock, text);
    let repeated = library::offer(random, &mut again, clock, text);
    let mut meant = Meaning::of(before);
    let due = rules::offer(&mut meant, clock, text);
    let wanted = match (due, std::str::from_utf8(text)) {
        (0, Ok(letters)) => before.offered(clock, text, letters.chars().count()),
        _ => *before,
    };
    if (number, repeated) != (Ok(due), Ok(due))
        || library != again
        || !as_due(&library, &wanted, &meant)
    {
        return Err(format!(
            "an offer at {clock} of {}\nlibrary: {number:?} and {repeated:?}, rules: {due}\n{}",
            hex(text),
            states(before, &library, &wanted, &meant)
        ));
    }
    let answer = offered(due);
    tally.add(Call::Offer, answer);
    tally.flag(Call::Offer, "sent", answer, before.record.progress.sent);
    tally.meet("offers to senders in any state taken", due == 0);
    meet(&before.record, due == 0, tally);
    Ok(answer)
}

pub fn offer(random: &mut Random, tally: &mut Tally) -> Result<(), String> {
    let before = sender(random);
    let clock = clock(random, &before.record);
    let length = random.pick(&[0, 1, 5, 159, 160, 161, 400]);
    let mut text = random.text(length);
    if random.once_in(10) {
        text.push(0xff);
    }
    offer_to(random, &before, clock, &text, tally).map(|_| ())
}

/// What clock calls were met on this record, which may be such as no call
/// leaves: so many bytes of what waits were taken.
fn meet_packet(record: &lent::Sender, taken: usize, tally: &mut Tally) {
    let slots = limit(record);
    for (what, met) in [
        (
            "packets sent in any state: a slot past the last",
            record.pace.next >= slots,
        ),
        (
            "packets sent in any state: more slots than there are",
            record.pace.used > slots,
        ),
        (
            "packets sent in any state: a part of what waits",
            0 < taken && taken < record.len.min(ROOM),
        ),
    ] {
        tally.meet(what, met);
    }
}

/// A clock call on this sender and log with so much space, made twice.
pub fn clock_call_on(
    random: &mut Random,
    before: &Held,
    log: &lent::Log,
    clock: u64,
    space: usize,
    tally: &mut Tally,
) -> Result<Answer, String> {
    let mut ours = Lent::any(random, space);
    let [mut theirs, mut once_more] = [ours.clone(), ours.clone()];
    let [mut library, mut again] = [*before; 2];
    let mut logs = [(); 2].map(|()| Log::new(random, log));
    let answer = library::clock(random, &mut library, &mut logs[0], clock, &mut ours);
    let repeated = library::clock(random, &mut again, &mut logs[1], clock, &mut once_more);
    let mut meant = Meaning::of(before);
    let mut meant_times = times(&before.record, log);
    let waited = (meant.waiting.len(), meant.characters);
    let due = rules::clock(&mut meant, &mut meant_times, clock, theirs.bytes_mut());
    let taken = waited.0 - meant.waiting.len();
    let characters = waited.1 - meant.characters;
    let wanted = match due {
        1.. => before.sent(clock, taken, characters),
        0 => before.at(clock),
        _ => *before,
    };
    for log in &mut logs {
        log.spend(&before.record, clock, characters);
    }
    if (answer, repeated) != (Ok(due), Ok(due))
        || library != again
        || !as_due(&library, &wanted, &meant)
        || !logs.iter().all(Log::is_due)
        || times(&library.record, logs[0].lent.record()) != meant_times
        || ours != theirs
        || once_more != theirs
    {
        return Err(format!(
            "a clock call at {clock} with {space} bytes\n\
             library: {answer:?} and {repeated:?} {}\nrules:   {due} {}\n\
             log: {}\nbefore: {log:?}\n{}",
            hex(ours.bytes()),
            hex(theirs.bytes()),
            logs[0].difference(),
            states(before, &library, &wanted, &meant)
        ));
    }
    let answer = clocked(due);
    tally.add(Call::Clock, answer);
    tally.flag(Call::Clock, "sent", answer, before.record.progress.sent);
    tally.meet("packets sent by senders in any state", due > 0);
    meet(&before.record, due > 0, tally);
    if due > 0 {
        meet_packet(&before.record, taken, tally);
    }
    Ok(answer)
}

pub fn clock_call(random: &mut Random, tally: &mut Tally) -> Result<(), String> {
    let before = sender(random);
    let log = log(random, before.record.clock);
    let clock = clock(random, &before.record);
    let mut times = times(&before.record, &log);
    let mut space = [0; LONGEST_PACKET];
    let due = rules::clock(&mut Meaning::of(&before), &mut times, clock, &mut space);
    let length = due.max(0) as usize;
    let far = random.below(length.max(1));
    let space = random.pick(&[length, length, length.saturating_sub(1), far, length + 9]);
    clock_call_on(random, &before, &log, clock, space, tally).map(|_| ())
}

//! A sender of the library beside an independent one.

mod met;

use std::iter::repeat_n;

use super::expected::{library_settings, meaning, record};
use super::held::{Held, Meaning, ROOM, SLOTS};
use super::log::Log;
use super::space::Space;
use super::tally::{Answer, Call, Tally};
use super::{any_state, library};
use crate::check::hex;
use crate::patterns::Lent;
use crate::random::Random;
use independent::sender::{Clocked, Sender, Settings, LONGEST_PACKET};
use stewpigeon::lent::Texts;

pub struct Pair {
    library: Held,
    log: Log,
    independent: Sender,
    /// How many packets they sent.
    packets: usize,
    /// When each character was sent, by the independent one.
    times: Vec<u64>,
    /// What the library's texts must be.
    texts: Texts,
}

impl Pair {
    /// Opens both; where they refuse, both are all zeros.
    pub fn open(
        random: &mut Random,
        settings: &Settings,
        tally: &mut Tally,
    ) -> Result<Pair, String> {
        let call = || format!("opening a sender, {settings:?}");
        let log = Log::any(random);
        let (number, library) = library::sender_open(random, library_settings(settings))
            .map_err(|what| format!("{}: {what}", call()))?;
        let opened = Sender::open(*settings);
        let wanted = *opened.as_ref().err().unwrap_or(&0);
        let mut pair = Pair {
            library,
            log,
            independent: opened.unwrap_or_else(|_| Sender::zero()),
            packets: 0,
            times: vec![],
            texts: Held::ZERO.texts,
        };
        let refused = number != 0;
        if number != wanted || !pair.same() || refused && library != Held::ZERO {
            return Err(format!(
                "{}: {number}, {wanted} is due\n{}",
                call(),
                pair.states()
            ));
        }
        tally.add(Call::SenderOpen, Answer::opened(number));
        met::opening(settings, number, tally);
        // What lies in the texts and is no text of the sender does not count,
        // and stays.
        if !refused && random.once_in(2) {
            pair.texts = any_state::texts(random);
            pair.library.texts = pair.texts;
        }
        Ok(pair)
    }

    /// The text that waits.
    pub fn waiting(&self) -> &[u8] {
        self.independent.waiting().text()
    }

    /// The buffering time is over at this clock.
    pub fn rested(&self, clock: u64) -> bool {
        let buffering = self.independent.settings().buffering;
        let last = self.independent.last_packet();
        last.is_none_or(|last| clock - last >= buffering)
    }

    /// The library's record and texts.
    pub fn held(&self) -> Held {
        self.library
    }

    /// The slot in which text waits: each packet leaves its own.
    fn room(&self) -> usize {
        self.packets % SLOTS
    }

    /// What the library's record and texts must be.
    fn wanted(&self) -> Held {
        Held {
            record: record(&self.independent, self.room(), self.times.len()),
            texts: self.texts,
        }
    }

    /// The states are the same, field by field, byte by byte and in what they
    /// mean.
    fn same(&self) -> bool {
        self.library == self.wanted() && Meaning::of(&self.library) == meaning(&self.independent)
    }

    fn states(&self) -> String {
        let [held, wanted] = [self.held(), self.wanted()];
        format!(
            "library:     {:?}\n{}\nto mean      {:?}\n\
             independent: {:?}\n{}\nto mean      {:?}",
            held.record,
            hex(&held.texts),
            Meaning::of(&held),
            wanted.record,
            hex(&wanted.texts),
            meaning(&self.independent)
        )
    }

    /// Offers text to both and gives their number.
    pub fn offer(
        &mut self,
        random: &mut Random,
        clock: u64,
        text: &[u8],
        tally: &mut Tally,
    ) -> Result<u8, String> {
        let number = library::offer(random, &mut self.library, clock, text);
        let place = self.room() * ROOM + self.waiting().len();
        let wanted = self.independent.offer(clock, text).err().unwrap_or(0);
        if wanted == 0 {
            self.texts[place..][..text.len()].copy_from_slice(text);
        }
        let what = match number {
            Err(what) => what,
            Ok(number) if number != wanted => "the answers differ",
            Ok(_) if !self.same() => "the senders differ afterwards",
            Ok(number) => {
                tally.meet("offers that fill the waiting room", {
                    number == 0 && self.waiting().len() == ROOM
                });
                tally.add(Call::Offer, offered(number));
                return Ok(number);
            }
        };
        Err(format!(
            "an offer at {clock}: {what}\ntext ({} bytes): {}\n\
             library: {number:?}, independent: {wanted}\nafterwards\n{}",
            text.len(),
            hex(text),
            self.states()
        ))
    }

    /// A clock call on both: the packet written, if one was; or the refusal's
    /// number.
    pub fn clock(
        &mut self,
        random: &mut Random,
        clock: u64,
        space: Space,
        tally: &mut Tally,
    ) -> Result<Result<Option<Vec<u8>>, u8>, String> {
        let due = self.independent.length_due(clock);
        let length = match due {
            Some(length) => space.length(random, length),
            None => random.pick(&[0, 1, 12, 59, LONGEST_PACKET]),
        };
        let mut ours = Lent::any(random, length);
        let mut theirs = ours.clone();
        let answer = library::clock(random, &mut self.library, &mut self.log, clock, &mut ours);
        let clocked = self.independent.clock(clock, theirs.bytes_mut());
        let wanted = match clocked {
            Clocked::Refused(number) => -i64::from(number),
            Clocked::Quiet => 0,
            Clocked::Sent(length) => {
                self.sent(clock);
                length as i64
            }
        };
        let what = match answer {
            Err(what) => what,
            Ok(answer) if answer != wanted => "the answers differ",
            Ok(_) if ours != theirs => "the lent bytes, or those around them, differ",
            Ok(_) if !self.same() => "the senders differ afterwards",
            Ok(1..) if !self.same_times() => "the log does not hold the times, or more changed",
            Ok(answer) => {
                tally.meet(space.name(), due.is_some());
                self.met(clock, answer, tally);
                return Ok(match clocked {
                    Clocked::Refused(number) => {
                        met::short(length, due, tally);
                        Err(number)
                    }
                    Clocked::Quiet => Ok(None),
                    Clocked::Sent(length) => {
                        let packet = ours.bytes()[..length].to_vec();
                        met::packet(self.independent.settings(), &packet, tally);
                        Ok(Some(packet))
                    }
                });
            }
        };
        Err(format!(
            "a clock call at {clock} with {length} bytes: {what}\n\
             library:     {answer:?} {}\nindependent: {wanted} {}\nlog: {}\nafterwards\n{}",
            hex(ours.bytes()),
            hex(theirs.bytes()),
            self.log.difference(),
            self.states()
        ))
    }

    /// The independent sender has sent a packet. What it has left behind lies
    /// at the front of the next slot.
    fn sent(&mut self, clock: u64) {
        self.packets += 1;
        let place = self.room() * ROOM;
        let rest = self.independent.waiting().text();
        self.texts[place..][..rest.len()].copy_from_slice(rest);
        let characters = self.characters(clock);
        self.times.extend(repeat_n(clock, characters));
    }

    /// How many characters of new text were sent at this clock.
    fn characters(&self, clock: u64) -> usize {
        match self.independent.spent().last() {
            Some((at, characters)) if at == clock => characters,
            _ => 0,
        }
    }

    /// Behind a packet the library's log holds the times of the last
    /// characters, and else what it held.
    fn same_times(&mut self) -> bool {
        self.log.hold(&self.library.record, &self.times);
        self.log.is_due()
    }

    fn met(&self, clock: u64, answer: i64, tally: &mut Tally) {
        tally.add(Call::Clock, clocked(answer));
        let sent = answer > 0;
        let last = clock > u64::MAX - 20_000;
        tally.meet("packets sent in the clock's last 20 s", sent && last);
        tally.meet("packets sent with number 65,535", {
            sent && self.independent.sequence() == 0
        });
        tally.meet("packets sent from the last slot", {
            sent && self.room() == 0
        });
        let next = self.library.record.pace.next;
        tally.meet("packets whose times pass the end of the log's circle", {
            sent && 0 < next && next < self.characters(clock)
        });
    }
}

/// The kind of an offer's answer.
pub fn offered(number: u8) -> Answer {
    match number {
        0 => Answer::Done("taken"),
        number => Answer::Refused(number),
    }
}

/// The kind of a clock call's answer.
pub fn clocked(answer: i64) -> Answer {
    match answer {
        1.. => Answer::Done("sent"),
        0 => Answer::Done("quiet"),
        refusal => Answer::Refused(refusal.unsigned_abs() as u8),
    }
}

//! The library's calls. What is lent lies among bytes filled anew for each
//! call; what a call must leave is looked at here, byte by byte.

use std::hint::black_box;

use super::answers::Stepped;
use super::held::Held;
use super::log::Log;
use crate::patterns::{filled, guarded, Lent};
use crate::random::Random;
use stewpigeon::lent::{self, Guarded, Receiver, Record, Sender, Settings, Step, Texts};

/// What a call answered; or which bytes changed that must stay.
pub type Answered<T> = Result<T, &'static str>;

fn demand(holds: bool, otherwise: &'static str) -> Answered<()> {
    match holds {
        true => Ok(()),
        false => Err(otherwise),
    }
}

/// Opens a receiver in a record of any values, and gives the number answered.
pub fn open<R: Record>(
    random: &mut Random,
    receiver: &mut R,
    call: impl FnOnce(&mut Guarded<R>) -> u8,
) -> Answered<u8> {
    let mut record = filled(random);
    let before = record.clone();
    let number = call(&mut record);
    *receiver = record.value();
    demand(
        record.around() == before.around(),
        "bytes around the receiver changed",
    )?;
    Ok(number)
}

pub fn receiver_open(
    random: &mut Random,
    receiver: &mut Receiver,
    t140: u8,
    red: u8,
) -> Answered<u8> {
    open(random, receiver, |record| {
        lent::receiver_open(record, t140, red)
    })
}

/// A receiver's record before an accepted call and after it, and the step.
pub struct Accepted<R, S> {
    before: Guarded<R>,
    after: Guarded<R>,
    pub step: S,
}

/// Lends a receiver's record, packets and a step to a call: what it accepted,
/// or the refusal's number.
pub fn receive<R: Record, S: Record, const N: usize>(
    random: &mut Random,
    receiver: &mut R,
    packets: [&[u8]; N],
    call: impl FnOnce(&mut Guarded<R>, [&[u8]; N], &mut Guarded<S>) -> u8,
) -> Answered<Result<Accepted<R, S>, u8>> {
    let mut record = guarded(random, *receiver);
    let mut step = filled::<S>(random);
    let packets = packets.map(|packet| Lent::new(random, packet));
    let before = (record.clone(), step.clone(), packets.clone());
    let number = call(&mut record, packets.each_ref().map(Lent::bytes), &mut step);
    *receiver = record.value();
    demand(
        *black_box(&packets) == before.2,
        "bytes of a packet or around it changed",
    )?;
    if number != 0 {
        demand(
            record.bytes() == before.0.bytes(),
            "a refusal changed bytes of the receiver",
        )?;
        demand(
            step.bytes() == before.1.bytes(),
            "a refusal changed bytes of the step",
        )?;
        return Ok(Err(number));
    }
    demand(
        record.around() == before.0.around() && step.around() == before.1.around(),
        "bytes around the receiver or the step changed",
    )?;
    Ok(Ok(Accepted {
        before: before.0,
        after: record,
        step: step.value(),
    }))
}

/// A step of the receiver that does not hold.
pub fn step(random: &mut Random, receiver: &mut Receiver, packet: &[u8]) -> Answered<Stepped> {
    let answer = receive(random, receiver, [packet], |receiver, [packet], step| {
        lent::receiver_step(receiver, packet, step)
    })?;
    let Accepted {
        mut before,
        after,
        step,
    } = match answer {
        Ok(accepted) => accepted,
        Err(number) => return Ok(Err(number)),
    };
    if step.course == Step::LATE {
        demand(
            after.bytes() == before.bytes(),
            "a late packet changed bytes of the receiver",
        )?;
    }
    if step.course == Step::JUMP {
        before.set(Receiver {
            has_source: receiver.has_source,
            has_kept: receiver.has_kept,
            kept: receiver.kept,
            ..before.value()
        });
        demand(
            after.bytes() == before.bytes(),
            "a jump wrote more to the receiver than the number kept",
        )?;
    }
    Ok(Ok(step))
}

/// A sender's record and texts, lent apart.
#[derive(Clone)]
struct Lending {
    record: Guarded<Sender>,
    texts: Guarded<Texts>,
}

impl Lending {
    fn new(random: &mut Random, held: &Held) -> Lending {
        Lending {
            record: guarded(random, held.record),
            texts: guarded(random, held.texts),
        }
    }

    fn held(&self) -> Held {
        Held {
            record: self.record.value(),
            texts: self.texts.value(),
        }
    }

    /// Every byte stayed.
    fn is(&self, before: &Lending) -> bool {
        self.record.bytes() == before.record.bytes() && self.texts.bytes() == before.texts.bytes()
    }

    /// Nothing was written outside record and texts.
    fn around(&self, before: &Lending) -> Answered<()> {
        demand(
            self.record.around() == before.record.around()
                && self.texts.around() == before.texts.around(),
            "bytes around record or texts changed",
        )
    }
}

pub fn sender_open(random: &mut Random, settings: Settings) -> Answered<(u8, Held)> {
    let mut sender = Lending {
        record: filled(random),
        texts: filled(random),
    };
    let before = sender.clone();
    let number = lent::sender_open(&mut sender.record, &mut sender.texts, settings);
    sender.around(&before)?;
    Ok((number, sender.held()))
}

pub fn offer(random: &mut Random, held: &mut Held, clock: u64, text: &[u8]) -> Answered<u8> {
    let mut sender = Lending::new(random, held);
    let text = Lent::new(random, text);
    let before = (sender.clone(), text.clone());
    let number = lent::sender_offer(&mut sender.record, &mut sender.texts, clock, text.bytes());
    *held = sender.held();
    demand(
        *black_box(&text) == before.1,
        "bytes of the text or around it changed",
    )?;
    demand(
        number == 0 || sender.is(&before.0),
        "a refusal changed bytes of record or texts",
    )?;
    sender.around(&before.0)?;
    Ok(number)
}

/// A clock call. What a packet must have written to the log is looked at by
/// the caller.
pub fn clock(
    random: &mut Random,
    held: &mut Held,
    log: &mut Log,
    clock: u64,
    space: &mut Lent,
) -> Answered<i64> {
    let mut sender = Lending::new(random, held);
    let mut before = (sender.clone(), space.clone());
    let answer = lent::sender_clock(
        &mut sender.record,
        &mut sender.texts,
        &mut log.lent,
        clock,
        space.bytes_mut(),
    );
    *held = sender.held();
    sender.around(&before.0)?;
    if answer > 0 {
        return Ok(answer);
    }
    demand(
        *space == before.1,
        "bytes of the space changed without a packet",
    )?;
    demand(
        log.is_due(),
        "bytes of the log or around it changed without a packet",
    )?;
    if answer < 0 {
        demand(
            sender.is(&before.0),
            "a refusal changed bytes of record or texts",
        )?;
        return Ok(answer);
    }
    let record = before.0.record.value();
    before.0.record.set(Sender { clock, ..record });
    demand(
        sender.is(&before.0),
        "a quiet call wrote more than the clock",
    )?;
    Ok(answer)
}

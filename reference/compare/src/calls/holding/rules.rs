//! The rules of the calls on any receiver that holds, also on such as no call
//! leaves: in a flag 0 is false and all else true, a time that has not come
//! yet is no time ago, and a packet goes by its distance alone.

use super::super::answers;
use super::super::receiver_rules::{
    clear, course, distance, give_forward, give_whole, keep, read_by, types_bad,
};
use super::call::{Call, Stepped};
use independent::Packet;
use stewpigeon::lent::{HoldingReceiver, HoldingStep, Step};

const HELD: u8 = HoldingStep::HELD;
const NEITHER: u8 = HoldingStep::NEITHER;
const NEW: u8 = HoldingStep::NEW;

/// The checks of both calls: the packet held, if one is.
fn lent<'a>(receiver: &HoldingReceiver, call: &Call<'a>) -> Result<Option<Packet<'a>>, u8> {
    if types_bad(receiver.receiver.t140, receiver.receiver.red) {
        return Err(3);
    }
    if call.clock < receiver.clock {
        return Err(5);
    }
    if receiver.has_held == 0 {
        return Ok(None);
    }
    let held = read_by(&receiver.receiver, call.held).map_err(|_| 27)?;
    match held.sequence == receiver.held {
        true => Ok(Some(held)),
        false => Err(27),
    }
}

/// An accepted call writes the whole record: the clock, flags as 0 or 1, and
/// zeros where no packet is held. What else stands behind a flag of 0 stays.
fn accept(receiver: &mut HoldingReceiver, clock: u64) {
    receiver.clock = clock;
    let plain = &mut receiver.receiver;
    for flag in [
        &mut plain.has_source,
        &mut plain.has_kept,
        &mut receiver.has_held,
    ] {
        *flag = u8::from(*flag != 0);
    }
    if receiver.has_held == 0 {
        release(receiver);
    }
}

fn hold(receiver: &mut HoldingReceiver, packet: &Packet) {
    receiver.has_held = 1;
    receiver.held = packet.sequence;
    receiver.arrival = receiver.clock;
}

fn release(receiver: &mut HoldingReceiver) {
    (receiver.has_held, receiver.held, receiver.arrival) = (0, 0, 0);
}

fn answer(of: u8, keep: u8, step: Step) -> HoldingStep {
    HoldingStep {
        of,
        keep,
        again: 0,
        step,
    }
}

fn nothing(keep: u8, course: u8, distance: usize) -> HoldingStep {
    answer(NEITHER, keep, answers::nothing(course, distance as i16))
}

/// A call; the receiver is then the one due.
pub fn call(receiver: &mut HoldingReceiver, call: &Call) -> Stepped {
    let held = lent(receiver, call)?;
    let packet = match call.packet {
        Some(packet) => Some(read_by(&receiver.receiver, packet)?),
        None => None,
    };
    accept(receiver, call.clock);
    Ok(match packet {
        Some(packet) => step(receiver, held, &packet),
        None => wait(receiver, held),
    })
}

fn step(after: &mut HoldingReceiver, held: Option<Packet>, packet: &Packet) -> HoldingStep {
    let stays = if held.is_some() { HELD } else { NEITHER };
    let receiver = &mut after.receiver;
    if receiver.has_source == 0 {
        clear(receiver);
        return answer(NEW, stays, give_whole(receiver, Step::FORWARD, packet));
    }
    let d = distance(receiver, packet);
    let course = match held {
        Some(held) if held.sequence == packet.sequence => Step::LATE,
        _ => course(receiver, packet),
    };
    match (course, held) {
        (Step::FORWARD, held) => {
            clear(receiver);
            forward(after, held, packet)
        }
        (Step::BREAK, None) => {
            clear(receiver);
            answer(NEW, NEITHER, give_whole(receiver, course, packet))
        }
        (Step::BREAK, Some(held)) => {
            let step = give_forward(receiver, &held);
            release(after);
            HoldingStep {
                again: 1,
                ..answer(HELD, NEITHER, step)
            }
        }
        (Step::JUMP, _) => {
            keep(receiver, packet);
            nothing(stays, course, d)
        }
        _ => nothing(stays, course, d),
    }
}

/// A forward packet.
fn forward(after: &mut HoldingReceiver, held: Option<Packet>, packet: &Packet) -> HoldingStep {
    let receiver = &mut after.receiver;
    let d = distance(receiver, packet);
    match held {
        Some(held) if distance(receiver, &held) < d => {
            let step = give_forward(receiver, &held);
            hold(after, packet);
            answer(HELD, NEW, step)
        }
        Some(_) => answer(NEW, HELD, give_forward(receiver, packet)),
        None if d > packet.older().len() => {
            hold(after, packet);
            nothing(NEW, Step::FORWARD, d)
        }
        None => answer(NEW, NEITHER, give_forward(receiver, packet)),
    }
}

fn wait(after: &mut HoldingReceiver, held: Option<Packet>) -> HoldingStep {
    let Some(held) = held else {
        return nothing(NEITHER, Step::FORWARD, 0);
    };
    let missing = distance(&after.receiver, &held) > held.older().len();
    if missing && after.clock.saturating_sub(after.arrival) < 1_000 {
        return nothing(HELD, Step::FORWARD, 0);
    }
    release(after);
    answer(HELD, NEITHER, give_forward(&mut after.receiver, &held))
}

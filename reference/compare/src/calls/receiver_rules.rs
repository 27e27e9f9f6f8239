//! The rules of a step on any receiver, also on such as no call leaves: in a
//! flag 0 is false and all else true.

use super::answers::{nothing, Stepped};
use independent::{read, Packet};
use stewpigeon::lent::{Receiver, Step};

/// Payload types that no receiver and no sender is opened with.
pub fn types_bad(t140: u8, red: u8) -> bool {
    let good = 96..=127;
    !good.contains(&t140) || !good.contains(&red) || t140 == red
}

/// Reads a packet as the receiver does: without a source it accepts any.
pub fn read_by<'a>(receiver: &Receiver, packet: &'a [u8]) -> Result<Packet<'a>, u8> {
    let source = (receiver.has_source != 0).then_some(receiver.source);
    read(source, receiver.t140, receiver.red, packet)
}

/// The distance of a packet, wrapped.
pub fn distance(receiver: &Receiver, packet: &Packet) -> usize {
    packet.sequence.wrapping_sub(receiver.expected).into()
}

pub fn course(receiver: &Receiver, packet: &Packet) -> u8 {
    let kept = receiver.has_kept != 0 && receiver.kept == packet.sequence;
    match distance(receiver, packet) {
        0..=2_998 => Step::FORWARD,
        65_436.. => Step::LATE,
        _ if kept => Step::BREAK,
        _ => Step::JUMP,
    }
}

/// A jump keeps the number after it.
pub fn keep(receiver: &mut Receiver, packet: &Packet) {
    receiver.has_kept = 1;
    receiver.kept = packet.sequence.wrapping_add(1);
}

/// No number is kept any more.
pub fn clear(receiver: &mut Receiver) {
    (receiver.has_kept, receiver.kept) = (0, 0);
}

/// Hands out the last `wanted` older blocks of a packet and its primary.
fn give(receiver: &mut Receiver, course: u8, d: usize, wanted: usize, packet: &Packet) -> Step {
    receiver.has_source = 1;
    receiver.source = packet.source;
    receiver.expected = packet.sequence.wrapping_add(1);
    let older = packet.older().len();
    let first = packet.older().nth(older - wanted);
    Step {
        course,
        loss: d.saturating_sub(older) as u16,
        distance: d as i16,
        older,
        given: wanted + 1,
        from: first.map_or(packet.start, |first| first.start).into(),
        to: packet.end.into(),
    }
}

/// Hands out all blocks of a packet.
pub fn give_whole(receiver: &mut Receiver, course: u8, packet: &Packet) -> Step {
    give(receiver, course, 0, packet.older().len(), packet)
}

/// Hands out the blocks of a packet that its distance wants.
pub fn give_forward(receiver: &mut Receiver, packet: &Packet) -> Step {
    let d = distance(receiver, packet);
    let wanted = d.min(packet.older().len());
    give(receiver, Step::FORWARD, d, wanted, packet)
}

/// A step; without a source the receiver is fresh, whatever else it holds.
pub fn step(receiver: &mut Receiver, packet: &[u8]) -> Stepped {
    let packet = read_by(receiver, packet)?;
    let fresh = receiver.has_source == 0;
    let course = match fresh {
        true => Step::FORWARD,
        false => course(receiver, &packet),
    };
    let distance = distance(receiver, &packet) as i16;
    Ok(match course {
        Step::LATE => nothing(course, distance),
        Step::JUMP => {
            receiver.has_source = 1;
            keep(receiver, &packet);
            nothing(course, distance)
        }
        Step::FORWARD if !fresh => {
            clear(receiver);
            give_forward(receiver, &packet)
        }
        _ => {
            clear(receiver);
            give_whole(receiver, course, &packet)
        }
    })
}

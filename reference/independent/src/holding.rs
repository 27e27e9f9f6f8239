//! The receiver that holds a packet for a while where blocks before it are
//! missing, since they may only be late (RFC 4103, section 5.4).

pub mod cases;

use crate::receiver::{signed, Added, Course, Heard, Receiver};
use crate::{payload_types, refusal, Packet};

/// A packet is held for so many ms where its gap stays open.
pub const HOLD_TIME: u64 = 1_000;

/// The receiver of the packets handed out, and at most one more. The bytes of
/// that one are the caller's, who lends them with every call.
#[derive(Clone, Copy, Debug, PartialEq, Eq)]
pub struct HoldingReceiver {
    receiver: Receiver,
    held: Option<Held>,
    clock: u64,
}

/// The packet that is held.
#[derive(Clone, Copy, Debug, PartialEq, Eq)]
pub struct Held {
    pub number: u16,
    pub arrival: u64,
}

/// One of the two packets of a call.
#[derive(Clone, Copy, Debug, PartialEq, Eq)]
pub enum Which {
    Neither,
    Held,
    New,
}

/// What comes of an accepted call.
#[derive(Clone, Copy, Debug, PartialEq, Eq)]
pub struct Step<'a> {
    /// The packet to keep, and to lend as held with the next call.
    pub keep: Which,
    pub outcome: Outcome<'a>,
}

/// Distances are measured from the number after the newest handed out.
#[derive(Clone, Copy, Debug, PartialEq, Eq)]
pub enum Outcome<'a> {
    /// Nothing is given. The course is the new packet's: forward where it is
    /// held now, and late also where it is a copy of the one held. Without a
    /// new packet it is forward, at distance 0.
    Nothing { course: Course, distance: i32 },
    /// The new packet is given: forward, or as a break.
    New { course: Course, added: Added<'a> },
    /// The one held is given. Where that is before a break, the new packet is
    /// to come again.
    Held { added: Added<'a>, again: bool },
}

impl<'a> Outcome<'a> {
    /// Which packet is given, and what of it.
    #[inline]
    pub fn given(&self) -> Option<(Which, &Added<'a>)> {
        match self {
            Outcome::Nothing { .. } => None,
            Outcome::New { added, .. } => Some((Which::New, added)),
            Outcome::Held { added, .. } => Some((Which::Held, added)),
        }
    }
}

impl<'a> Step<'a> {
    #[inline]
    fn nothing(keep: Which, course: Course, distance: i32) -> Self {
        let outcome = Outcome::Nothing { course, distance };
        Step { keep, outcome }
    }

    #[inline]
    fn new(keep: Which, course: Course, added: Added<'a>) -> Self {
        let outcome = Outcome::New { course, added };
        Step { keep, outcome }
    }

    #[inline]
    fn held(keep: Which, added: Added<'a>, again: bool) -> Self {
        let outcome = Outcome::Held { added, again };
        Step { keep, outcome }
    }
}

impl Heard {
    /// Hands out a packet ahead of the newest. The kept number stays.
    #[inline]
    fn hand_out<'a>(&mut self, packet: Packet<'a>) -> Added<'a> {
        let distance = self.distance(packet.sequence);
        self.newest = packet.sequence;
        Added::ahead(distance, packet)
    }

    /// Whether nothing is missing before the blocks of a packet.
    #[inline]
    fn is_closed(&self, packet: &Packet) -> bool {
        usize::from(self.distance(packet.sequence)) <= packet.older().len()
    }
}

impl HoldingReceiver {
    pub fn open(t140: u8, red: u8) -> Result<Self, u8> {
        let receiver = Receiver::open(t140, red)?;
        Ok(HoldingReceiver {
            receiver,
            ..HoldingReceiver::zero()
        })
    }

    /// What stands beside a refused opening; it answers 3 to every call.
    pub fn zero() -> Self {
        HoldingReceiver {
            receiver: Receiver::zero(),
            held: None,
            clock: 0,
        }
    }

    /// The receiver of the packets handed out.
    #[inline]
    pub fn receiver(&self) -> &Receiver {
        &self.receiver
    }

    #[inline]
    pub fn held(&self) -> Option<Held> {
        self.held
    }

    /// The latest accepted clock.
    #[inline]
    pub fn clock(&self) -> u64 {
        self.clock
    }

    /// What every call checks first: the payload types, the clock, and with a
    /// packet held what is lent as that one.
    #[inline]
    fn check<'a>(&self, clock: u64, held: &'a [u8]) -> Result<Option<Packet<'a>>, u8> {
        payload_types(self.receiver.t140(), self.receiver.red())?;
        if clock < self.clock {
            return Err(refusal::CLOCK);
        }
        let Some(due) = self.held else {
            return Ok(None);
        };
        match self.receiver.read(held) {
            Ok(packet) if packet.sequence == due.number => Ok(Some(packet)),
            _ => Err(refusal::HELD),
        }
    }

    /// Takes the next packet; allocates nothing.
    #[inline]
    pub fn step<'a>(
        &mut self,
        clock: u64,
        held: &'a [u8],
        packet: &'a [u8],
    ) -> Result<Step<'a>, u8> {
        let held = self.check(clock, held)?;
        let packet = self.receiver.read(packet)?;
        self.clock = clock;
        let Some(heard) = &mut self.receiver.heard else {
            self.receiver.heard = Some(Heard::of(&packet));
            let added = Added::whole(packet);
            return Ok(Step::new(Which::Neither, Course::Forward, added));
        };
        let distance = signed(heard.distance(packet.sequence));
        let (stays, copied) = match &held {
            Some(held) => (Which::Held, held.sequence == packet.sequence),
            None => (Which::Neither, false),
        };
        Ok(match (heard.course(packet.sequence), held) {
            _ if copied => Step::nothing(stays, Course::Late, distance),
            (Course::Late, _) => Step::nothing(stays, Course::Late, distance),
            (Course::Jump, _) => {
                heard.kept = Some(packet.sequence.wrapping_add(1));
                Step::nothing(stays, Course::Jump, distance)
            }
            (Course::Break, None) => {
                *heard = Heard::of(&packet);
                Step::new(Which::Neither, Course::Break, Added::whole(packet))
            }
            (Course::Break, Some(held)) => {
                self.held = None;
                Step::held(Which::Neither, heard.hand_out(held), true)
            }
            (Course::Forward, held) => {
                heard.kept = None;
                let step = forward(heard, held, packet);
                if step.keep == Which::New {
                    self.held = Some(Held {
                        number: packet.sequence,
                        arrival: clock,
                    });
                }
                step
            }
        })
    }

    /// A call without a packet: gives the one held if its gap is closed or it
    /// was held for long enough.
    #[inline]
    pub fn wait<'a>(&mut self, clock: u64, held: &'a [u8]) -> Result<Step<'a>, u8> {
        let packet = self.check(clock, held)?;
        self.clock = clock;
        // A packet is only held where another was handed out before.
        let (Some(packet), Some(held), Some(heard)) = (packet, self.held, &mut self.receiver.heard)
        else {
            return Ok(Step::nothing(Which::Neither, Course::Forward, 0));
        };
        if clock - held.arrival < HOLD_TIME && !heard.is_closed(&packet) {
            return Ok(Step::nothing(Which::Held, Course::Forward, 0));
        }
        self.held = None;
        Ok(Step::held(Which::Neither, heard.hand_out(packet), false))
    }
}

/// Hands out the next of a packet ahead of the newest and the one held, if
/// that is to be. Where there is only the one, it waits for those before it.
#[inline]
fn forward<'a>(heard: &mut Heard, held: Option<Packet<'a>>, packet: Packet<'a>) -> Step<'a> {
    let distance = heard.distance(packet.sequence);
    match held {
        None if heard.is_closed(&packet) => {
            Step::new(Which::Neither, Course::Forward, heard.hand_out(packet))
        }
        None => Step::nothing(Which::New, Course::Forward, signed(distance)),
        Some(held) if heard.distance(held.sequence) < distance => {
            Step::held(Which::New, heard.hand_out(held), false)
        }
        Some(_) => Step::new(Which::Held, Course::Forward, heard.hand_out(packet)),
    }
}

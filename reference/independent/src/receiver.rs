//! The receiver: what each packet adds to the record.

use crate::{payload_types, read, Older, Packet};

/// A loss mark as it is written, U+FFFD.
pub const MARK: [u8; 3] = [0xef, 0xbf, 0xbd];

#[derive(Clone, Copy, Debug, PartialEq, Eq)]
pub struct Receiver {
    t140: u8,
    red: u8,
    pub(crate) heard: Option<Heard>,
}

/// What a receiver knows once it has accepted a packet.
#[derive(Clone, Copy, Debug, PartialEq, Eq)]
pub(crate) struct Heard {
    source: u32,
    pub(crate) newest: u16,
    /// The number after the last jump's, until a forward packet or a break.
    pub(crate) kept: Option<u16>,
}

/// How a number stands to the newest.
#[derive(Clone, Copy, Debug, PartialEq, Eq)]
pub enum Course {
    Forward,
    Late,
    Jump,
    Break,
}

impl Heard {
    /// A receiver's knowledge when this packet is the newest.
    #[inline]
    pub(crate) fn of(packet: &Packet) -> Self {
        Heard {
            source: packet.source,
            newest: packet.sequence,
            kept: None,
        }
    }

    /// How far a number is ahead of the next one in order, wrapped.
    #[inline]
    pub(crate) fn distance(&self, number: u16) -> u16 {
        number.wrapping_sub(self.newest).wrapping_sub(1)
    }

    /// The limits of RFC 3550, appendix A.1, are measured from the newest
    /// number, the distance from the next one.
    #[inline]
    pub(crate) fn course(&self, number: u16) -> Course {
        match number.wrapping_sub(self.newest) {
            1..=2_999 => Course::Forward,
            0 | 65_437.. => Course::Late,
            _ if self.kept == Some(number) => Course::Break,
            _ => Course::Jump,
        }
    }
}

/// A wrapped distance with its sign.
#[inline]
pub(crate) fn signed(distance: u16) -> i32 {
    (distance as i16).into()
}

/// What comes of one packet. Distances are measured from the next number in
/// order.
#[derive(Clone, Copy, Debug, PartialEq, Eq)]
pub enum Answer<'a> {
    Refused(u8),
    /// From -100 to -1; -1 is a copy of the newest.
    Late {
        distance: i32,
    },
    /// From 2,999 to 32,767, or from -32,768 to -101.
    Jump {
        distance: i32,
    },
    /// The first accepted packet, or one at a distance from 0 to 2,998.
    Forward(Added<'a>),
    /// The packet after a jump: all its blocks, loss and distance 0.
    Break(Added<'a>),
}

impl<'a> Answer<'a> {
    /// What the packet adds to the record, if it adds something.
    #[inline]
    pub fn added(&self) -> Option<&Added<'a>> {
        match self {
            Answer::Forward(added) | Answer::Break(added) => Some(added),
            Answer::Refused(_) | Answer::Late { .. } | Answer::Jump { .. } => None,
        }
    }
}

/// What a packet adds to the record: its loss in marks, and then the blocks
/// given, the last `wanted` older ones and the primary.
#[derive(Clone, Copy, Debug, PartialEq, Eq)]
pub struct Added<'a> {
    /// How many blocks are missing before those given.
    pub loss: u16,
    pub distance: i32,
    /// How many of the older blocks are given.
    pub wanted: usize,
    pub packet: Packet<'a>,
}

impl<'a> Added<'a> {
    /// All blocks of a packet before which nothing is missed.
    #[inline]
    pub(crate) fn whole(packet: Packet<'a>) -> Self {
        Added {
            loss: 0,
            distance: 0,
            wanted: packet.older().len(),
            packet,
        }
    }

    /// The blocks of a packet whose number is so far above the next in order.
    #[inline]
    pub(crate) fn ahead(distance: u16, packet: Packet<'a>) -> Self {
        let carried = packet.older().len() as u16;
        Added {
            loss: distance.saturating_sub(carried),
            distance: distance.into(),
            wanted: distance.min(carried).into(),
            packet,
        }
    }

    /// How many older blocks the packet holds, wanted or not.
    #[inline]
    pub fn older(&self) -> usize {
        self.packet.older().len()
    }

    /// The older blocks that are given.
    #[inline]
    fn given(&self) -> impl Iterator<Item = Older> + 'a {
        self.packet.older().skip(self.older() - self.wanted)
    }

    /// The blocks given, oldest first.
    pub fn blocks(&self) -> Vec<&'a [u8]> {
        let given = self.given().map(|older| self.packet.block(&older));
        let mut blocks: Vec<_> = given.collect();
        blocks.push(self.packet.primary());
        blocks
    }

    /// Where the blocks given, which lie together, start and end in the
    /// packet.
    #[inline]
    pub fn place(&self) -> (usize, usize) {
        let primary = self.packet.start;
        let start = match self.wanted {
            0 => primary,
            _ => self.given().next().map_or(primary, |oldest| oldest.start),
        };
        (start.into(), self.packet.end.into())
    }

    /// The blocks given, as one part of the packet.
    #[inline]
    pub fn text(&self) -> &'a [u8] {
        let (start, end) = self.place();
        &self.packet.bytes[start..end]
    }
}

impl Receiver {
    pub fn open(t140: u8, red: u8) -> Result<Self, u8> {
        payload_types(t140, red)?;
        Ok(Receiver {
            t140,
            red,
            heard: None,
        })
    }

    /// What stands beside a refused opening; it answers 3 to every packet.
    pub fn zero() -> Self {
        Receiver {
            t140: 0,
            red: 0,
            heard: None,
        }
    }

    /// The payload type of T140 packets.
    #[inline]
    pub fn t140(&self) -> u8 {
        self.t140
    }

    /// The payload type of RED packets.
    #[inline]
    pub fn red(&self) -> u8 {
        self.red
    }

    /// The next number in order; none before the first accepted packet.
    #[inline]
    pub fn expected(&self) -> Option<u16> {
        self.heard.map(|heard| heard.newest.wrapping_add(1))
    }

    /// The source of the first accepted packet.
    #[inline]
    pub fn source(&self) -> Option<u32> {
        self.heard.map(|heard| heard.source)
    }

    /// The number that makes the next jump a break.
    #[inline]
    pub fn kept(&self) -> Option<u16> {
        self.heard.and_then(|heard| heard.kept)
    }

    /// Reads a packet; once a source is known, only its packets are accepted.
    #[inline]
    pub(crate) fn read<'a>(&self, packet: &'a [u8]) -> Result<Packet<'a>, u8> {
        read(self.source(), self.t140, self.red, packet)
    }

    /// Takes the next packet; allocates nothing.
    #[inline]
    pub fn step<'a>(&mut self, packet: &'a [u8]) -> Answer<'a> {
        let packet = match self.read(packet) {
            Ok(packet) => packet,
            Err(number) => return Answer::Refused(number),
        };
        let Some(heard) = &mut self.heard else {
            self.heard = Some(Heard::of(&packet));
            return Answer::Forward(Added::whole(packet));
        };
        let distance = heard.distance(packet.sequence);
        match heard.course(packet.sequence) {
            Course::Forward => {
                *heard = Heard::of(&packet);
                Answer::Forward(Added::ahead(distance, packet))
            }
            Course::Late => Answer::Late {
                distance: signed(distance),
            },
            Course::Break => {
                *heard = Heard::of(&packet);
                Answer::Break(Added::whole(packet))
            }
            Course::Jump => {
                heard.kept = Some(packet.sequence.wrapping_add(1));
                Answer::Jump {
                    distance: signed(distance),
                }
            }
        }
    }
}

/// Fills the space from its start with whole marks, at most `count`, and
/// gives their number.
#[inline]
pub fn write_marks(count: usize, space: &mut [u8]) -> usize {
    let marks = space.chunks_exact_mut(MARK.len()).take(count);
    marks.map(|mark| mark.copy_from_slice(&MARK)).count()
}

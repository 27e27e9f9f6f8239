//! Receiving a line.

use crate::{lent, Refusal};

/// The mark that stands for one lost block, U+FFFD.
pub struct LossMark;

impl LossMark {
    pub const SIZE: usize = 3;
    pub const BYTES: [u8; LossMark::SIZE] = [0xef, 0xbf, 0xbd];
}

/// A receiver of one line. Give it every packet in the order of arrival;
/// what its steps give is the record: as many loss marks as a forward packet's
/// loss, then its text, and a break's text without a mark.
///
/// ```
/// use stewpigeon::{write_marks, LossMark, Receiver, Refusal, Step};
///
/// fn record(receiver: &mut Receiver, packet: &[u8], out: &mut Vec<u8>) -> Result<(), Refusal> {
///     let (loss, text) = match receiver.step(packet)? {
///         Step::Forward { loss, text, .. } => (loss, text),
///         Step::Break { text, .. } => (0, text),
///         Step::Late { .. } | Step::Jump { .. } => return Ok(()), // nothing new
///     };
///     let mut marks = [0; 20 * LossMark::SIZE];
///     let mut left = usize::from(loss);
///     while left > 0 {
///         let written = write_marks(left, &mut marks);
///         out.extend(&marks[..written * LossMark::SIZE]);
///         left -= written;
///     }
///     out.extend(text);
///     Ok(())
/// }
///
/// let packet = |number: u16, letter| {
///     let [high, low] = number.to_be_bytes();
///     [0x80, 98, high, low, 0, 0, 0, 0, 0, 0, 0, 7, letter]
/// };
/// let mut receiver = Receiver::open(98, 100)?;
/// let mut out = vec![];
/// record(&mut receiver, &packet(1, b'A'), &mut out)?;
/// record(&mut receiver, &packet(4, b'D'), &mut out)?;
/// record(&mut receiver, &packet(2, b'B'), &mut out)?;
/// assert_eq!(out, "A\u{fffd}\u{fffd}D".as_bytes());
/// assert_eq!(record(&mut receiver, &[], &mut out), Err(Refusal::Short));
///
/// // The sender begins anew.
/// record(&mut receiver, &packet(9000, b'Y'), &mut out)?;
/// record(&mut receiver, &packet(9001, b'Z'), &mut out)?;
/// assert_eq!(out, "A\u{fffd}\u{fffd}DZ".as_bytes());
/// # Ok::<(), Refusal>(())
/// ```
#[derive(Clone, Debug, PartialEq, Eq)]
pub struct Receiver(lent::Receiver);

/// What an accepted packet gives, by how far its number is from the newest one.
#[derive(Clone, Copy, Debug, PartialEq, Eq)]
pub enum Step<'a> {
    /// It is the first packet or has one of the next 2,999 numbers, and is the
    /// newest one now.
    Forward {
        /// How many blocks are missing before those given.
        loss: u16,
        /// From 0, the next packet in order, to 2,998.
        distance: i16,
        /// How many older blocks the packet has.
        older: usize,
        /// How many of its blocks are given: the last ones, with the primary.
        given: usize,
        /// These blocks joined: UTF-8, and a part of the packet itself.
        text: &'a [u8],
    },
    /// It has one of the last 100 numbers, the newest among them, and gives
    /// nothing.
    Late {
        /// From -100 to -1; -1 is a copy of the newest.
        distance: i16,
    },
    /// It has any other number and gives nothing: a stray packet, or the first
    /// one of a sender that began anew, as the next one then shows.
    Jump {
        /// From 2,999 to 32,767, or from -32,768 to -101.
        distance: i16,
    },
    /// It would be a jump, but has the number after the last jump's: the sender
    /// began anew, and the record goes on with all blocks of this packet, whose
    /// repeats hold the jump's text too. What was lost before them cannot be
    /// told, and no mark stands for it. Late and refused packets between the
    /// two change nothing; after a forward one it is a jump.
    Break {
        /// How many older blocks the packet has.
        older: usize,
        /// How many of its blocks are given: all, with the primary.
        given: usize,
        /// These blocks joined: UTF-8, and a part of the packet itself.
        text: &'a [u8],
    },
}

impl Receiver {
    /// A receiver of packets with these payload types, each 96 to 127.
    pub fn open(t140: u8, red: u8) -> Result<Receiver, Refusal> {
        let mut receiver = lent::Receiver::ZERO;
        Refusal::check(lent::receiver_open(&mut receiver, t140, red))?;
        Ok(Receiver(receiver))
    }

    /// Takes the next packet that arrived.
    #[inline]
    pub fn step<'a>(&mut self, packet: &'a [u8]) -> Result<Step<'a>, Refusal> {
        let mut step = lent::Step::ZERO;
        Refusal::check(lent::receiver_step(&mut self.0, packet, &mut step))?;
        let distance = step.distance;
        let (older, given) = (step.older, step.given);
        let text = &packet[step.from..step.to];
        Ok(match step.course {
            lent::Step::LATE => Step::Late { distance },
            lent::Step::JUMP => Step::Jump { distance },
            lent::Step::BREAK => Step::Break { older, given, text },
            _ => Step::Forward {
                loss: step.loss,
                distance,
                older,
                given,
                text,
            },
        })
    }

    /// The source of the first accepted packet.
    pub fn source(&self) -> Option<u32> {
        self.0.source()
    }

    /// The sequence number after the newest one.
    pub fn expected(&self) -> Option<u16> {
        self.0.expected()
    }

    /// The sequence number after the last jump's, with no forward packet since:
    /// a break has it.
    pub fn kept(&self) -> Option<u16> {
        self.0.kept()
    }
}

/// Fills the space from its start with whole loss marks, at most `count`, and
/// gives their number. Other bytes stay.
///
/// ```
/// let mut space = [b'.'; 8];
/// assert_eq!(stewpigeon::write_marks(5, &mut space), 2);
/// assert_eq!(space, *"\u{fffd}\u{fffd}..".as_bytes());
/// ```
#[inline]
pub fn write_marks(count: usize, space: &mut [u8]) -> usize {
    lent::write_marks(count, space)
}

//! Receiving a line whose packets change places on their way.

use crate::{lent, Refusal};

/// A receiver of one line that holds: where a packet would cause loss, it
/// waits up to 1,000 ms for those that are late. The caller owns the held
/// packet's bytes, and lends them with each call.
///
/// Lend as `held` the packet that the last accepted call said to keep; where
/// it was neither, anything. For each packet: give it with [`step`], and the
/// same one again while [`again`] is said; then call [`wait`] at the same clock
/// until nothing is given. Call [`wait`] too when the held packet's 1,000 ms
/// are over, also behind the last packet: what is still held is not in the
/// record. Clocks are in ms and never go back.
///
/// [`step`]: HoldingReceiver::step
/// [`again`]: HoldingStep::again
/// [`wait`]: HoldingReceiver::wait
///
/// ```
/// use stewpigeon::{HoldingReceiver, HoldingStep, LossMark, Refusal, Which};
///
/// struct Line {
///     receiver: HoldingReceiver,
///     held: Vec<u8>,
///     record: Vec<u8>,
/// }
///
/// impl Line {
///     /// Takes a packet that arrived. A refused one is dropped; the held one
///     /// stays.
///     fn take(&mut self, clock: u64, packet: &[u8]) -> Result<(), Refusal> {
///         let mut again = true;
///         while again {
///             let step = self.receiver.step(clock, &self.held, packet)?;
///             write(&mut self.record, step);
///             again = step.again();
///             if step.keep() == Which::New {
///                 self.held = packet.to_vec();
///             }
///         }
///         self.wait(clock)
///     }
///
///     /// Tells the clock.
///     fn wait(&mut self, clock: u64) -> Result<(), Refusal> {
///         while write(&mut self.record, self.receiver.wait(clock, &self.held)?) {}
///         Ok(())
///     }
/// }
///
/// /// Writes what is given, if anything is.
/// fn write(record: &mut Vec<u8>, step: HoldingStep) -> bool {
///     let (loss, text) = match step {
///         HoldingStep::Forward { loss, text, .. } => (loss, text),
///         HoldingStep::Break { text, .. } => (0, text),
///         HoldingStep::Waits { .. } | HoldingStep::Late { .. } | HoldingStep::Jump { .. } => {
///             return false;
///         }
///     };
///     record.extend(LossMark::BYTES.repeat(loss.into()));
///     record.extend(text);
///     true
/// }
///
/// let packet = |number: u16, letter| {
///     let [high, low] = number.to_be_bytes();
///     [0x80, 98, high, low, 0, 0, 0, 0, 0, 0, 0, 7, letter]
/// };
/// let mut line = Line {
///     receiver: HoldingReceiver::open(98, 100)?,
///     held: vec![],
///     record: vec![],
/// };
/// line.take(0, &packet(1, b'A'))?;
/// line.take(300, &packet(3, b'C'))?;
/// assert_eq!(line.record, b"A");
/// line.take(320, &packet(2, b'B'))?;
/// assert_eq!(line.record, b"ABC");
///
/// // 4 is lost: 5 waits for it until 1,600.
/// line.take(600, &packet(5, b'E'))?;
/// line.wait(1_599)?;
/// assert_eq!(line.record, b"ABC");
/// line.wait(1_600)?;
/// assert_eq!(line.record, "ABC\u{fffd}E".as_bytes());
/// # Ok::<(), Refusal>(())
/// ```
#[derive(Clone, Debug, PartialEq, Eq)]
pub struct HoldingReceiver(lent::HoldingReceiver);

/// Which of the two packets that a call is lent.
#[derive(Clone, Copy, Debug, PartialEq, Eq)]
pub enum Which {
    Neither,
    /// The one lent as held.
    Held,
    /// The one that arrived.
    New,
}

/// What an accepted call gives: at most one text, of one packet. Numbers are
/// judged by the newest packet handed out, with the limits of [`crate::Step`].
#[derive(Clone, Copy, Debug, PartialEq, Eq)]
pub enum HoldingStep<'a> {
    /// A packet is given, and is the newest one handed out now.
    Forward {
        /// Whose text it is: the held packet's or the new one's.
        of: Which,
        /// Which packet to keep, and to lend as held with the next call.
        keep: Which,
        /// Whether the same packet is to be given again: it is a break, and the
        /// held one went out before it.
        again: bool,
        /// How many blocks are missing before those given.
        loss: u16,
        /// The given packet's: from 0, the next packet in order, to 2,998.
        distance: i16,
        /// How many older blocks it has.
        older: usize,
        /// How many of its blocks are given: the last ones, with the primary.
        given: usize,
        /// These blocks joined: UTF-8, and a part of the packet itself.
        text: &'a [u8],
    },
    /// The sender began anew, and the record goes on with all blocks of the new
    /// packet, as by [`crate::Step::Break`]. No packet is held.
    Break {
        /// How many older blocks the packet has.
        older: usize,
        /// How many of its blocks are given: all, with the primary.
        given: usize,
        /// These blocks joined: UTF-8, and a part of the packet itself.
        text: &'a [u8],
    },
    /// Nothing is given: the new packet is held, or there was none and what is
    /// held waits on.
    Waits {
        /// The new packet's, from 1 to 2,998; 0 without one.
        distance: i16,
        /// Which packet to keep.
        keep: Which,
    },
    /// The new packet came too late or again, and gives nothing.
    Late {
        /// From -100 to -1; or 0 and above, where it has the held one's number.
        distance: i16,
        /// Which packet to keep: the held one, if there is one.
        keep: Which,
    },
    /// The new packet is far off and gives nothing, as by
    /// [`crate::Step::Jump`].
    Jump {
        /// From 2,999 to 32,767, or from -32,768 to -101.
        distance: i16,
        /// Which packet to keep: the held one, if there is one.
        keep: Which,
    },
}

impl HoldingReceiver {
    /// How long in ms a packet is held at most.
    pub const LONGEST_HOLD: u64 = 1_000;

    /// A receiver of packets with these payload types, each 96 to 127.
    pub fn open(t140: u8, red: u8) -> Result<HoldingReceiver, Refusal> {
        let mut receiver = lent::HoldingReceiver::ZERO;
        Refusal::check(lent::holding_receiver_open(&mut receiver, t140, red))?;
        Ok(HoldingReceiver(receiver))
    }

    /// Takes the next packet that arrived. Where none is held it is held if it
    /// would cause loss, and given if not. Where one is, the nearer of the two
    /// is given, with its loss, and the other is kept. A refused packet leaves
    /// the held one, and the clock.
    #[inline]
    pub fn step<'a>(
        &mut self,
        clock: u64,
        held: &'a [u8],
        packet: &'a [u8],
    ) -> Result<HoldingStep<'a>, Refusal> {
        let mut step = lent::HoldingStep::ZERO;
        let number = lent::holding_receiver_step(&mut self.0, clock, held, packet, &mut step);
        Refusal::check(number).map(|()| HoldingStep::new(&step, held, packet))
    }

    /// Gives the held packet if it causes no loss any more, or if 1,000 ms have
    /// passed since it arrived.
    #[inline]
    pub fn wait<'a>(&mut self, clock: u64, held: &'a [u8]) -> Result<HoldingStep<'a>, Refusal> {
        let mut step = lent::HoldingStep::ZERO;
        let number = lent::holding_receiver_wait(&mut self.0, clock, held, &mut step);
        Refusal::check(number).map(|()| HoldingStep::new(&step, held, &[]))
    }

    /// The source of the first accepted packet.
    pub fn source(&self) -> Option<u32> {
        self.0.receiver.source()
    }

    /// The sequence number after the newest one handed out.
    pub fn expected(&self) -> Option<u16> {
        self.0.receiver.expected()
    }

    /// The sequence number after the last jump's, with no forward packet since:
    /// a break has it.
    pub fn kept(&self) -> Option<u16> {
        self.0.receiver.kept()
    }

    /// The sequence number of the packet held.
    pub fn held(&self) -> Option<u16> {
        (self.0.has_held != 0).then_some(self.0.held)
    }

    /// The clock at which it arrived.
    pub fn arrival(&self) -> Option<u64> {
        (self.0.has_held != 0).then_some(self.0.arrival)
    }
}

impl Which {
    fn of(number: u8) -> Which {
        match number {
            lent::HoldingStep::HELD => Which::Held,
            lent::HoldingStep::NEW => Which::New,
            _ => Which::Neither,
        }
    }
}

impl<'a> HoldingStep<'a> {
    fn new(answer: &lent::HoldingStep, held: &'a [u8], packet: &'a [u8]) -> HoldingStep<'a> {
        let (of, keep) = (Which::of(answer.of), Which::of(answer.keep));
        let lent::Step {
            course,
            loss,
            distance,
            older,
            given,
            from,
            to,
        } = answer.step;
        let text = match of {
            Which::Neither => &[],
            Which::Held => &held[from..to],
            Which::New => &packet[from..to],
        };
        match (course, of) {
            (lent::Step::LATE, _) => HoldingStep::Late { distance, keep },
            (lent::Step::JUMP, _) => HoldingStep::Jump { distance, keep },
            (lent::Step::BREAK, _) => HoldingStep::Break { older, given, text },
            (_, Which::Neither) => HoldingStep::Waits { distance, keep },
            _ => HoldingStep::Forward {
                of,
                keep,
                again: answer.again != 0,
                loss,
                distance,
                older,
                given,
                text,
            },
        }
    }

    /// Which packet to keep, and to lend as held with the next call.
    pub fn keep(&self) -> Which {
        match *self {
            HoldingStep::Forward { keep, .. }
            | HoldingStep::Waits { keep, .. }
            | HoldingStep::Late { keep, .. }
            | HoldingStep::Jump { keep, .. } => keep,
            HoldingStep::Break { .. } => Which::Neither,
        }
    }

    /// Whether the same packet is to be given again.
    pub fn again(&self) -> bool {
        matches!(*self, HoldingStep::Forward { again: true, .. })
    }
}

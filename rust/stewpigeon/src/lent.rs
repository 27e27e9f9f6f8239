//! The library's own calls: records lent with all their fields, space lent
//! at any length, refusals as numbers. For tests and measurements; a recorder
//! uses the crate's own types.
//!
//! Every call answers on every value of every field. A refusal leaves every
//! lent byte as it was; only an opening writes where it is refused, zeros.
//!
//! A record is lent as itself, or [`Guarded`] among other bytes.

mod guarded;

use crate::library;
pub use crate::library::{
    Block, HoldingReceiver, HoldingStep, Log, Pace, Packet, Progress, Receiver, Sender, Settings,
    Step, TextAnswer, Texts,
};
pub use guarded::{Guarded, Lend, Record};

impl Receiver {
    /// What a refused opening gives.
    pub const ZERO: Receiver = Receiver {
        t140: 0,
        red: 0,
        has_source: 0,
        has_kept: 0,
        source: 0,
        expected: 0,
        kept: 0,
    };

    pub(crate) fn source(&self) -> Option<u32> {
        (self.has_source != 0).then_some(self.source)
    }

    pub(crate) fn expected(&self) -> Option<u16> {
        (self.has_source != 0).then_some(self.expected)
    }

    pub(crate) fn kept(&self) -> Option<u16> {
        (self.has_kept != 0).then_some(self.kept)
    }
}

impl Step {
    pub const ZERO: Step = Step {
        course: Step::FORWARD,
        loss: 0,
        distance: 0,
        older: 0,
        given: 0,
        from: 0,
        to: 0,
    };
}

impl HoldingReceiver {
    /// What a refused opening gives.
    pub const ZERO: HoldingReceiver = HoldingReceiver {
        receiver: Receiver::ZERO,
        has_held: 0,
        held: 0,
        arrival: 0,
        clock: 0,
    };
}

impl HoldingStep {
    pub const ZERO: HoldingStep = HoldingStep {
        of: HoldingStep::NEITHER,
        keep: HoldingStep::NEITHER,
        again: 0,
        step: Step::ZERO,
    };
}

impl Block {
    pub const ZERO: Block = Block {
        offset: 0,
        at: 0,
        len: 0,
    };
}

impl Packet {
    pub const ZERO: Packet = Packet {
        marker: 0,
        sequence: 0,
        timestamp: 0,
        source: 0,
        count: 0,
        older: [Block::ZERO; crate::Packet::LEVEL],
        primary: 0,
        end: 0,
    };
}

impl TextAnswer {
    pub const ZERO: TextAnswer = TextAnswer {
        is_text: 0,
        characters: 0,
        place: 0,
    };
}

impl Sender {
    /// What a refused opening gives.
    pub const ZERO: Sender = Sender {
        settings: Settings {
            level: 0,
            buffering: 0,
            rate: 0,
            t140: 0,
            red: 0,
            sequence: 0,
            timestamp: 0,
            source: 0,
        },
        clock: 0,
        room: 0,
        len: 0,
        characters: 0,
        since: 0,
        lens: [0; crate::Sender::LEVEL],
        ats: [0; crate::Sender::LEVEL],
        count: 0,
        pace: Pace { next: 0, used: 0 },
        progress: Progress {
            sent: 0,
            last: 0,
            last_text: 0,
            next: 0,
        },
    };
}

/// Reads one packet: 0 and the packet in the lent answer, or the refusal's
/// number and the answer as it was. `expects` 0 accepts any source.
#[inline]
pub fn read_into(
    expects: u8,
    source: u32,
    t140: u8,
    red: u8,
    packet: &[u8],
    answer: &mut impl Lend<Packet>,
) -> u8 {
    // SAFETY: the answer, and the slice with its own length, are lent for the
    // call only.
    unsafe {
        library::stewpigeon_read(
            expects,
            source,
            t140,
            red,
            packet.as_ptr(),
            packet.len(),
            answer.place_mut(),
        )
    }
}

/// Looks whether bytes are UTF-8.
#[inline]
pub fn text_into(bytes: &[u8], answer: &mut impl Lend<TextAnswer>) {
    // SAFETY: the answer, and the slice with its own length, are lent for the
    // call only.
    unsafe { library::stewpigeon_text(bytes.as_ptr(), bytes.len(), answer.place_mut()) }
}

/// Opens a receiver in the lent record: 0, or 3 and a record of zeros.
#[inline]
pub fn receiver_open(receiver: &mut impl Lend<Receiver>, t140: u8, red: u8) -> u8 {
    // SAFETY: the record is lent for the call only.
    unsafe { library::stewpigeon_receiver_open(receiver.place_mut(), t140, red) }
}

/// Gives a packet to a receiver: 0 and the step where it is accepted, with
/// whichever course, else the refusal's number.
#[inline]
pub fn receiver_step(
    receiver: &mut impl Lend<Receiver>,
    packet: &[u8],
    step: &mut impl Lend<Step>,
) -> u8 {
    // SAFETY: both records, and the slice with its own length, are lent for
    // the call only.
    unsafe {
        library::stewpigeon_receiver_step(
            receiver.place_mut(),
            packet.as_ptr(),
            packet.len(),
            step.place_mut(),
        )
    }
}

/// Opens a receiver that holds in the lent record: 0, or 3 and a record of
/// zeros.
#[inline]
pub fn holding_receiver_open(receiver: &mut impl Lend<HoldingReceiver>, t140: u8, red: u8) -> u8 {
    // SAFETY: the record is lent for the call only.
    unsafe { library::stewpigeon_holding_receiver_open(receiver.place_mut(), t140, red) }
}

/// Gives a packet to a receiver that holds, with the packet held, which is not
/// looked at where none is: 0 and the step where both are accepted, else the
/// refusal's number.
#[inline]
pub fn holding_receiver_step(
    receiver: &mut impl Lend<HoldingReceiver>,
    clock: u64,
    held: &[u8],
    packet: &[u8],
    step: &mut impl Lend<HoldingStep>,
) -> u8 {
    // SAFETY: both records, and the slices with their own lengths, are lent
    // for the call only.
    unsafe {
        library::stewpigeon_holding_receiver_step(
            receiver.place_mut(),
            clock,
            held.as_ptr(),
            held.len(),
            packet.as_ptr(),
            packet.len(),
            step.place_mut(),
        )
    }
}

/// Tells a receiver that holds the clock, without a packet: 0 and the step, or
/// the refusal's number.
#[inline]
pub fn holding_receiver_wait(
    receiver: &mut impl Lend<HoldingReceiver>,
    clock: u64,
    held: &[u8],
    step: &mut impl Lend<HoldingStep>,
) -> u8 {
    // SAFETY: both records, and the slice with its own length, are lent for
    // the call only.
    unsafe {
        library::stewpigeon_holding_receiver_wait(
            receiver.place_mut(),
            clock,
            held.as_ptr(),
            held.len(),
            step.place_mut(),
        )
    }
}

/// Writes loss marks and gives their number.
#[inline]
pub fn write_marks(count: usize, space: &mut [u8]) -> usize {
    // SAFETY: the slice is lent with its own length for the call only.
    unsafe { library::stewpigeon_write_marks(count, space.as_mut_ptr(), space.len()) }
}

/// Opens a sender in the lent record: 0, or 1, 2, 3, 9 and a record of zeros.
/// The texts are zeros afterwards. Its log may hold anything.
#[inline]
pub fn sender_open(
    sender: &mut impl Lend<Sender>,
    texts: &mut impl Lend<Texts>,
    settings: Settings,
) -> u8 {
    // SAFETY: record and texts are lent for the call only.
    unsafe {
        library::stewpigeon_sender_open_in(
            sender.place_mut(),
            texts.place_mut(),
            settings.level,
            settings.buffering,
            settings.rate,
            settings.t140,
            settings.red,
            settings.sequence,
            settings.timestamp,
            settings.source,
        )
    }
}

/// Offers text to a sender, which is written to its texts behind what waits:
/// 0, or the refusal's number.
#[inline]
pub fn sender_offer(
    sender: &mut impl Lend<Sender>,
    texts: &mut impl Lend<Texts>,
    clock: u64,
    text: &[u8],
) -> u8 {
    // SAFETY: record and texts, and the slice with its own length, are lent
    // for the call only.
    unsafe {
        library::stewpigeon_sender_offer_in(
            sender.place_mut(),
            texts.place_mut(),
            clock,
            text.as_ptr(),
            text.len(),
        )
    }
}

/// Writes the packet due: its length, 0 where none is due, or minus the
/// refusal's number. Text that it leaves behind moves to the next slot of the
/// texts, and its clock goes to a slot of the log for each of its characters.
/// Without a packet both stay. Every clock call of a sender is lent the same
/// log.
#[inline]
pub fn sender_clock(
    sender: &mut impl Lend<Sender>,
    texts: &mut impl Lend<Texts>,
    log: &mut impl Lend<Log>,
    clock: u64,
    space: &mut [u8],
) -> i64 {
    // SAFETY: record, texts and log, and the slice with its own length, are
    // lent for the call only.
    unsafe {
        library::stewpigeon_sender_clock_in(
            sender.place_mut(),
            texts.place_mut(),
            log.place_mut(),
            clock,
            space.as_mut_ptr(),
            space.len(),
        )
    }
}

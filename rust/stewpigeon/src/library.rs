//! The static library's records and functions, as C has them. Nothing else
//! declares them. All fields are numbers, so that any bytes are a record.

/// A receiver's state.
#[repr(C)]
#[derive(Clone, Copy, Debug, PartialEq, Eq)]
pub struct Receiver {
    pub t140: u8,
    pub red: u8,
    /// 0 until a packet was accepted; any other value counts as 1.
    pub has_source: u8,
    /// 0 where no number is kept; any other value counts as 1.
    pub has_kept: u8,
    pub source: u32,
    /// The number after the newest one.
    pub expected: u16,
    /// The number after the last jump's, which a break has; 0 where none is
    /// kept.
    pub kept: u16,
}

/// What a step answers to an accepted packet.
#[repr(C)]
#[derive(Clone, Copy, Debug, PartialEq, Eq)]
pub struct Step {
    /// [`Step::FORWARD`], [`Step::LATE`], [`Step::JUMP`] or [`Step::BREAK`].
    pub course: u8,
    pub loss: u16,
    pub distance: i16,
    /// The older blocks in the packet.
    pub older: usize,
    /// The blocks given, the primary included.
    pub given: usize,
    /// Where the blocks given start in the packet.
    pub from: usize,
    /// Where they end.
    pub to: usize,
}

/// The courses, as [`crate::Step`] explains them.
impl Step {
    pub const FORWARD: u8 = 0;
    pub const LATE: u8 = 1;
    pub const JUMP: u8 = 2;
    pub const BREAK: u8 = 3;
}

/// A receiver that holds a packet, up to 1,000 ms, while numbers before it are
/// missing.
#[repr(C)]
#[derive(Clone, Copy, Debug, PartialEq, Eq)]
pub struct HoldingReceiver {
    /// Of the packets handed out.
    pub receiver: Receiver,
    /// 0 where no packet is held; any other value counts as 1.
    pub has_held: u8,
    /// The number of the packet held; 0 where none is.
    pub held: u16,
    /// The clock at which it arrived; 0 where none is held.
    pub arrival: u64,
    /// The latest accepted clock.
    pub clock: u64,
}

/// What an accepted call of a receiver that holds answers.
#[repr(C)]
#[derive(Clone, Copy, Debug, PartialEq, Eq)]
pub struct HoldingStep {
    /// Which packet the text is of: [`HoldingStep::NEITHER`],
    /// [`HoldingStep::HELD`] or [`HoldingStep::NEW`].
    pub of: u8,
    /// Which one to keep, and to lend as held with the next call.
    pub keep: u8,
    /// 1 where the same packet is to be given again, else 0.
    pub again: u8,
    /// Of the packet given; where none is, the new one's course and distance.
    pub step: Step,
}

/// The packets of a call, as [`crate::Which`] explains them.
impl HoldingStep {
    pub const NEITHER: u8 = 0;
    pub const HELD: u8 = 1;
    pub const NEW: u8 = 2;
}

/// What a sender is opened with.
#[repr(C)]
#[derive(Clone, Copy, Debug, PartialEq, Eq)]
pub struct Settings {
    /// How many older blocks each packet repeats, at most
    /// [`crate::Packet::LEVEL`].
    pub level: usize,
    /// The buffering time in ms, 1 to 500.
    pub buffering: u64,
    /// The most characters (code points) of new text per second, as a mean
    /// over any ten seconds, 1 to 100: what the other side's client states as
    /// "cps" (RFC 4103, section 6), or 30.
    pub rate: usize,
    /// The payload type of T140, 96 to 127.
    pub t140: u8,
    /// The payload type of RED, 96 to 127, another than T140's.
    pub red: u8,
    /// The first packet's sequence number.
    pub sequence: u16,
    /// The timestamp of clock 0.
    pub timestamp: u32,
    pub source: u32,
}

/// How far a sender has come in its log, of which it uses the first
/// 10 * rate slots, in a circle. A `next` past the last of these counts as 0,
/// and `used` up to their number.
#[repr(C)]
#[derive(Clone, Copy, Debug, PartialEq, Eq)]
pub struct Pace {
    /// The slot of the next character.
    pub next: usize,
    /// How many slots were used: those before it, the newest nearest.
    pub used: usize,
}

/// How far a sender has come.
#[repr(C)]
#[derive(Clone, Copy, Debug, PartialEq, Eq)]
pub struct Progress {
    /// 0 until a packet was sent; any other value counts as 1.
    pub sent: u8,
    /// When the last one was.
    pub last: u64,
    /// When the last one with text was.
    pub last_text: u64,
    /// The next packet's sequence number.
    pub next: u16,
}

/// A sender's state but for its texts and its log. A `room` past the last slot
/// counts as 0, and lengths, `characters` and `count` count up to what there is.
#[repr(C)]
#[derive(Clone, Copy, Debug, PartialEq, Eq)]
pub struct Sender {
    pub settings: Settings,
    /// The latest accepted clock.
    pub clock: u64,
    /// The slot of the texts in which text waits.
    pub room: usize,
    /// How many bytes wait there.
    pub len: usize,
    /// How many characters they are.
    pub characters: usize,
    /// When the first of them was offered, or a packet left it behind.
    pub since: u64,
    /// The lengths of the last blocks sent, newest first.
    pub lens: [usize; crate::Sender::LEVEL],
    /// When each of them was sent.
    pub ats: [u64; crate::Sender::LEVEL],
    /// How many of them there are.
    pub count: usize,
    pub pace: Pace,
    pub progress: Progress,
}

/// An older block of a packet.
#[repr(C)]
#[derive(Clone, Copy, Debug, PartialEq, Eq)]
pub struct Block {
    /// The time offset in ms: 1 or more, and above that of the block behind it.
    pub offset: u16,
    /// Where it starts in the packet.
    pub at: usize,
    pub len: usize,
}

/// What an accepted packet holds.
#[repr(C)]
#[derive(Clone, Copy, Debug, PartialEq, Eq)]
pub struct Packet {
    /// The M bit.
    pub marker: u8,
    pub sequence: u16,
    pub timestamp: u32,
    pub source: u32,
    /// How many older blocks there are.
    pub count: usize,
    /// These, oldest first; zeros past the count.
    pub older: [Block; crate::Packet::LEVEL],
    /// Where the primary starts.
    pub primary: usize,
    /// Where it ends.
    pub end: usize,
}

/// What bytes are as UTF-8.
#[repr(C)]
#[derive(Clone, Copy, Debug, PartialEq, Eq)]
pub struct TextAnswer {
    /// 1 where they are UTF-8, else 0.
    pub is_text: u8,
    /// How many characters they are; 0 where they are not UTF-8.
    pub characters: usize,
    /// Where they are not, the place of the first byte at which they can no
    /// longer be, or their end; else 0.
    pub place: usize,
}

/// A sender's texts: a slot of 160 bytes for what waits and one for each
/// repeat, used in a circle. The last blocks sent lie in the slots before the
/// one in which text waits, the newest nearest.
pub type Texts = [u8; crate::Sender::SLOTS * crate::Sender::ROOM];

/// A sender's log: when each of the last characters was sent.
pub type Log = [u64; crate::Sender::LOG];

extern "C" {
    pub fn stewpigeon_read(
        expects: u8,
        source: u32,
        t140: u8,
        red: u8,
        packet: *const u8,
        packet_len: usize,
        answer: *mut Packet,
    ) -> u8;

    pub fn stewpigeon_text(bytes: *const u8, bytes_len: usize, answer: *mut TextAnswer);

    pub fn stewpigeon_receiver_open(receiver: *mut Receiver, t140: u8, red: u8) -> u8;

    pub fn stewpigeon_receiver_step(
        receiver: *mut Receiver,
        packet: *const u8,
        packet_len: usize,
        step: *mut Step,
    ) -> u8;

    pub fn stewpigeon_holding_receiver_open(
        receiver: *mut HoldingReceiver,
        t140: u8,
        red: u8,
    ) -> u8;

    pub fn stewpigeon_holding_receiver_step(
        receiver: *mut HoldingReceiver,
        clock: u64,
        held: *const u8,
        held_len: usize,
        packet: *const u8,
        packet_len: usize,
        step: *mut HoldingStep,
    ) -> u8;

    pub fn stewpigeon_holding_receiver_wait(
        receiver: *mut HoldingReceiver,
        clock: u64,
        held: *const u8,
        held_len: usize,
        step: *mut HoldingStep,
    ) -> u8;

    pub fn stewpigeon_write_marks(count: usize, space: *mut u8, space_len: usize) -> usize;

    pub fn stewpigeon_sender_open_in(
        sender: *mut Sender,
        texts: *mut Texts,
        level: usize,
        buffering: u64,
        rate: usize,
        t140: u8,
        red: u8,
        sequence: u16,
        timestamp: u32,
        source: u32,
    ) -> u8;

    pub fn stewpigeon_sender_offer_in(
        sender: *mut Sender,
        texts: *mut Texts,
        clock: u64,
        text: *const u8,
        text_len: usize,
    ) -> u8;

    pub fn stewpigeon_sender_clock_in(
        sender: *mut Sender,
        texts: *mut Texts,
        log: *mut Log,
        clock: u64,
        packet: *mut u8,
        packet_len: usize,
    ) -> i64;
}

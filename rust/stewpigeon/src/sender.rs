//! Sending a line.

use crate::lent::{self, Pace};
use crate::{Packet, Refusal, Settings};

impl Settings {
    /// The usual buffering time in ms.
    pub const BUFFERING: u64 = 300;
    /// The longest buffering time in ms.
    pub const LONGEST_BUFFERING: u64 = 500;
    /// The usual rate in characters per second, where a client states none.
    pub const RATE: usize = 30;
    /// The highest rate.
    pub const HIGHEST_RATE: usize = 100;
}

/// A sender of one line. Offer it text as it is typed, and ask it for a
/// packet often, at the latest when the buffering time is over. Clocks are in
/// ms from the opening and never go back. Over any ten seconds, both ends
/// included, its packets have at most ten times the rate in characters of new
/// text; what is more waits.
///
/// ```
/// use stewpigeon::{Refusal, Sender, Settings};
///
/// let mut sender = Sender::open(Settings {
///     level: Sender::LEVEL,
///     buffering: Settings::BUFFERING,
///     rate: Settings::RATE,
///     t140: 98,
///     red: 100,
///     sequence: 65_535,
///     timestamp: 1000,
///     source: 0x11223344,
/// })?;
/// let mut space = [0; Sender::LONGEST_PACKET];
/// assert_eq!(sender.clock(0, &mut space)?, None);
///
/// sender.offer(20, "é".as_bytes())?;
/// let packet = sender.clock(20, &mut space)?.expect("a packet is due");
/// let packet = stewpigeon::read(None, 98, 100, packet)?;
/// assert_eq!(packet.primary, "é".as_bytes());
///
/// // Less than 300 ms later nothing is due; then the text is repeated.
/// assert_eq!(sender.clock(319, &mut space)?, None);
/// let packet = sender.clock(320, &mut space)?.expect("a packet is due");
/// let packet = stewpigeon::read(None, 98, 100, packet)?;
/// assert_eq!(packet.older()[0].text, "é".as_bytes());
/// assert_eq!(sender.offer(319, b"A"), Err(Refusal::Clock));
///
/// // 300 characters may go in ten seconds, and one has gone.
/// for clock in [1000, 2000] {
///     sender.offer(clock, &[b'a'; Sender::ROOM])?;
///     sender.clock(clock, &mut space)?.expect("a packet is due");
/// }
/// assert_eq!(sender.waiting().len(), 1 + 2 * Sender::ROOM - 300);
/// # Ok::<(), Refusal>(())
/// ```
#[derive(Clone, Debug)]
pub struct Sender {
    record: lent::Sender,
    texts: lent::Texts,
    log: Box<lent::Log>,
}

impl Sender {
    /// The highest repeat level.
    pub const LEVEL: usize = Packet::LEVEL;
    /// How many bytes may wait, and so the longest block.
    pub const ROOM: usize = 160;
    /// The age in ms up to which a block is repeated.
    pub const OLDEST: u64 = 16_383;
    /// The longest packet it writes: a header, an older block with its own for
    /// each repeat, and a primary with its own.
    pub const LONGEST_PACKET: usize = 12 + 4 * Sender::LEVEL + 1 + Sender::SLOTS * Sender::ROOM;

    /// The slots of its texts: the waiting room, and a block for each repeat.
    pub(crate) const SLOTS: usize = 1 + Sender::LEVEL;
    /// The times in its log: a second's characters for ten seconds.
    pub(crate) const LOG: usize = 10 * Settings::HIGHEST_RATE;

    /// A sender at clock 0.
    pub fn open(settings: Settings) -> Result<Sender, Refusal> {
        let mut sender = Sender {
            record: lent::Sender::ZERO,
            texts: [0; Sender::SLOTS * Sender::ROOM],
            log: Box::new([0; Sender::LOG]),
        };
        let number = lent::sender_open(&mut sender.record, &mut sender.texts, settings);
        Refusal::check(number).map(|()| sender)
    }

    /// Takes text, which waits for the next packet that the rate lets take it.
    #[inline]
    pub fn offer(&mut self, clock: u64, text: &[u8]) -> Result<(), Refusal> {
        let number = lent::sender_offer(&mut self.record, &mut self.texts, clock, text);
        Refusal::check(number)
    }

    /// Writes the packet due at this clock, if one is, to the front of the
    /// space, and gives that part of it.
    #[inline]
    pub fn clock<'a>(
        &mut self,
        clock: u64,
        space: &'a mut [u8],
    ) -> Result<Option<&'a [u8]>, Refusal> {
        let Sender { record, texts, log } = self;
        match lent::sender_clock(record, texts, &mut **log, clock, space) {
            0 => Ok(None),
            length @ 1.. => Ok(Some(&space[..length as usize])),
            refusal => {
                let number = refusal.unsigned_abs() as u8;
                Refusal::check(number).map(|()| None)
            }
        }
    }

    /// What it was opened with.
    pub fn settings(&self) -> &Settings {
        &self.record.settings
    }

    /// The text that waits.
    pub fn waiting(&self) -> &[u8] {
        self.texts().next().unwrap_or_default()
    }

    /// The text that waits, and then the blocks kept, newest first.
    fn texts(&self) -> impl Iterator<Item = &[u8]> {
        let lens = [self.record.len].into_iter().chain(self.record.lens);
        let lens = lens.take(1 + self.record.count).enumerate();
        lens.map(|(back, len)| {
            let slot = (self.record.room + Sender::SLOTS - back) % Sender::SLOTS;
            &self.texts[slot * Sender::ROOM..][..len]
        })
    }

    /// When each of the last characters was sent, newest first.
    fn times(&self) -> impl Iterator<Item = u64> + '_ {
        let slots = 10 * self.record.settings.rate;
        let Pace { next, used } = self.record.pace;
        (1..=used).map(move |back| self.log[(next + slots - back) % slots])
    }
}

/// Texts no longer kept do not count, nor do slots of the log not yet used.
impl PartialEq for Sender {
    fn eq(&self, other: &Sender) -> bool {
        self.record == other.record
            && self.texts().eq(other.texts())
            && self.times().eq(other.times())
    }
}

impl Eq for Sender {}

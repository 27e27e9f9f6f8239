//! Why a call refuses.

use std::borrow::Cow;
use std::error::Error;
use std::fmt::{self, Display, Formatter};

use crate::Sender;

/// A refusal. It changes nothing: neither the receiver or sender, nor a lent
/// byte.
///
/// ```
/// use stewpigeon::{Receiver, Refusal};
///
/// let refusal = Receiver::open(98, 98).unwrap_err();
/// assert_eq!(refusal, Refusal::PayloadTypes);
/// assert_eq!(refusal.number(), 3);
/// println!("{refusal}");
/// ```
#[derive(Clone, Copy, Debug, PartialEq, Eq, Hash)]
pub enum Refusal {
    Level = 1,
    Buffering = 2,
    PayloadTypes = 3,
    WaitingRoom = 4,
    Clock = 5,
    Text = 6,
    NoText = 7,
    Space = 8,
    Rate = 9,
    Short = 10,
    Long = 11,
    Version = 12,
    Header = 13,
    Padding = 14,
    PayloadType = 15,
    Source = 16,
    BlockHeaders = 17,
    BlockCount = 18,
    BlockType = 19,
    BlockLengths = 20,
    BlockText = 21,
    BlockAges = 22,
    HeldPacket = 27,
}

impl Refusal {
    pub const ALL: [Refusal; 23] = [
        Refusal::Level,
        Refusal::Buffering,
        Refusal::PayloadTypes,
        Refusal::WaitingRoom,
        Refusal::Clock,
        Refusal::Text,
        Refusal::NoText,
        Refusal::Space,
        Refusal::Rate,
        Refusal::Short,
        Refusal::Long,
        Refusal::Version,
        Refusal::Header,
        Refusal::Padding,
        Refusal::PayloadType,
        Refusal::Source,
        Refusal::BlockHeaders,
        Refusal::BlockCount,
        Refusal::BlockType,
        Refusal::BlockLengths,
        Refusal::BlockText,
        Refusal::BlockAges,
        Refusal::HeldPacket,
    ];

    /// Its number: 1 to 22, or 27.
    pub fn number(self) -> u8 {
        self as u8
    }

    /// The refusal of this number.
    pub fn of(number: u8) -> Option<Refusal> {
        let mut all = Refusal::ALL.into_iter();
        all.find(|refusal| refusal.number() == number)
    }

    /// What is wrong.
    pub fn meaning(self) -> Cow<'static, str> {
        match self {
            Refusal::Level => return format!("repeat level above {}", Sender::LEVEL).into(),
            Refusal::Buffering => "buffering time 0 or above 500 ms",
            Refusal::PayloadTypes => "payload types outside 96..127, or equal",
            Refusal::WaitingRoom => "offered text does not fit in the 160 bytes waiting room",
            Refusal::Clock => "clock below the latest accepted clock",
            Refusal::Text => "offered text is not UTF-8",
            Refusal::NoText => "offered text is empty",
            Refusal::Space => "lent packet space shorter than the packet due",
            Refusal::Rate => "rate 0 or above 100 characters a second",
            Refusal::Short => "packet under 12 bytes",
            Refusal::Long => "packet over 1,472 bytes",
            Refusal::Version => "version is not 2",
            Refusal::Header => "source list or extension passes the end",
            Refusal::Padding => "padding count 0, above the payload, or no payload to hold it",
            Refusal::PayloadType => "payload type is neither T140 nor RED",
            Refusal::Source => "source differs from the expected one",
            Refusal::BlockHeaders => "block headers pass the end",
            Refusal::BlockCount => "an older block too many",
            Refusal::BlockType => "a block's type is not T140",
            Refusal::BlockLengths => "older blocks' lengths pass the end",
            Refusal::BlockText => "a block is not UTF-8",
            Refusal::BlockAges => "older blocks' time offsets do not fall to 1 or more",
            Refusal::HeldPacket => "the packet lent as held is refused or has another number",
        }
        .into()
    }

    /// What to do about it.
    fn remedy(self) -> Cow<'static, str> {
        match self {
            Refusal::Level => {
                return format!("open with a level from 0 to {}", Sender::LEVEL).into()
            }
            Refusal::Buffering => "open with 1 to 500 ms, 300 being usual",
            Refusal::PayloadTypes => "give two different payload types from 96 to 127",
            Refusal::WaitingRoom => "offer less, or again once a packet has been sent",
            Refusal::Clock => "give a clock that never goes back",
            Refusal::Text => "offer whole letters of UTF-8",
            Refusal::NoText => "offer at least one letter",
            Refusal::Space => {
                let all = grouped(Sender::LONGEST_PACKET);
                return format!("lend {all} bytes, which hold every packet, and call again").into();
            }
            Refusal::Rate => "open with 1 to 100 characters a second, 30 being usual",
            Refusal::Short => "give whole RTP packets, and drop this one",
            Refusal::Long => "give RTP packets one at a time, and drop this one",
            Refusal::Version => "not RTP, so drop it",
            Refusal::PayloadType => "drop it, or open with the payload types of this line",
            Refusal::Source => "drop it, or open another receiver for a new source",
            Refusal::BlockAges => {
                "drop it, and have the sender mended if more than its first packet is refused"
            }
            Refusal::HeldPacket => {
                "lend, unaltered, the packet that the last accepted call said to keep"
            }
            Refusal::Header
            | Refusal::Padding
            | Refusal::BlockHeaders
            | Refusal::BlockCount
            | Refusal::BlockType
            | Refusal::BlockLengths
            | Refusal::BlockText => "the packet is broken, so drop it",
        }
        .into()
    }

    /// The library's answer, 0 being acceptance.
    pub(crate) fn check(answer: u8) -> Result<(), Refusal> {
        match answer {
            0 => Ok(()),
            number => Err(Refusal::of(number).expect("a number of the library's")),
        }
    }
}

/// A number with commas between thousands.
fn grouped(number: usize) -> String {
    match number {
        0..1000 => number.to_string(),
        _ => format!("{},{:03}", grouped(number / 1000), number % 1000),
    }
}

impl Display for Refusal {
    fn fmt(&self, f: &mut Formatter<'_>) -> fmt::Result {
        let (number, meaning, remedy) = (self.number(), self.meaning(), self.remedy());
        write!(f, "refused {number}: {meaning}; {remedy}")
    }
}

impl Error for Refusal {}

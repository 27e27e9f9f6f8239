//! One packet or text given to both readers.

use std::fmt::{self, Display, Formatter};
use std::hint::black_box;

use crate::patterns::{filled, Lent};
use crate::plan::{Plan, RED, T140};
use crate::random::Random;
use independent::Contents;
use stewpigeon::lent;

/// What is known beforehand of a result: the answer, the refusal, or nothing.
pub type Known = Option<Result<lent::Packet, u8>>;

/// A packet and the settings it is read with.
#[derive(Clone)]
pub struct Case {
    pub expects: u8,
    pub source: u32,
    pub t140: u8,
    pub red: u8,
    pub packet: Vec<u8>,
    pub known: Known,
}

impl Case {
    /// Any source and the usual payload types.
    pub fn new(random: &mut Random, packet: Vec<u8>, known: Known) -> Case {
        Case {
            expects: 0,
            source: random.number() as u32,
            t140: T140,
            red: RED,
            packet,
            known,
        }
    }

    pub fn accepted(random: &mut Random, plan: &Plan) -> Case {
        Case::new(random, plan.bytes(), Some(Ok(plan.answer())))
    }

    pub fn refused(random: &mut Random, packet: Vec<u8>, refusal: u8) -> Case {
        Case::new(random, packet, Some(Err(refusal)))
    }

    pub fn open(random: &mut Random, packet: Vec<u8>) -> Case {
        Case::new(random, packet, None)
    }
}

/// A case on which the readers do not agree, or not with what is known.
pub struct Difference {
    pub what: &'static str,
    pub details: String,
}

impl Display for Difference {
    fn fmt(&self, f: &mut Formatter<'_>) -> fmt::Result {
        write!(f, "{}\n{}", self.what, self.details)
    }
}

pub fn hex(bytes: &[u8]) -> String {
    bytes.iter().map(|byte| format!("{byte:02x}")).collect()
}

/// The library's answer to a packet that holds this.
pub fn answer(contents: &Contents) -> lent::Packet {
    let mut older = lent::Packet::ZERO.older;
    for (block, place) in older.iter_mut().zip(&contents.older) {
        *block = lent::Block {
            offset: place.offset,
            at: place.start.into(),
            len: place.length.into(),
        };
    }
    lent::Packet {
        marker: contents.marker.into(),
        sequence: contents.sequence,
        timestamp: contents.timestamp,
        source: contents.source,
        count: contents.older.len(),
        older,
        primary: contents.start.into(),
        end: contents.end.into(),
    }
}

/// The second reader's answer, as the proved one must give it.
fn independently(case: &Case) -> Result<lent::Packet, u8> {
    let expected = (case.expects != 0).then_some(case.source);
    let read = independent::read(expected, case.t140, case.red, &case.packet);
    read.map(|packet| answer(&packet.contents()))
}

/// What both readers answered.
pub struct Read {
    /// The refusal's number; 0 where the packet is accepted.
    pub number: u8,
    /// How many older blocks it has then.
    pub older: usize,
}

/// Gives a case to both readers, and gives what both answered.
pub fn check(random: &mut Random, case: &Case) -> Result<Read, Difference> {
    let wanted = independently(case);
    let packet = Lent::new(random, &case.packet);
    let mut lent = filled(random);
    let before = (packet.clone(), lent.clone());
    let number = lent::read_into(
        case.expects,
        case.source,
        case.t140,
        case.red,
        packet.bytes(),
        &mut lent,
    );
    let proved = match number {
        0 => Ok(lent.value()),
        refusal => Err(refusal),
    };
    let known = case.known.is_none_or(|known| known == wanted);
    let what = if proved != wanted {
        "the answers differ"
    } else if number != 0 && lent.bytes() != before.1.bytes() {
        "a refusal changed bytes of the answer or around it"
    } else if lent.around() != before.1.around() {
        "the proved reader changed bytes around the answer"
    } else if *black_box(&packet) != before.0 {
        "the proved reader changed bytes of the packet or around it"
    } else if !known {
        "both readers agree, but not with what is known of the packet"
    } else {
        let older = proved.map_or(0, |packet| packet.count);
        return Ok(Read { number, older });
    };
    let details = format!(
        "packet ({} bytes): {}\n\
         expects {} source {:#010x} T140 {} RED {}\n\
         proved:      {proved:?}\n\
         independent: {wanted:?}\n\
         known:       {:?}\n\
         lent before: {}\n\
         afterwards:  {}",
        case.packet.len(),
        hex(&case.packet),
        case.expects,
        case.source,
        case.t140,
        case.red,
        case.known,
        hex(before.1.bytes()),
        hex(lent.bytes()),
    );
    Err(Difference { what, details })
}

/// Gives a text to both UTF-8 checks and the standard library's, and says
/// whether it is UTF-8. What is known are its characters or its bad place.
pub fn check_text(
    random: &mut Random,
    text: &[u8],
    known: Option<Result<usize, usize>>,
) -> Result<bool, Difference> {
    let independent = independent::text(text);
    let standard = std::str::from_utf8(text).map(|text| text.chars().count());
    let wanted = lent::TextAnswer {
        is_text: independent.is_ok().into(),
        characters: independent.unwrap_or(0),
        place: independent.err().unwrap_or(0),
    };
    let bytes = Lent::new(random, text);
    let mut lent = filled(random);
    let before = (bytes.clone(), lent.clone());
    lent::text_into(bytes.bytes(), &mut lent);
    let what = if independent.ok() != standard.ok() {
        "the independent check and the standard library's differ"
    } else if lent.value() != wanted {
        "the answers to the text differ"
    } else if lent.around() != before.1.around() {
        "the proved check changed bytes around the answer"
    } else if *black_box(&bytes) != before.0 {
        "the proved check changed bytes of the text or around it"
    } else if known.is_some_and(|known| known != independent) {
        "both checks agree, but not with what is known of the text"
    } else {
        return Ok(independent.is_ok());
    };
    let details = format!(
        "text ({} bytes): {}\n\
         proved:      {:?}\n\
         independent: {wanted:?}\n\
         known:       {known:?}",
        text.len(),
        hex(text),
        lent.value(),
    );
    Err(Difference { what, details })
}

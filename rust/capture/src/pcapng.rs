//! Files of pcapng, of either byte order, also changing between sections.

use std::io::BufRead;

use crate::input::Input;
use crate::Frame;

const SECTION: u32 = 0x0a0d_0d0a;
const INTERFACE: u32 = 1;
const OLD_PACKET: u32 = 2;
const SIMPLE_PACKET: u32 = 3;
const ENHANCED_PACKET: u32 = 6;

const BYTE_ORDER: u32 = 0x1a2b_3c4d;

/// The most interfaces of a section.
const INTERFACES: usize = 65_536;

const END_OF_OPTIONS: u16 = 0;
const TIME_RESOLUTION: u16 = 9;
const TIME_OFFSET: u16 = 14;

/// Whether a capture is of this kind.
pub fn starts(capture: &[u8]) -> bool {
    capture.starts_with(&SECTION.to_be_bytes())
}

/// How packets of an interface are to be read.
#[derive(Clone, Copy)]
struct Interface {
    link: u16,
    /// The most bytes kept of a packet; 0 is all of them.
    most: u32,
    /// How many units of time a second has.
    units: i128,
    /// Seconds to be added to each time.
    offset: i64,
}

impl Interface {
    fn nanoseconds(&self, high: u32, low: u32) -> i128 {
        let time = i128::from(u64::from(high) << 32 | u64::from(low));
        time * 1_000_000_000 / self.units + i128::from(self.offset) * 1_000_000_000
    }
}

/// Bytes of a block that are not yet read; what lacks is told by the place.
struct Fields<'a> {
    rest: &'a [u8],
    /// How many bytes of the block follow that are not held.
    beyond: usize,
    place: u64,
    big_endian: bool,
}

/// What is said of bytes that lack.
fn lacking(place: u64, count: usize, left: usize) -> String {
    format!(
        "byte {place}: {count} bytes are due, but {left} are left: \
         the capture is cut off or damaged"
    )
}

impl<'a> Fields<'a> {
    fn take(&mut self, count: usize) -> Result<&'a [u8], String> {
        let (taken, rest) = self
            .rest
            .split_at_checked(count)
            .ok_or_else(|| lacking(self.place, count, self.rest.len() + self.beyond))?;
        self.rest = rest;
        self.place += count as u64;
        Ok(taken)
    }

    /// A packet, as much of it as is held.
    fn packet(&mut self, length: usize) -> Result<&'a [u8], String> {
        let left = self.rest.len() + self.beyond;
        match length <= left {
            true => Ok(&self.rest[..length.min(self.rest.len())]),
            false => Err(lacking(self.place, length, left)),
        }
    }

    fn array<const N: usize>(&mut self) -> Result<[u8; N], String> {
        let mut array = [0; N];
        array.copy_from_slice(self.take(N)?);
        if !self.big_endian {
            array.reverse();
        }
        Ok(array)
    }

    fn short(&mut self) -> Result<u16, String> {
        self.array().map(u16::from_be_bytes)
    }

    fn long(&mut self) -> Result<u32, String> {
        self.array().map(u32::from_be_bytes)
    }
}

/// Gives the packets of a file, in order.
pub fn frames(
    input: &mut Input<impl BufRead>,
    take: impl FnMut(&Frame) -> Result<(), String>,
) -> Result<(), String> {
    let mut reader = Reader {
        big_endian: true,
        interfaces: vec![],
        take,
    };
    let mut held = vec![];
    while !input.is_at_end()? {
        reader.block(input, &mut held)?;
    }
    Ok(())
}

struct Reader<F> {
    big_endian: bool,
    /// Those of this section.
    interfaces: Vec<Interface>,
    take: F,
}

impl<F: FnMut(&Frame) -> Result<(), String>> Reader<F> {
    /// Reads a block.
    fn block(&mut self, input: &mut Input<impl BufRead>, held: &mut Vec<u8>) -> Result<(), String> {
        let place = input.place;
        due(input, 8, held)?;
        let (kind, length) = (word(held, 0), word(held, 4));
        let kind = self.number(kind);
        let mut order = vec![];
        if kind == SECTION {
            due(input, 4, &mut order)?;
            self.section(&order, place + 8)?;
        }
        let number = self.number(length);
        let length = number as usize;
        if length < 12 + order.len() || !length.is_multiple_of(4) {
            let place = place + 4;
            return Err(format!("byte {place}: a block cannot have {length} bytes"));
        }
        let count = length - 12 - order.len();
        due(input, count, held)?;
        let (end, mut last) = (input.place, vec![]);
        due(input, 4, &mut last)?;
        if self.number(word(&last, 0)) != number {
            return Err(format!("byte {end}: the block's two lengths differ"));
        }
        let mut body = Fields {
            rest: held,
            beyond: count - held.len(),
            place: place + 8,
            big_endian: self.big_endian,
        };
        match kind {
            INTERFACE => self.describe(&mut body, place)?,
            ENHANCED_PACKET | OLD_PACKET => self.packet(kind, place, body)?,
            SIMPLE_PACKET => self.simple(place, body)?,
            _ => {}
        }
        Ok(())
    }

    fn number(&self, word: [u8; 4]) -> u32 {
        match self.big_endian {
            true => u32::from_be_bytes(word),
            false => u32::from_le_bytes(word),
        }
    }

    /// A section says its byte order, and has no interfaces yet.
    fn section(&mut self, order: &[u8], place: u64) -> Result<(), String> {
        self.big_endian = match order {
            _ if order == BYTE_ORDER.to_be_bytes() => true,
            _ if order == BYTE_ORDER.to_le_bytes() => false,
            _ => return Err(format!("byte {place}: no byte order")),
        };
        self.interfaces.clear();
        Ok(())
    }

    fn describe(&mut self, body: &mut Fields, place: u64) -> Result<(), String> {
        if self.interfaces.len() == INTERFACES {
            return Err(format!(
                "byte {place}: more than {INTERFACES} interfaces are not read here"
            ));
        }
        self.interfaces.push(interface(body)?);
        Ok(())
    }

    fn interface(&self, number: usize, place: u64) -> Result<Interface, String> {
        let count = self.interfaces.len();
        self.interfaces.get(number).copied().ok_or_else(|| {
            format!("byte {place}: a packet of interface {number}, but {count} are described")
        })
    }

    fn packet(&mut self, kind: u32, place: u64, mut body: Fields) -> Result<(), String> {
        let number = match kind {
            ENHANCED_PACKET => body.long()? as usize,
            _ => {
                let number = body.short()?;
                body.short()?;
                number.into()
            }
        };
        let interface = self.interface(number, place)?;
        let (high, low) = (body.long()?, body.long()?);
        let length = body.long()? as usize;
        body.long()?;
        (self.take)(&Frame {
            place,
            time: Some(interface.nanoseconds(high, low)),
            link: interface.link,
            bytes: body.packet(length)?,
        })
    }

    /// A packet of the first interface, without a time.
    fn simple(&mut self, place: u64, mut body: Fields) -> Result<(), String> {
        let interface = self.interface(0, place)?;
        let mut length = body.long()?;
        if interface.most != 0 {
            length = length.min(interface.most);
        }
        (self.take)(&Frame {
            place,
            time: None,
            link: interface.link,
            bytes: body.packet(length as usize)?,
        })
    }
}

/// The four bytes at a place.
fn word(bytes: &[u8], place: usize) -> [u8; 4] {
    [0, 1, 2, 3].map(|k| bytes[place + k])
}

/// Reads this many bytes.
fn due(input: &mut Input<impl BufRead>, count: usize, held: &mut Vec<u8>) -> Result<(), String> {
    let place = input.place;
    match input.read(count, held)? {
        got if got < count => Err(lacking(place, count, got)),
        _ => Ok(()),
    }
}

fn interface(body: &mut Fields) -> Result<Interface, String> {
    let link = body.short()?;
    body.short()?;
    let mut interface = Interface {
        link,
        most: body.long()?,
        units: 1_000_000,
        offset: 0,
    };
    while !body.rest.is_empty() {
        let place = body.place;
        let (code, length) = (body.short()?, body.short()?.into());
        match (code, length) {
            (END_OF_OPTIONS, _) => break,
            (TIME_RESOLUTION, 1) => {
                let power = body.take(4)?[0];
                interface.units = units(power).ok_or_else(|| {
                    format!("byte {place}: a time resolution of {power} is out of reach")
                })?;
            }
            (TIME_OFFSET, 8) => interface.offset = i64::from_be_bytes(body.array()?),
            _ => {
                body.take(usize::next_multiple_of(length, 4))?;
            }
        }
    }
    Ok(interface)
}

/// The units of a second: a power of 10, or of 2 with the upper bit set.
fn units(power: u8) -> Option<i128> {
    let units = match power & 0x80 {
        0 => 10_i128.checked_pow(power.into()),
        _ => 2_i128.checked_pow((power & 0x7f).into()),
    };
    units.filter(|&units| units > 0)
}

//! The journal: records of one kind byte and a body whose length the kind
//! fixes. Read as a whole here; `stream` reads it as it comes.

use crate::payload_types;

/// Kind 0, no body.
pub const END: u8 = 0;
/// Kind 1: T140 and RED.
pub const OPEN: u8 = 1;
/// Kind 2: the packet's length.
pub const PACKET: u8 = 2;
/// Kind 3: the packet's next bytes.
pub const PIECE: u8 = 3;
/// Kind 4, skipped.
pub const TIME: u8 = 4;

/// The longest packet a journal can hold; longer than any that is read.
pub const LONGEST: usize = 1488;
pub const PIECE_BODY: usize = 16;
pub const TIME_BODY: usize = 8;

/// The end must stand among the first so many bytes.
pub const LIMIT: u64 = 1 << 40;

/// What a journal says.
#[derive(Clone, Debug, PartialEq, Eq)]
pub struct Journal {
    /// T140 and RED.
    pub opening: Option<(u8, u8)>,
    /// The packets up to the end or the break.
    pub packets: Vec<Vec<u8>>,
    pub finish: Finish,
    /// How many bytes show how the journal finishes.
    pub used: usize,
}

#[derive(Clone, Copy, Debug, PartialEq, Eq)]
pub enum Finish {
    End,
    Broken(Break),
}

/// Why a journal is broken.
#[derive(Clone, Copy, Debug, PartialEq, Eq, PartialOrd, Ord)]
pub enum Break {
    /// The bytes, or the first 2^40 of them, stop before the end record.
    Early,
    /// No such kind, or not in this place.
    Kind,
    /// Payload types that refusal 3 is given for.
    Types,
    /// A packet longer than 1,488 bytes.
    Length,
    /// The last piece is not filled with zeros.
    Filling,
}

impl Break {
    pub const ALL: [Break; 5] = [
        Break::Early,
        Break::Kind,
        Break::Types,
        Break::Length,
        Break::Filling,
    ];
}

pub fn read(journal: &[u8]) -> Journal {
    read_within(LIMIT, journal)
}

/// Reads a journal with another limit than 2^40.
pub fn read_within(limit: u64, journal: &[u8]) -> Journal {
    let limit = usize::try_from(limit).unwrap_or(usize::MAX);
    let within = &journal[..journal.len().min(limit)];
    let mut bytes = Bytes { rest: within };
    let mut read = Journal {
        opening: None,
        packets: vec![],
        finish: Finish::End,
        used: 0,
    };
    if let Err(why) = records(&mut bytes, &mut read) {
        read.finish = Finish::Broken(why);
    }
    read.used = within.len() - bytes.rest.len();
    read
}

/// Reads up to the end record.
fn records(bytes: &mut Bytes, journal: &mut Journal) -> Result<(), Break> {
    loop {
        match (bytes.kind()?, journal.opening) {
            (TIME, _) => bytes.skip(TIME_BODY)?,
            (OPEN, None) => journal.opening = Some(opening(bytes)?),
            (PACKET, Some(_)) => journal.packets.push(packet(bytes)?),
            (END, Some(_)) => return Ok(()),
            _ => return Err(Break::Kind),
        }
    }
}

fn opening(bytes: &mut Bytes) -> Result<(u8, u8), Break> {
    let [t140, red] = bytes.take::<2>()?;
    match payload_types(t140, red) {
        Ok(()) => Ok((t140, red)),
        Err(_) => Err(Break::Types),
    }
}

/// The length of a packet and its pieces.
fn packet(bytes: &mut Bytes) -> Result<Vec<u8>, Break> {
    let length = usize::from(u16::from_be_bytes(bytes.take()?));
    if length > LONGEST {
        return Err(Break::Length);
    }
    let mut packet = vec![];
    while packet.len() < length {
        if bytes.kind()? != PIECE {
            return Err(Break::Kind);
        }
        let piece = bytes.take::<PIECE_BODY>()?;
        let (part, filling) = piece.split_at((length - packet.len()).min(PIECE_BODY));
        if filling.iter().any(|&byte| byte != 0) {
            return Err(Break::Filling);
        }
        packet.extend(part);
    }
    Ok(packet)
}

/// The bytes not yet read.
struct Bytes<'a> {
    rest: &'a [u8],
}

impl Bytes<'_> {
    fn take<const N: usize>(&mut self) -> Result<[u8; N], Break> {
        match self.rest.split_first_chunk() {
            Some((&taken, rest)) => {
                self.rest = rest;
                Ok(taken)
            }
            None => {
                self.rest = &[];
                Err(Break::Early)
            }
        }
    }

    fn kind(&mut self) -> Result<u8, Break> {
        self.take().map(|[kind]| kind)
    }

    fn skip(&mut self, count: usize) -> Result<(), Break> {
        for _ in 0..count {
            self.kind()?;
        }
        Ok(())
    }
}

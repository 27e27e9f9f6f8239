//! Files of pcap, of either byte order, in microseconds or nanoseconds.

use std::io::BufRead;

use crate::input::Input;
use crate::Frame;

const FILE_HEADER: usize = 24;
const RECORD_HEADER: usize = 16;

const MICROSECONDS: u32 = 0xa1b2_c3d4;
const NANOSECONDS: u32 = 0xa1b2_3c4d;

/// What a file's first bytes say.
#[derive(Clone, Copy)]
struct Format {
    big_endian: bool,
    /// Nanoseconds of the smaller unit of time.
    unit: i128,
}

impl Format {
    fn of(capture: &[u8]) -> Option<Format> {
        let magic = *capture.first_chunk::<4>()?;
        for (big_endian, magic) in [
            (true, u32::from_be_bytes(magic)),
            (false, u32::from_le_bytes(magic)),
        ] {
            match magic {
                MICROSECONDS => {
                    return Some(Format {
                        big_endian,
                        unit: 1000,
                    })
                }
                NANOSECONDS => {
                    return Some(Format {
                        big_endian,
                        unit: 1,
                    })
                }
                _ => {}
            }
        }
        None
    }

    /// The number at a place of a header.
    fn number(&self, header: &[u8], place: usize) -> u32 {
        let bytes = [0, 1, 2, 3].map(|k| header[place + k]);
        match self.big_endian {
            true => u32::from_be_bytes(bytes),
            false => u32::from_le_bytes(bytes),
        }
    }
}

/// Whether a capture is of this kind.
pub fn starts(capture: &[u8]) -> bool {
    Format::of(capture).is_some()
}

/// Gives the packets of a file, in order.
pub fn frames(
    input: &mut Input<impl BufRead>,
    mut take: impl FnMut(&Frame) -> Result<(), String>,
) -> Result<(), String> {
    let mut held = vec![];
    let got = input.read(FILE_HEADER, &mut held)?;
    if got < FILE_HEADER {
        return Err(cut(0, "the file header", FILE_HEADER, got));
    }
    let format = Format::of(&held).ok_or("byte 0: no pcap")?;
    // The upper bits tell of a checksum behind each packet.
    let link = format.number(&held, 20) as u16;
    crate::link::known(link).map_err(|wrong| format!("byte 20: {wrong}"))?;
    while !input.is_at_end()? {
        let place = input.place;
        let got = input.read(RECORD_HEADER, &mut held)?;
        if got < RECORD_HEADER {
            return Err(cut(place, "a record's header", RECORD_HEADER, got));
        }
        let length = format.number(&held, 8) as usize;
        let seconds = i128::from(format.number(&held, 0));
        let smaller = i128::from(format.number(&held, 4));
        let packet = input.place;
        let got = input.read(length, &mut held)?;
        if got < length {
            return Err(cut(packet, "a packet", length, got));
        }
        take(&Frame {
            place,
            time: Some(seconds * 1_000_000_000 + smaller * format.unit),
            link,
            bytes: &held,
        })?;
    }
    Ok(())
}

fn cut(place: u64, what: &str, wanted: usize, left: usize) -> String {
    format!(
        "byte {place}: {what} takes {wanted} bytes, but {left} are left: the capture is cut off \
         or damaged; `tcpdump -r IN -w OUT` copies the packets before this place"
    )
}

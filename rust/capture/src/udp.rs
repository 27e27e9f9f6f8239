//! UDP in IPv4 and IPv6.

use crate::link::number;

const UDP: u8 = 17;

/// What an IP packet holds.
#[derive(Clone, Copy, Debug, PartialEq, Eq)]
pub enum Held<'a> {
    Udp(Udp<'a>),
    /// A part of a UDP packet.
    Fragment,
    /// UDP, but with headers that are cut short or make no sense.
    Malformed,
    Other,
}

#[derive(Clone, Copy, Debug, PartialEq, Eq)]
pub struct Udp<'a> {
    pub source: u16,
    pub destination: u16,
    /// What was captured of it.
    pub payload: &'a [u8],
    /// Whether all of it was.
    pub whole: bool,
}

pub fn held(packet: &[u8]) -> Held<'_> {
    let version = packet.first().map(|first| first >> 4);
    match version {
        Some(4) => held_in_4(packet).unwrap_or(Held::Malformed),
        Some(6) => held_in_6(packet).unwrap_or(Held::Malformed),
        _ => Held::Other,
    }
}

fn held_in_4(packet: &[u8]) -> Option<Held<'_>> {
    if *packet.get(9)? != UDP {
        return Some(Held::Other);
    }
    let header = usize::from(packet[0] & 0x0f) * 4;
    let more_or_offset = number(packet, 6)? & 0x3fff;
    if more_or_offset != 0 {
        return Some(Held::Fragment);
    }
    // 0 is written where the network card cuts packets up.
    let length = match usize::from(number(packet, 2)?) {
        0 => packet.len(),
        length => length,
    };
    if header < 20 || length < header {
        return None;
    }
    udp(packet.get(header..length.min(packet.len()))?)
}

fn held_in_6(packet: &[u8]) -> Option<Held<'_>> {
    let length = match usize::from(number(packet, 4)?) {
        0 => packet.len(),
        length => 40 + length,
    };
    let mut next = *packet.get(6)?;
    let mut rest = packet.get(40..length.min(packet.len()))?;
    loop {
        let extension = match next {
            UDP => return udp(rest),
            // Hop-by-hop options, routing, destination options.
            0 | 43 | 60 => 8 * (usize::from(*rest.get(1)?) + 1),
            // Authentication.
            51 => 4 * (usize::from(*rest.get(1)?) + 2),
            44 if number(rest, 2)? & 0xfff9 != 0 => {
                return Some(match rest[0] {
                    UDP => Held::Fragment,
                    _ => Held::Other,
                });
            }
            44 => 8,
            _ => return Some(Held::Other),
        };
        next = rest[0];
        rest = rest.get(extension..)?;
    }
}

fn udp(packet: &[u8]) -> Option<Held<'_>> {
    let (header, captured) = packet.split_first_chunk::<8>()?;
    let length = match usize::from(number(header, 4)?) {
        0 => captured.len(),
        length => length.checked_sub(8)?,
    };
    Some(Held::Udp(Udp {
        source: number(header, 0)?,
        destination: number(header, 2)?,
        payload: &captured[..length.min(captured.len())],
        whole: length <= captured.len(),
    }))
}

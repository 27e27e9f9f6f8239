//! What lies below IP.

const ETHERNET: u16 = 1;
const NULL: u16 = 0;
const LOOP: u16 = 108;
const COOKED: u16 = 113;
const COOKED_2: u16 = 276;
/// Raw IP under its several numbers, and IPv4 and IPv6 by themselves.
const RAW: [u16; 5] = [101, 12, 14, 228, 229];

const IPV4: u16 = 0x0800;
const IPV6: u16 = 0x86dd;
const VLANS: [u16; 3] = [0x8100, 0x88a8, 0x9100];
/// The most VLAN tags of a frame: one of the customer's, one of the
/// provider's, and as many again where providers carry each other's.
pub const TAGS: usize = 4;

/// The families of IPv4 and of IPv6 on the systems that capture loopback.
const FAMILIES: [u32; 5] = [2, 10, 24, 28, 30];

/// Whether the link type is one that is read here.
pub fn known(link: u16) -> Result<(), String> {
    let others = [ETHERNET, NULL, LOOP, COOKED, COOKED_2];
    match RAW.contains(&link) || others.contains(&link) {
        true => Ok(()),
        false => Err(format!(
            "link type {link} is not read here; Ethernet (1), loopback (0, 108), \
             Linux cooked (113, 276) and raw IP (101, 228, 229) are"
        )),
    }
}

/// What a frame carries.
#[derive(Clone, Copy, Debug, PartialEq, Eq)]
pub enum Carried<'a> {
    Ip(&'a [u8]),
    /// More VLAN tags than are read here.
    Tags,
    Other,
}

pub fn carried(link: u16, frame: &[u8]) -> Carried<'_> {
    let carried = match link {
        ETHERNET => above(frame, 12, 14),
        COOKED => above(frame, 14, 16),
        COOKED_2 => above(frame, 0, 20),
        NULL | LOOP => looped(link, frame),
        _ if RAW.contains(&link) => Some(Carried::Ip(frame)),
        _ => None,
    };
    carried.unwrap_or(Carried::Other)
}

/// What follows the address family.
fn looped(link: u16, frame: &[u8]) -> Option<Carried<'_>> {
    let (&family, packet) = frame.split_first_chunk()?;
    let big = u32::from_be_bytes(family);
    let little = u32::from_le_bytes(family);
    let is_ip = FAMILIES.contains(&big) || link == NULL && FAMILIES.contains(&little);
    is_ip.then_some(Carried::Ip(packet))
}

/// What the type at a place says to follow, past any VLAN tags.
fn above(frame: &[u8], place: usize, header: usize) -> Option<Carried<'_>> {
    let mut kind = number(frame, place)?;
    let mut rest = frame.get(header..)?;
    for _ in 0..=TAGS {
        match kind {
            IPV4 | IPV6 => return Some(Carried::Ip(rest)),
            _ if VLANS.contains(&kind) => {
                kind = number(rest, 2)?;
                rest = &rest[4..];
            }
            _ => return None,
        }
    }
    Some(Carried::Tags)
}

/// The 16-bit number at a place.
pub fn number(bytes: &[u8], place: usize) -> Option<u16> {
    let number = bytes.get(place..)?.first_chunk()?;
    Some(u16::from_be_bytes(*number))
}

//! Captures made byte by byte.
#![allow(dead_code)]

/// A packet of type T140 that holds this text.
pub fn text(sequence: u16, text: &str) -> Vec<u8> {
    let mut packet = vec![0x80, 98];
    packet.extend(sequence.to_be_bytes());
    packet.extend([0, 0, 0, 0, 0x5b, 0x8e, 0x47, 0x31]);
    packet.extend(text.bytes());
    packet
}

pub fn udp(source: u16, destination: u16, payload: &[u8]) -> Vec<u8> {
    let length = 8 + payload.len() as u16;
    let mut packet = vec![];
    for number in [source, destination, length, 0] {
        packet.extend(number.to_be_bytes());
    }
    packet.extend(payload);
    packet
}

/// An IPv4 packet of UDP.
pub fn ipv4(payload: &[u8]) -> Vec<u8> {
    let length = (20 + payload.len() as u16).to_be_bytes();
    let mut packet = vec![0x45, 0, length[0], length[1], 0, 0, 0, 0, 64, 17, 0, 0];
    packet.extend([192, 0, 2, 1, 192, 0, 2, 2]);
    packet.extend(payload);
    packet
}

/// An IPv6 packet with this next header.
pub fn ipv6(next: u8, payload: &[u8]) -> Vec<u8> {
    let length = (payload.len() as u16).to_be_bytes();
    let mut packet = vec![0x60, 0, 0, 0, length[0], length[1], next, 64];
    packet.extend([0xfd; 32]);
    packet.extend(payload);
    packet
}

pub fn ethernet(kinds: &[u8], packet: &[u8]) -> Vec<u8> {
    [&[2; 12], kinds, packet].concat()
}

/// Text to port 5004 in Ethernet and IPv4.
pub fn frame(sequence: u16, letters: &str) -> Vec<u8> {
    let packet = ipv4(&udp(40_000, 5004, &text(sequence, letters)));
    ethernet(&[8, 0], &packet)
}

/// Writes numbers in one byte order.
#[derive(Clone, Copy)]
pub struct Order {
    pub big: bool,
}

impl Order {
    pub fn long(self, number: u32) -> [u8; 4] {
        match self.big {
            true => number.to_be_bytes(),
            false => number.to_le_bytes(),
        }
    }

    pub fn short(self, number: u16) -> [u8; 2] {
        match self.big {
            true => number.to_be_bytes(),
            false => number.to_le_bytes(),
        }
    }
}

pub const BIG: Order = Order { big: true };
pub const LITTLE: Order = Order { big: false };

/// A pcap file of frames with their seconds and smaller units.
pub fn pcap(order: Order, magic: u32, link: u32, frames: &[(u32, u32, Vec<u8>)]) -> Vec<u8> {
    let mut file = order.long(magic).to_vec();
    file.extend(order.short(2));
    file.extend(order.short(4));
    for number in [0, 0, 65_535, link] {
        file.extend(order.long(number));
    }
    for (seconds, smaller, frame) in frames {
        let length = frame.len() as u32;
        for number in [*seconds, *smaller, length, length] {
            file.extend(order.long(number));
        }
        file.extend(frame);
    }
    file
}

/// A pcap file in microseconds of Ethernet frames, a second apart.
pub fn plain(frames: &[Vec<u8>]) -> Vec<u8> {
    of_link(1, frames)
}

pub fn of_link(link: u32, frames: &[Vec<u8>]) -> Vec<u8> {
    let frames: Vec<_> = (0..)
        .zip(frames)
        .map(|(k, frame)| (k, 0, frame.clone()))
        .collect();
    pcap(LITTLE, 0xa1b2_c3d4, link, &frames)
}

/// A block of pcapng.
pub fn block(order: Order, kind: u32, body: &[u8]) -> Vec<u8> {
    let mut padded = body.to_vec();
    padded.resize(body.len().next_multiple_of(4), 0);
    let length = order.long(12 + padded.len() as u32);
    [&order.long(kind)[..], &length, &padded, &length].concat()
}

pub fn section(order: Order) -> Vec<u8> {
    let mut body = order.long(0x1a2b_3c4d).to_vec();
    body.extend(order.short(1));
    body.extend(order.short(0));
    body.extend([0xff; 8]);
    block(order, 0x0a0d_0d0a, &body)
}

/// An interface with these options, each with its code.
pub fn interface(order: Order, link: u16, most: u32, options: &[(u16, &[u8])]) -> Vec<u8> {
    let mut body = order.short(link).to_vec();
    body.extend(order.short(0));
    body.extend(order.long(most));
    for (code, value) in options {
        body.extend(order.short(*code));
        body.extend(order.short(value.len() as u16));
        body.extend(*value);
        body.resize(body.len().next_multiple_of(4), 0);
    }
    if !options.is_empty() {
        body.extend([0; 4]);
    }
    block(order, 1, &body)
}

pub fn enhanced(order: Order, interface: u32, time: u64, frame: &[u8]) -> Vec<u8> {
    let length = frame.len() as u32;
    let mut body = vec![];
    for number in [interface, (time >> 32) as u32, time as u32, length, length] {
        body.extend(order.long(number));
    }
    body.extend(frame);
    block(order, 6, &body)
}

pub fn simple(order: Order, original: u32, frame: &[u8]) -> Vec<u8> {
    block(order, 3, &[&order.long(original), frame].concat())
}

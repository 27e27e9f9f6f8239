//! Packets of another maker's sender, and what is known of them.

use crate::check::hex;
use independent::{Packet, LEVEL};

const RED_WITH_STUN: &str = include_str!("../../captures/ms2_red_typed1.hex");
const RED_ALONE: &str = include_str!("../../captures/ms2_red_typed1_rtponly.hex");
const T140_WITH_STUN: &str = include_str!("../../captures/ms2_t140_typed1.hex");
const RED_LOSSY: &[u8] = include_bytes!("../../captures/ms2_red_typed1_lossy.pcap");

/// The headers of two empty older blocks, both 300 ms old.
const TWICE_300: [u8; 8] = [0xe2, 4, 0xb0, 0, 0xe2, 4, 0xb0, 0];

const TYPED: &str = "Hello, worldé€😀x\u{8}\n";

/// The packets of a capture in hex, one to a line.
fn lines(capture: &str) -> Vec<Vec<u8>> {
    capture.lines().map(packet).collect()
}

fn packet(line: &str) -> Vec<u8> {
    let digits = |place| u8::from_str_radix(&line[place..place + 2], 16);
    (0..line.len())
        .step_by(2)
        .map(|place| digits(place).expect("hex digits"))
        .collect()
}

/// The UDP payloads of a pcap file of IPv4 packets.
fn lossy() -> Vec<Vec<u8>> {
    const FILE_HEADER: usize = 24;
    const RECORD_HEADER: usize = 16;
    const IP_AND_UDP: usize = 28;
    let mut rest = &RED_LOSSY[FILE_HEADER..];
    let mut packets = vec![];
    while let Some(header) = rest.first_chunk::<RECORD_HEADER>() {
        let length = u32::from_le_bytes([header[8], header[9], header[10], header[11]]);
        let (record, after) = rest[RECORD_HEADER..].split_at(length as usize);
        packets.push(record[IP_AND_UDP..].to_vec());
        rest = after;
    }
    packets
}

/// The packets of all captures.
pub fn all() -> Vec<Vec<u8>> {
    let mut packets = lines(RED_WITH_STUN);
    packets.extend(lines(RED_ALONE));
    packets.extend(lines(T140_WITH_STUN));
    packets.extend(lossy());
    packets
}

fn read_all(packets: &[Vec<u8>]) -> Result<Vec<Packet<'_>>, String> {
    let read = |packet| {
        independent::read(None, 98, 100, packet)
            .map_err(|refusal| format!("refusal {refusal} of {}", hex(packet)))
    };
    packets.iter().map(|packet| read(packet)).collect()
}

/// The text of the primaries, in order.
fn spelled(packets: &[Packet<'_>]) -> Vec<u8> {
    packets
        .iter()
        .flat_map(|packet| packet.primary().iter().copied())
        .collect()
}

/// Each older block is the primary of the packet it repeats, and its
/// timestamp offset is the distance between the two.
fn repeats(packets: &[Packet<'_>]) -> Result<(), String> {
    for (place, packet) in packets.iter().enumerate() {
        let count = packet.older().len();
        for (k, older) in packet.older().enumerate() {
            let Some(earlier) = place.checked_sub(count - k) else {
                continue;
            };
            let earlier = &packets[earlier];
            let offset = packet.timestamp.wrapping_sub(earlier.timestamp);
            if packet.block(&older) != earlier.primary() || u32::from(older.offset) != offset {
                return Err(format!("packet {place} does not repeat block {k}"));
            }
        }
    }
    Ok(())
}

fn demand(holds: bool, what: &str) -> Result<(), String> {
    match holds {
        true => Ok(()),
        false => Err(format!("not so: {what}")),
    }
}

/// The older blocks in each packet of the captures with redundancy.
const REPEATED: usize = 2;

/// What is not checked where so many older blocks are not read.
pub fn left_out() -> Option<&'static str> {
    (LEVEL < REPEATED).then_some("what is known of the captures with redundancy")
}

/// Checks what the captures' makers say of them.
pub fn facts() -> Result<(), String> {
    let with_stun = lines(RED_WITH_STUN);
    let alone = lines(RED_ALONE);
    demand(with_stun.len() == 17, "17 packets with redundancy")?;
    demand(
        with_stun[2..] == alone,
        "the second file leaves out two packets",
    )?;
    let t140 = lines(T140_WITH_STUN);
    for stun in with_stun[..2].iter().chain(&t140[..2]) {
        let refusal = independent::read(None, 98, 100, stun).err();
        demand(refusal == Some(12), "STUN requests are refusal 12")?;
    }
    let read = read_all(&t140[2..])?;
    demand(
        spelled(&read) == TYPED.as_bytes(),
        "the primaries of T140 spell the text",
    )?;
    demand(
        read.iter().all(|packet| packet.older().len() == 0),
        "no older blocks",
    )?;
    // Packets are counted from 0.
    let kept = [0, 1, 2, 5, 6, 7, 8, 13, 14].map(|place| alone[place].clone());
    demand(lossy() == kept, "packets 3, 4 and 9 to 12 are left out")?;
    match left_out() {
        Some(_) => Ok(()),
        None => redundant(&alone),
    }
}

/// The same of the packets with redundancy.
fn redundant(packets: &[Vec<u8>]) -> Result<(), String> {
    let first = independent::read(None, 98, 100, &packets[0]).err();
    demand(
        packets[0][12..20] == TWICE_300 && first == Some(22),
        "the first packet's ages are 300 twice, refusal 22",
    )?;
    // With its oldest block dated 600 ms back it is read like the others.
    let mut dated = packets.to_vec();
    dated[0][13..15].copy_from_slice(&[0x09, 0x60]);
    let read = read_all(&dated)?;
    demand(
        spelled(&read) == TYPED.as_bytes(),
        "the primaries spell the text",
    )?;
    for (place, packet) in read.iter().enumerate() {
        let sequence = 65533u16.wrapping_add(place as u16);
        demand(packet.sequence == sequence, "sequence numbers from 65,533")?;
        demand(packet.older().len() == REPEATED, "two older blocks each")?;
    }
    repeats(&read)
}

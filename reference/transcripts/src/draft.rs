//! Random journals, as lists of records.

use independent::channel::{calls, deliveries, send, settings};
use independent::journal::{END, LONGEST, OPEN, PACKET, TIME};
use independent::maker;
use independent::random::Random;
use independent::recorder::Recorder;
use independent::sender::Settings;
use independent::LEVEL;

/// A journal's records: each of them, and a packet with all its pieces as
/// one.
pub type Draft = Vec<Vec<u8>>;

/// A good journal of some of a line's packets, with times. Now and then a
/// packet has another number, or all have from there on; and another maker's
/// sender repeats more than is read.
pub fn draft(random: &mut Random, packets: usize) -> Draft {
    let level = random.within(0, LEVEL);
    let settings = settings(random, level);
    let too_many = Settings {
        level: LEVEL + 1,
        ..settings
    };
    let line = match random.below(8) {
        0 => maker::line(random, &too_many, packets),
        1..4 => maker::line(random, &settings, packets),
        _ => send(settings, &calls(random, settings.buffering, 4 * packets)),
    };
    let mut draft = vec![];
    times(random, &mut draft);
    draft.push(vec![OPEN, settings.t140, settings.red]);
    let mut moved: u16 = 0;
    for mut delivery in deliveries(random, &line.packets) {
        times(random, &mut draft);
        let by = distance(random);
        let stray = if random.once_in(60) { by } else { 0 };
        if random.once_in(25) {
            moved = moved.wrapping_add(by);
        }
        move_on(&mut delivery.packet, moved.wrapping_add(stray));
        delivery.packet.truncate(LONGEST);
        draft.push(packet(&delivery.packet));
    }
    times(random, &mut draft);
    draft.push(vec![END]);
    draft
}

/// A packet's records.
pub fn packet(packet: &[u8]) -> Vec<u8> {
    Recorder::default().packet(packet).bytes
}

pub fn time(random: &mut Random) -> Vec<u8> {
    let mut record = vec![TIME];
    let small = random.once_in(2);
    record.extend((0..8).map(|_| match small {
        true => random.below(5) as u8,
        false => random.byte(),
    }));
    record
}

fn times(random: &mut Random, draft: &mut Draft) {
    while random.once_in(3) {
        draft.push(time(random));
    }
}

/// How far a number is moved, often to a limit of what is forward or late.
fn distance(random: &mut Random) -> u16 {
    let any = random.number() as u16;
    let ahead = random.within(2_996, 3_001) as u16;
    let behind = (65_536 - random.within(97, 103)) as u16;
    random.pick(&[1, 5, ahead, behind, 32_767, 32_768, any, any])
}

/// Adds to a packet's number.
fn move_on(packet: &mut [u8], by: u16) {
    if let Some([_, _, high, low]) = packet.first_chunk_mut() {
        let number = u16::from_be_bytes([*high, *low]);
        [*high, *low] = number.wrapping_add(by).to_be_bytes();
    }
}

/// Bytes that are often kinds, payload types and lengths.
pub fn noise(random: &mut Random) -> Vec<u8> {
    let length = random.below(80);
    if random.once_in(4) {
        return random.bytes(length);
    }
    let mut journal = match random.once_in(3) {
        true => vec![],
        false => vec![OPEN, 98, 100],
    };
    for _ in 0..length {
        let any = random.byte();
        journal.push(random.pick(&[0, 0, 0, 1, 2, 2, 3, 3, 4, 16, 98, 100, any]));
    }
    journal
}

/// Whether a record of a draft is a packet with bytes.
pub fn has_pieces(record: &[u8]) -> bool {
    record.first() == Some(&PACKET) && record.len() > 3
}

//! The journal that is timed: a line that loses, delays and damages packets.

use independent::random::Random;
use independent::recorder::Recorder;

const T140: u8 = 98;
const RED: u8 = 100;

/// The older blocks of its RED packets.
pub const OLDER: usize = 2;

/// A journal and how many packets of each kind it holds.
pub struct Workload {
    pub journal: Vec<u8>,
    pub red: usize,
    pub t140: usize,
    /// After a loss, or late.
    pub displaced: usize,
    pub damaged: usize,
}

/// Of ten packets six are RED with two older blocks of 0 to 6 letters, two
/// T140, one comes after a loss or late, one is damaged. Each has its time.
pub fn workload(seed: u64, packets: usize) -> Workload {
    let mut random = Random::new(seed);
    let mut line = Line {
        sequence: 65_000,
        blocks: Default::default(),
    };
    let mut recorder = Recorder::open(T140, RED);
    let mut counts = [0; 4];
    for k in 0..packets {
        line.type_on(&mut random);
        let (kind, packet) = match random.below(10) {
            0..=5 => (0, line.red()),
            6 | 7 => (1, line.t140()),
            8 => (2, line.displaced(&mut random)),
            _ => (3, damaged(&mut random, line.red())),
        };
        counts[kind] += 1;
        recorder = recorder.time(300 * k as u64).packet(&packet);
    }
    Workload {
        journal: recorder.end(),
        red: counts[0],
        t140: counts[1],
        displaced: counts[2],
        damaged: counts[3],
    }
}

/// The last blocks, oldest first, and the last one's number.
struct Line {
    sequence: u16,
    blocks: [Vec<u8>; OLDER + 1],
}

impl Line {
    fn type_on(&mut self, random: &mut Random) {
        self.blocks.rotate_left(1);
        self.blocks[OLDER] = letters(random);
        self.sequence = self.sequence.wrapping_add(1);
    }

    fn header(&self, payload_type: u8) -> Vec<u8> {
        let mut packet = vec![0x80, payload_type];
        packet.extend(self.sequence.to_be_bytes());
        packet.extend((300 * u32::from(self.sequence)).to_be_bytes());
        packet.extend([0x5b, 0x8e, 0x47, 0x31]);
        packet
    }

    fn red(&self) -> Vec<u8> {
        let mut packet = self.header(RED);
        for (older, offset) in self.blocks.iter().zip([600, 300]) {
            let header = 0xe200_0000 | offset << 10 | older.len() as u32;
            packet.extend(header.to_be_bytes());
        }
        packet.push(T140);
        packet.extend(self.blocks.concat());
        packet
    }

    fn t140(&self) -> Vec<u8> {
        let mut packet = self.header(T140);
        packet.extend(&self.blocks[OLDER]);
        packet
    }

    /// The packet after some that are lost, or one that is late.
    fn displaced(&mut self, random: &mut Random) -> Vec<u8> {
        let count = random.within(1, 8);
        if random.once_in(2) {
            for _ in 0..count {
                self.type_on(random);
            }
            return self.red();
        }
        let mut packet = self.red();
        let sequence = self.sequence.wrapping_sub(count as u16 + 1);
        packet[2..4].copy_from_slice(&sequence.to_be_bytes());
        packet
    }
}

/// 0 to 6 letters, nine of ten of them ASCII.
fn letters(random: &mut Random) -> Vec<u8> {
    let mut text = String::new();
    for _ in 0..random.within(0, 6) {
        text.push(match random.below(30) {
            0 => 'é',
            1 => '€',
            2 => '😀',
            _ => char::from(random.within(0x20, 0x7e) as u8),
        });
    }
    text.into_bytes()
}

/// A packet that is refused, each time in another way.
fn damaged(random: &mut Random, mut packet: Vec<u8>) -> Vec<u8> {
    match random.below(8) {
        0 => packet.truncate(random.below(12)),
        1 => packet[0] ^= 0x40,
        2 => packet[0] |= 0x0f,
        3 => {
            packet[0] |= 0x20;
            packet.push(0);
        }
        4 => packet[1] ^= 0x10,
        5 => packet[9] ^= 0x01,
        6 => packet[14] |= 0x03,
        _ => packet.push(0xff),
    }
    packet
}

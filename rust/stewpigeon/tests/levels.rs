//! The highest level: how many repeats are sent, read and used at most.

use stewpigeon::{read, Packet, Receiver, Refusal, Sender, Settings, Step};

const LEVEL: usize = Packet::LEVEL;

const SETTINGS: Settings = Settings {
    level: LEVEL,
    buffering: Settings::BUFFERING,
    rate: Settings::HIGHEST_RATE,
    t140: 98,
    red: 100,
    sequence: 65_530,
    timestamp: 1000,
    source: 7,
};

#[test]
fn openings() {
    for level in 0..=LEVEL {
        let sender = Sender::open(Settings { level, ..SETTINGS }).unwrap();
        assert_eq!(sender.settings().level, level);
    }
    // The level comes first.
    for (level, buffering) in [(LEVEL + 1, 300), (LEVEL + 1, 0), (usize::MAX, 300)] {
        let bad = Settings {
            level,
            buffering,
            ..SETTINGS
        };
        assert_eq!(Sender::open(bad).err(), Some(Refusal::Level));
    }
}

/// The bytes of packets with 0, 1, .. older blocks, all of whole rooms.
const LENGTHS: [usize; 8] = [173, 337, 501, 665, 829, 993, 1157, 1321];

#[test]
fn longest_packets() {
    let room = "å".repeat(Sender::ROOM / 2);
    for level in 1..=LEVEL {
        let mut sender = Sender::open(Settings { level, ..SETTINGS }).unwrap();
        let mut space = [0xee; Sender::LONGEST_PACKET];
        for (older, clock) in (0..=LEVEL).zip((0..).step_by(300)) {
            let length = LENGTHS[older.min(level)];
            sender.offer(clock, room.as_bytes()).unwrap();
            let before = sender.clone();
            space.fill(0xee);
            let refused = sender.clock(clock, &mut space[..length - 1]);
            assert_eq!(refused, Err(Refusal::Space));
            assert_eq!(sender, before);
            assert_eq!(space, [0xee; Sender::LONGEST_PACKET]);
            let packet = sender.clock(clock, &mut space[..length]).unwrap().unwrap();
            assert_eq!(packet.len(), length);
            let packet = read(Some(7), 98, 100, packet).unwrap();
            assert_eq!(packet.older().len(), older.min(level));
            assert_eq!(packet.primary, room.as_bytes());
        }
        // Without new text the primary is empty.
        let clock = 300 * (LEVEL as u64 + 1);
        let packet = sender.clock(clock, &mut space).unwrap().unwrap();
        assert_eq!(packet.len(), LENGTHS[level] - Sender::ROOM);
        let packet = read(Some(7), 98, 100, packet).unwrap();
        assert_eq!((packet.older().len(), packet.primary), (level, &b""[..]));
    }
    assert_eq!(Sender::LONGEST_PACKET, LENGTHS[LEVEL]);
}

/// A packet with so many older blocks, all empty, and then these bytes.
fn packet(sequence: u16, older: usize, rest: &[u8]) -> Vec<u8> {
    let [high, low] = sequence.to_be_bytes();
    let mut packet = vec![0x80, 100, high, low, 0, 0, 0, 0, 0, 0, 0, 7];
    for age in (1..=older as u8).rev() {
        packet.extend([0xe2, age, 0, 0]);
    }
    packet.extend(rest);
    packet
}

#[test]
fn block_headers() {
    for older in 0..=LEVEL {
        let packet = packet(5, older, &[0x62]);
        let packet = read(None, 98, 100, &packet).unwrap();
        assert_eq!(packet.older().len(), older);
    }
    for (older, rest, refusal) in [
        (LEVEL, &[][..], Refusal::BlockHeaders),
        (LEVEL, &[0xe2], Refusal::BlockCount),
        (LEVEL, &[0xe1, 0, 0, 0], Refusal::BlockCount),
        (LEVEL, &[0x61], Refusal::BlockType),
        (LEVEL + 1, &[], Refusal::BlockCount),
        (LEVEL + 1, &[0x62], Refusal::BlockCount),
    ] {
        let packet = packet(5, older, rest);
        assert_eq!(read(None, 98, 100, &packet), Err(refusal), "{packet:02x?}");
    }
}

/// So many lost packets are made good, and one more is a loss.
#[test]
fn losses() {
    for older in 0..=LEVEL {
        for loss in 0..=1 {
            let mut receiver = Receiver::open(98, 100).unwrap();
            receiver.step(&packet(65_535, 0, &[0x62])).unwrap();
            let lost = older as u16 + loss;
            let next = packet(lost, older, b"\x62A");
            let step = Step::Forward {
                loss,
                distance: lost as i16,
                older,
                given: older + 1,
                text: b"A",
            };
            assert_eq!(receiver.step(&next), Ok(step));
        }
    }
}

#[test]
fn messages() {
    assert_eq!(
        Refusal::Level.to_string(),
        format!("refused 1: repeat level above {LEVEL}; open with a level from 0 to {LEVEL}")
    );
    let longest = ["337", "501", "665", "829", "993", "1,157", "1,321"][LEVEL - 1];
    assert_eq!(
        Refusal::Space.to_string(),
        format!(
            "refused 8: lent packet space shorter than the packet due; \
             lend {longest} bytes, which hold every packet, and call again"
        )
    );
    assert_eq!(Refusal::BlockCount.meaning(), "an older block too many");
}

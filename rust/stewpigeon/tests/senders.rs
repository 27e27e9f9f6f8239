//! A sender's record, texts and log, lent apart.

use stewpigeon::lent::{self, sender_clock, sender_offer, sender_open, Guarded, Log, Pace, Texts};
use stewpigeon::{Sender, Settings};

const SETTINGS: Settings = Settings {
    level: Sender::LEVEL,
    buffering: 1,
    rate: Settings::RATE,
    t140: 98,
    red: 100,
    sequence: 0,
    timestamp: 0,
    source: 0,
};

/// The slots of the texts, and their bytes.
const SLOTS: usize = 1 + Sender::LEVEL;
const TEXTS: usize = SLOTS * Sender::ROOM;

/// What lies in slots that are not used.
const UNUSED: u64 = 0x9e37_79b9_7f4a_7c15;

#[test]
fn texts_of_a_sender() {
    let settings = Settings {
        rate: Settings::HIGHEST_RATE,
        ..SETTINGS
    };
    let mut sender = lent::Sender::ZERO;
    let mut texts = [0xee; TEXTS];
    let mut log = [UNUSED; 1000];
    assert_eq!(sender_open(&mut sender, &mut texts, settings), 0);
    assert_eq!(texts, [0; TEXTS]);
    // Each packet leaves its text where it waited, and the last text lies over
    // the first.
    let mut wanted = texts;
    let mut space = [0; Sender::LONGEST_PACKET];
    for (clock, letter) in (0..=SLOTS as u64).zip(b'a'..) {
        let slot = clock as usize % SLOTS;
        for (place, text) in [(0, &[letter; 7][..]), (7, &[letter; 90])] {
            let number = sender_offer(&mut sender, &mut texts, clock, text);
            wanted[slot * Sender::ROOM + place..][..text.len()].copy_from_slice(text);
            assert_eq!((number, sender.room, texts), (0, slot, wanted));
        }
        assert_eq!(
            (sender.len, sender.characters, sender.since),
            (97, 97, clock)
        );
        assert!(sender_clock(&mut sender, &mut texts, &mut log, clock, &mut space) > 0);
        assert_eq!((sender.len, sender.characters, sender.since), (0, 0, clock));
    }
    assert_eq!((sender.room, sender.count), (1, Sender::LEVEL));
    assert_eq!(sender.lens, [97; Sender::LEVEL]);
    assert!((2..=SLOTS as u64).rev().eq(sender.ats));
    assert_eq!(texts, wanted);

    // A refused opening leaves zeros.
    let bad = Settings {
        level: Sender::LEVEL + 1,
        ..settings
    };
    assert_eq!(sender_open(&mut sender, &mut texts, bad), 1);
    assert_eq!((sender, texts), (lent::Sender::ZERO, [0; TEXTS]));
}

/// At rate 2 twenty slots are used, in a circle.
#[test]
fn log_of_a_sender() {
    let settings = Settings {
        level: 0,
        rate: 2,
        ..SETTINGS
    };
    let mut sender = lent::Sender::ZERO;
    let mut texts: Texts = [0; TEXTS];
    let mut log = Guarded::<Log>::filled(|| UNUSED);
    let around = log.clone();
    let mut space = [0; Sender::LONGEST_PACKET];
    assert_eq!(sender_open(&mut sender, &mut texts, settings), 0);
    let mut wanted = [UNUSED; 1000];
    for (clock, typed, gone, next, used) in [
        (0, 14, 14, 14, 14),
        (5, 9, 6, 0, 20),
        (6, 1, 0, 0, 20),
        (10_000, 1, 0, 0, 20),
        (10_001, 20, 14, 14, 20),
        (10_006, 1, 6, 0, 20),
        (20_002, 1, 7, 7, 20),
        (20_007, 20, 13, 0, 20),
        (30_003, 1, 7, 7, 20),
        (30_008, 30, 13, 0, 20),
    ] {
        let text = vec![b'a'; typed];
        assert_eq!(sender_offer(&mut sender, &mut texts, clock, &text), 0);
        let from = sender.pace.next;
        let waits = sender.characters;
        let length = sender_clock(&mut sender, &mut texts, &mut log, clock, &mut space);
        let due = if gone == 0 { 0 } else { 12 + gone as i64 };
        assert_eq!((length, sender.pace), (due, Pace { next, used }));
        for back in 0..gone {
            wanted[(from + back) % 20] = clock;
        }
        assert_eq!(log.value(), wanted);
        assert_eq!(log.around(), around.around());
        assert_eq!(sender.characters, waits - gone);
        assert_eq!(sender.len, sender.characters);
    }
}

/// What is left behind goes to the front of the next slot; nothing else moves.
#[test]
fn leftovers_of_a_sender() {
    let settings = Settings {
        rate: 1,
        ..SETTINGS
    };
    let mut sender = lent::Sender::ZERO;
    let mut texts: Texts = [0; TEXTS];
    let mut log: Log = [UNUSED; 1000];
    let mut space = [0; Sender::LONGEST_PACKET];
    assert_eq!(sender_open(&mut sender, &mut texts, settings), 0);
    texts = [0xee; TEXTS];
    let text = "å".repeat(11);
    assert_eq!(sender_offer(&mut sender, &mut texts, 3, text.as_bytes()), 0);
    let before = (sender, texts, log);
    let refused = sender_clock(&mut sender, &mut texts, &mut log, 3, &mut space[..32]);
    assert_eq!((refused, (sender, texts, log)), (-8, before));
    assert_eq!(
        sender_clock(&mut sender, &mut texts, &mut log, 3, &mut space),
        12 + 1 + 20
    );
    let mut wanted = [0xee; TEXTS];
    wanted[..22].copy_from_slice(text.as_bytes());
    wanted[160..162].copy_from_slice("å".as_bytes());
    assert_eq!(texts, wanted);
    assert_eq!((sender.room, sender.len, sender.characters), (1, 2, 1));
    let mut lens = [0; Sender::LEVEL];
    lens[0] = 20;
    assert_eq!((sender.since, sender.lens), (3, lens));
}

#[test]
fn any_record_is_answered() {
    let mut sender = lent::Sender::ZERO;
    let mut texts: Texts = [b'a'; TEXTS];
    let mut log: Log = [0; 1000];
    sender.settings = Settings {
        buffering: 300,
        ..SETTINGS
    };
    (sender.room, sender.len, sender.count) = (usize::MAX, usize::MAX, usize::MAX);
    (sender.characters, sender.lens) = (usize::MAX, [usize::MAX; Sender::LEVEL]);
    sender.pace = Pace {
        next: usize::MAX,
        used: usize::MAX,
    };
    let before = sender;
    assert_eq!(sender_offer(&mut sender, &mut texts, 0, b"b"), 4);
    assert_eq!((sender, texts), (before, [b'a'; TEXTS]));
    // All slots are used, and their times lie within the ten seconds.
    let mut space = [0; Sender::LONGEST_PACKET];
    let length = sender_clock(&mut sender, &mut texts, &mut log, 0, &mut space);
    assert_eq!(length, Sender::LONGEST_PACKET as i64 - 160);
    assert_eq!(
        (sender.room, sender.len, sender.count),
        (1, 160, Sender::LEVEL)
    );
    sender.settings.rate = usize::MAX;
    let before = sender;
    let refused = sender_clock(&mut sender, &mut texts, &mut log, 10_001, &mut space);
    assert_eq!((refused, sender), (-9, before));
    sender.settings.rate = 30;
    let length = sender_clock(&mut sender, &mut texts, &mut log, 10_001, &mut space);
    assert_eq!(length, Sender::LONGEST_PACKET as i64 - 160);
    assert_eq!((sender.len, sender.pace.used), (0, 300));
    assert_eq!((log[..160].to_vec(), log[160]), (vec![10_001; 160], 0));
}

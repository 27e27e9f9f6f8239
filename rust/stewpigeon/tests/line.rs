use stewpigeon::{read, Packet, Receiver, Refusal, Sender, Settings, Step};

const SETTINGS: Settings = Settings {
    level: if Sender::LEVEL < 2 { 1 } else { 2 },
    buffering: Settings::BUFFERING,
    rate: Settings::RATE,
    t140: 98,
    red: 100,
    sequence: 65_535,
    timestamp: 1000,
    source: 7,
};

fn open(settings: Settings) -> Sender {
    Sender::open(settings).unwrap()
}

/// The packet due at this clock, copied.
fn sent(sender: &mut Sender, clock: u64) -> Vec<u8> {
    let mut space = [0; Sender::LONGEST_PACKET];
    let packet = sender.clock(clock, &mut space).unwrap();
    packet.expect("a packet is due").to_vec()
}

#[test]
fn refused_openings() {
    let refusal = |settings| Sender::open(settings).err();
    for buffering in [0, Settings::LONGEST_BUFFERING + 1] {
        let bad = Settings {
            buffering,
            ..SETTINGS
        };
        assert_eq!(refusal(bad), Some(Refusal::Buffering));
    }
    let bad = Settings {
        t140: 95,
        ..SETTINGS
    };
    assert_eq!(refusal(bad), Some(Refusal::PayloadTypes));
    for rate in [0, Settings::HIGHEST_RATE + 1, 257] {
        let bad = Settings { rate, ..SETTINGS };
        assert_eq!(refusal(bad), Some(Refusal::Rate));
    }
    assert_eq!(Receiver::open(98, 128), Err(Refusal::PayloadTypes));
}

#[test]
fn text_through_a_line_that_loses_a_packet() {
    let mut sender = open(SETTINGS);
    let mut receiver = Receiver::open(98, 100).unwrap();
    assert_eq!((receiver.source(), receiver.expected()), (None, None));
    sender.offer(0, b"A").unwrap();
    let first = sent(&mut sender, 0);
    sender.offer(10, b"B").unwrap();
    sent(&mut sender, 300);
    sender.offer(310, b"C").unwrap();
    let third = sent(&mut sender, 600);

    let step = Step::Forward {
        loss: 0,
        distance: 0,
        older: 0,
        given: 1,
        text: b"A",
    };
    assert_eq!(receiver.step(&first), Ok(step));
    let Ok(Step::Forward {
        loss,
        distance,
        older,
        given,
        text,
    }) = receiver.step(&third)
    else {
        panic!("the third packet is forward");
    };
    assert_eq!((loss, distance, older, given), (0, 1, SETTINGS.level, 2));
    assert_eq!(text, b"BC");
    // It is the packet's own bytes.
    assert!(std::ptr::eq(text, &third[third.len() - 2..]));
    assert_eq!(receiver.step(&third), Ok(Step::Late { distance: -1 }));
    assert_eq!((receiver.source(), receiver.expected()), (Some(7), Some(2)));
}

#[test]
fn refusals_change_nothing() {
    let mut sender = open(SETTINGS);
    sender.offer(5, b"A").unwrap();
    let before = sender.clone();
    let long = [b'a'; Sender::ROOM];
    for (clock, text, refusal) in [
        (4, &b"B"[..], Refusal::Clock),
        (5, b"", Refusal::NoText),
        (5, &[0xff], Refusal::Text),
        (5, &long, Refusal::WaitingRoom),
    ] {
        assert_eq!(sender.offer(clock, text), Err(refusal));
    }
    assert_eq!(sender.clock(9, &mut [0; 13]), Err(Refusal::Space));
    assert_eq!(sender.clock(4, &mut [0; 99]), Err(Refusal::Clock));
    assert_eq!(sender, before);

    let mut receiver = Receiver::open(98, 100).unwrap();
    let before = receiver.clone();
    let long = [0x80; Packet::LONGEST + 1];
    assert_eq!(receiver.step(&long), Err(Refusal::Long));
    let short = &long[..Packet::SHORTEST - 1];
    assert_eq!(receiver.step(short), Err(Refusal::Short));
    assert_eq!(receiver, before);
}

/// What a packet of impossible ages held comes with the next one's repeats.
#[test]
fn impossible_ages() {
    let mut sender = open(SETTINGS);
    let mut receiver = Receiver::open(98, 100).unwrap();
    let mut packets = vec![];
    for (k, text) in [b"A", b"B", b"C"].into_iter().enumerate() {
        let clock = 300 * k as u64;
        sender.offer(clock, text).unwrap();
        packets.push(sent(&mut sender, clock));
    }
    receiver.step(&packets[0]).unwrap();
    let before = receiver.clone();
    let second = &mut packets[1];
    assert_eq!(read(None, 98, 100, second).unwrap().older()[0].offset, 300);
    second[13..15].fill(0);
    assert_eq!(receiver.step(second), Err(Refusal::BlockAges));
    assert_eq!(receiver, before);
    let Ok(Step::Forward { loss, text, .. }) = receiver.step(&packets[2]) else {
        panic!("the third packet is forward");
    };
    assert_eq!((loss, text), (0, &b"BC"[..]));
}

#[test]
fn texts_no_longer_kept_do_not_count() {
    let line = |first: &[u8]| {
        let mut sender = open(SETTINGS);
        let texts = [first].into_iter().chain([&b"B"[..]; Sender::LEVEL]);
        for (clock, text) in (0..).step_by(300).zip(texts) {
            sender.offer(clock, text).unwrap();
            sent(&mut sender, clock);
        }
        sender
    };
    assert_eq!(line(b"A"), line(b"a"));
    let mut other = line(b"A");
    other.offer(300 * Sender::LEVEL as u64, b"F").unwrap();
    assert_ne!(line(b"A"), other);
}

/// Text beyond the rate waits, whole letters of it, and repeats go on.
#[test]
fn text_beyond_the_rate() {
    let mut sender = open(Settings {
        rate: 1,
        ..SETTINGS
    });
    sender.offer(0, "å".repeat(11).as_bytes()).unwrap();
    let first = sent(&mut sender, 0);
    let packet = read(Some(7), 98, 100, &first).unwrap();
    assert_eq!(packet.primary, "å".repeat(10).as_bytes());
    assert_eq!(sender.waiting(), "å".as_bytes());
    for clock in (300..).step_by(300).take(SETTINGS.level) {
        let repeat = sent(&mut sender, clock);
        let repeat = read(Some(7), 98, 100, &repeat).unwrap();
        assert_eq!(repeat.older()[0].text, packet.primary);
        assert_eq!(repeat.primary, b"");
    }
    let mut space = [0; Sender::LONGEST_PACKET];
    assert_eq!(sender.clock(10_000, &mut space), Ok(None));
    let last = sent(&mut sender, 10_001);
    let packet = read(Some(7), 98, 100, &last).unwrap();
    assert_eq!((packet.primary, packet.marker), ("å".as_bytes(), false));
    assert_eq!(sender.waiting(), b"");
}

#[test]
fn times_of_characters_count() {
    let line = |clock| {
        let mut sender = open(Settings {
            level: 0,
            ..SETTINGS
        });
        for clock in [clock, 1000, 2000, 3000, 4000] {
            sender.offer(clock, b"A").unwrap();
            sent(&mut sender, clock);
        }
        sender
    };
    assert_eq!(line(0), line(0));
    assert_ne!(line(0), line(1));
}

//! The captures of another maker's sender, from the capture to the text.

use capture::convert;
use capture::options::Options;
use independent::journal;
use independent::transcript::transcript;

mod stored;

const RED: &[u8] = include_bytes!("../../../reference/captures/ms2_red_typed1.hex");
const RED_ALONE: &[u8] = include_bytes!("../../../reference/captures/ms2_red_typed1_rtponly.hex");
const T140: &[u8] = include_bytes!("../../../reference/captures/ms2_t140_typed1.hex");
const LOSSY: &[u8] = include_bytes!("../../../reference/captures/ms2_red_typed1_lossy.pcap");

const TYPED: &str = "Hello, worldé€😀x\u{8}\n";

fn printed(capture: &[u8], options: &Options) -> String {
    let converted = convert(capture, options).unwrap();
    assert_eq!(converted.notes, [""; 0]);
    String::from_utf8(transcript(&converted.journal)).unwrap()
}

/// The first RED packet is refused for its ages, and its text comes with the
/// next ones' repeats.
#[test]
fn typed_text() {
    let red = |counts, packets| stored::red(TYPED, counts, packets);
    for (capture, expected) in [
        (RED, red("packets 14 late 0 lost 0 refused 3", 17)),
        (RED_ALONE, red("packets 14 late 0 lost 0 refused 1", 15)),
        (
            T140,
            format!("{TYPED}\npackets 7 late 0 lost 0 refused 2\n"),
        ),
    ] {
        assert_eq!(printed(capture, &Options::default()), expected);
    }
}

#[test]
fn lossy_line() {
    for ports in [vec![], vec![40_001], vec![40_011], vec![5004, 40_001]] {
        let options = Options {
            ports,
            ..Options::default()
        };
        assert_eq!(printed(LOSSY, &options), stored::lossy());
    }
}

/// A time before each packet: the whole milliseconds since the first.
#[test]
fn times() {
    let journal = convert(LOSSY, &Options::default()).unwrap().journal;
    let packets = journal::read(&journal).packets;
    let mut rest = &journal[3..];
    let mut times = vec![];
    for packet in packets {
        let (record, after) = rest.split_at(9);
        assert_eq!(record[0], journal::TIME);
        times.push(u64::from_be_bytes(record[1..].try_into().unwrap()));
        rest = &after[3 + 17 * packet.len().div_ceil(16)..];
    }
    assert_eq!(rest, [journal::END]);
    assert_eq!(times, [0, 300, 599, 1500, 2199, 2499, 2800, 5999, 6299]);
}

#[test]
fn wrong_settings() {
    let wrong = |options: &Options| convert(LOSSY, options).unwrap_err();
    let port = Options {
        ports: vec![5004],
        ..Options::default()
    };
    let seen = "these may be RTP: payload type 100 to port 40001 (9)";
    assert!(wrong(&port).contains(seen));
    let types = Options {
        t140: Some(110),
        red: Some(111),
        ..Options::default()
    };
    assert!(wrong(&types).contains(seen));
    // With the port all is taken, and a note says what it is.
    let both = Options {
        ports: vec![40_001],
        ..types
    };
    let notes = convert(LOSSY, &both).unwrap().notes;
    let note = "no packet taken has payload type 110 or 111; payload types in them: 100 (9)";
    assert_eq!(notes, [note]);
    // Hex lines have no ports.
    assert!(convert(RED, &port)
        .unwrap_err()
        .contains("leave --port out"));
}

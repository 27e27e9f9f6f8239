//! Files of pcapng, made block by block, and captures that are cut off.

use capture::convert;
use capture::input::Input;
use capture::options::Options;
use capture::pcapng;

mod making;
use making::*;

const ENHANCED: u32 = 6;

/// A frame's time, link type and bytes.
type Seen = (Option<i128>, u16, Vec<u8>);

fn read(file: &[u8]) -> Result<Vec<Seen>, String> {
    let mut seen = vec![];
    pcapng::frames(&mut Input::new(file), |frame| {
        seen.push((frame.time, frame.link, frame.bytes.to_vec()));
        Ok(())
    })?;
    Ok(seen)
}

#[test]
fn both_orders() {
    for order in [BIG, LITTLE] {
        let file = [
            section(order),
            interface(order, 1, 0, &[]),
            enhanced(order, 0, 0x1_0000_0001, b"first"),
            block(order, 0x0bad_beef, b"unknown"),
            simple(order, 6, b"second"),
        ]
        .concat();
        let expected: [Seen; 2] = [
            (Some(0x1_0000_0001 * 1000), 1, b"first".into()),
            (None, 1, b"second".into()),
        ];
        assert_eq!(read(&file).unwrap(), expected);
    }
}

/// Sections of different orders, each with its own interfaces.
#[test]
fn sections_and_interfaces() {
    let file = [
        section(BIG),
        interface(BIG, 1, 0, &[(9, &[9])]),
        interface(
            BIG,
            113,
            4,
            &[(2, b"eth0"), (9, &[0x8a]), (14, &[0, 0, 0, 0, 0, 0, 0, 2])],
        ),
        enhanced(BIG, 0, 5, b"a"),
        enhanced(BIG, 1, 512, b"b"),
        section(LITTLE),
        interface(LITTLE, 101, 4, &[(14, &[0xff; 8])]),
        enhanced(LITTLE, 0, 3_000_000, b"c"),
        simple(LITTLE, 9, b"dddd"),
        block(
            LITTLE,
            2,
            &[
                &[0; 4][..],
                &[0; 4],
                &[7, 0, 0, 0],
                &[1, 0, 0, 0],
                &[1, 0, 0, 0],
                b"e",
            ]
            .concat(),
        ),
    ]
    .concat();
    let expected: [Seen; 5] = [
        (Some(5), 1, b"a".into()),
        (Some(2_500_000_000), 113, b"b".into()),
        (Some(2_000_000_000), 101, b"c".into()),
        (None, 101, b"dddd".into()),
        (Some(7000 - 1_000_000_000), 101, b"e".into()),
    ];
    assert_eq!(read(&file).unwrap(), expected);
}

/// The order before a section says nothing of its length.
#[test]
fn order_changes() {
    for orders in [[BIG, LITTLE, BIG], [LITTLE, BIG, LITTLE]] {
        let part = |order| {
            let parts = [
                section(order),
                interface(order, 1, 0, &[]),
                enhanced(order, 0, 1, b"a"),
            ];
            parts.concat()
        };
        let file = orders.map(part).concat();
        let expected: [Seen; 3] = [1, 1, 1].map(|link| (Some(1000), link, b"a".into()));
        assert_eq!(read(&file).unwrap(), expected);
    }
}

#[test]
fn damaged_blocks() {
    let start = [section(LITTLE), interface(LITTLE, 1, 0, &[])].concat();
    let place = start.len();
    let with = |block: &[u8]| [&start, block].concat();
    let mut lengths = enhanced(LITTLE, 0, 0, b"abcd");
    *lengths.last_mut().unwrap() = 1;
    let mut odd = enhanced(LITTLE, 0, 0, b"abcd");
    odd[4] += 1;
    let mut long = enhanced(LITTLE, 0, 0, b"abcd");
    long[8 + 12] = 5;
    let mut order = section(LITTLE);
    order[9] = 0;
    let resolution = interface(LITTLE, 1, 0, &[(9, &[60])]);
    for (file, expected) in [
        (
            with(&lengths),
            format!("byte {}: the block's two lengths differ", place + 32),
        ),
        (
            with(&odd),
            format!("byte {}: a block cannot have 37 bytes", place + 4),
        ),
        (
            with(&long),
            format!("byte {}: 5 bytes are due, but 4 are left", place + 28),
        ),
        (
            with(&enhanced(LITTLE, 1, 0, b"")),
            format!("byte {place}: a packet of interface 1, but 1"),
        ),
        (
            with(&block(LITTLE, ENHANCED, b"")),
            format!("byte {}: 4 bytes are due", place + 8),
        ),
        (
            with(&resolution),
            format!("byte {}: a time resolution of 60", place + 16),
        ),
        (with(&order), format!("byte {}: no byte order", place + 8)),
        (
            [section(BIG), simple(BIG, 1, b"a")].concat(),
            "byte 28: a packet of interface 0, but 0".into(),
        ),
    ] {
        let wrong = read(&file).unwrap_err();
        assert!(wrong.starts_with(&expected), "{wrong}");
    }
}

/// Every cut that is not between records is refused, and its place told.
#[test]
fn cut_off() {
    let packets = [frame(1, "a"), frame(2, "b")];
    let pcap = plain(&packets);
    let ends = [24 + 16 + packets[0].len(), pcap.len()];
    for length in 4..pcap.len() {
        let result = convert(&pcap[..length], &Options::default());
        let Err(wrong) = result else {
            assert!(ends.contains(&length));
            continue;
        };
        assert!(wrong.starts_with("byte ") || length == 24, "{wrong}");
    }
    let pcapng = [
        section(BIG),
        interface(BIG, 1, 0, &[]),
        enhanced(BIG, 0, 0, &packets[0]),
    ]
    .concat();
    for length in 4..pcapng.len() {
        let wrong = convert(&pcapng[..length], &Options::default()).unwrap_err();
        let between = [28, 48].contains(&length);
        assert_eq!(wrong.starts_with("byte "), !between, "{length}: {wrong}");
    }
}

//! Every kind of capture and of link, made byte by byte.

use capture::convert;
use capture::options::Options;
use independent::journal;
use independent::transcript::transcript;

mod making;
use making::*;

fn text_of(capture: &[u8]) -> String {
    let converted = convert(capture, &Options::default()).unwrap();
    assert_eq!(converted.notes, [""; 0]);
    let printed = String::from_utf8(transcript(&converted.journal)).unwrap();
    printed.split('\n').next().unwrap().into()
}

fn wrong(capture: &[u8]) -> String {
    convert(capture, &Options::default()).unwrap_err()
}

/// The times before the packets of a journal, which have one piece each.
fn times(capture: &[u8]) -> Vec<u64> {
    let journal = convert(capture, &Options::default()).unwrap().journal;
    let (records, _) = journal[3..].as_chunks::<29>();
    let time = |record: &[u8; 29]| u64::from_be_bytes(record[1..9].try_into().unwrap());
    records.iter().map(time).collect()
}

#[test]
fn pcap_orders_and_units() {
    for order in [BIG, LITTLE] {
        for (magic, smaller) in [(0xa1b2_c3d4, 1000), (0xa1b2_3c4d, 1_000_000)] {
            let frames = [
                (7, 999 * smaller, frame(1, "a")),
                (8, 0, frame(2, "b")),
                (9, 5 * smaller + smaller / 2, frame(3, "c")),
                (6, 0, frame(4, "d")),
            ];
            let file = pcap(order, magic, 1, &frames);
            assert_eq!(text_of(&file), "abcd");
            assert_eq!(times(&file), [0, 1, 1006, 0]);
        }
    }
}

#[test]
fn links() {
    let four = ipv4(&udp(40_000, 5004, &text(1, "a")));
    let six = ipv6(17, &udp(40_000, 5004, &text(1, "a")));
    let vlan = [0x81, 0, 0, 5, 8, 0];
    let two = [0x88, 0xa8, 0, 5, 0x81, 0, 0, 6, 0x86, 0xdd];
    let cooked = |kind: [u8; 2]| [&[0; 14][..], &kind].concat();
    let cooked_2 = |kind: [u8; 2]| [&kind[..], &[0; 18]].concat();
    let cases = [
        (1, ethernet(&[8, 0], &four)),
        (1, ethernet(&[0x86, 0xdd], &six)),
        (1, ethernet(&vlan, &four)),
        (1, ethernet(&two, &six)),
        (1 | 0x5400_0000, ethernet(&[8, 0], &four)),
        (113, [cooked([8, 0]), four.clone()].concat()),
        (113, [cooked([0x86, 0xdd]), six.clone()].concat()),
        (
            113,
            [cooked([0x81, 0]), vec![0, 5, 8, 0], four.clone()].concat(),
        ),
        (276, [cooked_2([8, 0]), four.clone()].concat()),
        (276, [cooked_2([0x86, 0xdd]), six.clone()].concat()),
        (101, four.clone()),
        (101, six.clone()),
        (12, four.clone()),
        (228, four.clone()),
        (229, six.clone()),
        (0, [&[2, 0, 0, 0][..], &four].concat()),
        (0, [&[0, 0, 0, 30][..], &six].concat()),
        (0, [&[24, 0, 0, 0][..], &six].concat()),
        (108, [&[0, 0, 0, 2][..], &four].concat()),
    ];
    for (link, frame) in cases {
        assert_eq!(text_of(&of_link(link, &[frame])), "a", "link {link}");
    }
    let wrong = wrong(&of_link(105, &[four]));
    assert!(wrong.starts_with("byte 20: link type 105 is not read here"));
}

#[test]
fn ip_headers() {
    let payload = udp(40_000, 5004, &text(1, "a"));
    let mut options = ipv4(&[&[1; 4][..], &payload].concat());
    options[0] = 0x46;
    let mut no_length = ipv4(&payload);
    no_length[2..4].fill(0);
    let hop = ipv6(
        0,
        &[&[43, 0, 0, 0, 0, 0, 0, 0][..], &[17, 1], &[0; 14], &payload].concat(),
    );
    let atomic = ipv6(44, &[&[17, 0, 0, 0, 9, 9, 9, 9][..], &payload].concat());
    let checked = ipv6(51, &[&[17, 4][..], &[0; 22], &payload].concat());
    for packet in [options, no_length, hop, atomic, checked] {
        assert_eq!(text_of(&of_link(101, &[packet])), "a");
    }
    // Bytes behind the packet, as the shortest Ethernet frame has.
    let padded = ethernet(&[8, 0], &[ipv4(&payload), vec![0; 30]].concat());
    assert_eq!(text_of(&plain(&[padded])), "a");
}

#[test]
fn skipped_packets() {
    let good = frame(1, "a");
    let mut first = frame(2, "b");
    first[14 + 6] = 0x20;
    let mut last = frame(2, "b");
    last[14 + 7] = 1;
    let fragment_6 = ipv6(44, &[&[17, 0, 0, 1][..], &[0; 30]].concat());
    let short = frame(2, "bcdef");
    let mut damaged = frame(2, "b");
    damaged[14 + 20 + 5] = 7;
    let long = ipv4(&udp(40_000, 5004, &text(2, &"b".repeat(1477))));
    let tcp = {
        let mut tcp = frame(2, "b");
        tcp[14 + 9] = 6;
        tcp
    };
    let frames = [
        good,
        first,
        last,
        ethernet(&[0x86, 0xdd], &fragment_6),
        short[..short.len() - 1].to_vec(),
        short[..14 + 22].to_vec(),
        damaged,
        ethernet(&[8, 0], &long),
        tcp,
        ethernet(&[8, 6], &[0; 28]),
        vec![1, 2, 3],
        frame(2, "z"),
    ];
    let converted = convert(&plain(&frames)[..], &Options::default()).unwrap();
    assert_eq!(journal::read(&converted.journal).packets.len(), 2);
    let place = 24
        + frames[..7]
            .iter()
            .map(|frame| 16 + frame.len())
            .sum::<usize>();
    let expected = [
        format!(
            "skipped 1, longer than the 1488 bytes that a journal can hold: \
             packet 8 at byte {place} (1489 bytes)"
        ),
        "skipped 1 of which the capture has only a part; capture with `-s 0`".into(),
        "skipped 3 that are fragments of UDP packets; they are not put together".into(),
        "skipped 2 whose IP or UDP header is cut short or damaged".into(),
    ];
    assert_eq!(converted.notes, expected);
    let longest = ipv4(&udp(40_000, 5004, &text(2, &"b".repeat(1476))));
    assert_eq!(
        convert(&of_link(101, &[longest])[..], &Options::default())
            .unwrap()
            .notes,
        [""; 0]
    );
}

#[test]
fn choice() {
    let mut other = text(9, "other");
    other[8] = 0;
    let datagrams = [
        udp(5004, 7000, &text(1, "a")),
        udp(7000, 5004, &other),
        udp(7000, 7002, &text(2, "b")),
        udp(7000, 5004, b"not RTP"),
        udp(53, 53, b"a query"),
    ];
    let file = of_link(101, &datagrams.map(|datagram| ipv4(&datagram)));
    let chosen = |ports: &[u16], ssrc| {
        let options = Options {
            ports: ports.to_vec(),
            ssrc,
            ..Options::default()
        };
        let converted = convert(&file[..], &options).unwrap();
        let printed = transcript(&converted.journal);
        (String::from_utf8(printed).unwrap(), converted.notes)
    };
    let (printed, notes) = chosen(&[], None);
    assert_eq!(printed, "ab\npackets 2 late 0 lost 0 refused 1\n");
    assert_eq!(notes.len(), 1);
    assert!(notes[0].starts_with("packets of 2 sources: 0x008e4731 (1), 0x5b8e4731 (2); "));
    let (printed, _) = chosen(&[5004], None);
    assert_eq!(printed, "a\npackets 1 late 0 lost 0 refused 2\n");
    let (printed, _) = chosen(&[7002, 5004], Some(0x5b8e_4731));
    assert_eq!(printed, "ab\npackets 2 late 0 lost 0 refused 0\n");
    let (printed, notes) = chosen(&[], Some(0x008e_4731));
    assert_eq!(printed, "other\npackets 1 late 0 lost 0 refused 0\n");
    assert_eq!(notes, [""; 0]);
}

#[test]
fn hex_lines() {
    let lines = b"# a line\n\n 80 62 0001 00000000 5b8e4731 61 # its text\r\n\
                  8062000200000000 5B8E4731 62";
    assert_eq!(text_of(lines), "ab");
    let journal = convert(&lines[..], &Options::default()).unwrap().journal;
    assert_eq!(journal[3], journal::PACKET, "no times");
    for (lines, expected) in [
        (&b"80\n8x\n"[..], "line 2, column 2: 'x' is no hex digit"),
        (b"80\n# all\n806\n", "line 3: 3 hex digits"),
        (b"80 \xff", "line 1, column 4: 'ÿ' is no hex digit"),
        (b"# nothing\n", "no packet to take"),
    ] {
        let wrong = wrong(lines);
        assert!(wrong.starts_with(expected), "{wrong}");
    }
    let long = "00".repeat(1489);
    let notes = convert(format!("80\n{long}").as_bytes(), &Options::default());
    let notes = notes.unwrap().notes;
    assert!(
        notes[0].ends_with("can hold: line 2 (1489 bytes)"),
        "{notes:?}"
    );
}

#[test]
fn other_input() {
    for (input, expected) in [
        (&b""[..], "the input is empty"),
        (b"\n\n", "byte 0: [0a, 0a]"),
        (b"\x1f\x8b\x08", "the input is compressed"),
        (b"GIF89a", "byte 0: [47, 49, 46, 38]"),
        (b"\xd4\xc3", "byte 0: [d4, c3]"),
    ] {
        let wrong = wrong(input);
        assert!(wrong.starts_with(expected), "{wrong}");
    }
}

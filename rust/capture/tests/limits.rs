//! Captures that are larger, deeper or later than any call is.

use std::io::Write;
use std::process::{Command, Output, Stdio};
use std::thread;

use capture::convert;
use capture::options::Options;
use independent::journal;
use independent::transcript::transcript;

mod making;
use making::*;

fn printed(capture: &[u8]) -> (String, Vec<String>) {
    let converted = convert(capture, &Options::default()).unwrap();
    let printed = String::from_utf8(transcript(&converted.journal)).unwrap();
    (printed, converted.notes)
}

/// Runs the command with so many KiB of memory in all; what it reads is made
/// as it goes.
fn within(kibibytes: u32, parts: impl Iterator<Item = Vec<u8>> + Send + 'static) -> Output {
    let mut child = Command::new("sh")
        .args(["-c", &format!("ulimit -v {kibibytes} && exec \"$0\"")])
        .arg(env!("CARGO_BIN_EXE_capture-to-journal"))
        .stdin(Stdio::piped())
        .stdout(Stdio::piped())
        .stderr(Stdio::piped())
        .spawn()
        .unwrap();
    let mut input = child.stdin.take().unwrap();
    let writer = thread::spawn(move || {
        for part in parts {
            if input.write_all(&part).is_err() {
                break;
            }
        }
    });
    let output = child.wait_with_output().unwrap();
    writer.join().unwrap();
    output
}

/// As many times as fills 48 MiB.
fn filling(part: Vec<u8>) -> impl Iterator<Item = Vec<u8>> {
    let parts = part.repeat((1 << 20) / part.len());
    std::iter::repeat_n(parts, 48)
}

#[test]
fn many_vlan_tags() {
    let packet = ipv4(&udp(40_000, 5004, &text(1, "a")));
    let tagged = |count: usize| {
        let tags = [&[0x81, 0, 0, 5].repeat(count)[..], &[8, 0]].concat();
        ethernet(&tags, &packet)
    };
    let (text, notes) = printed(&plain(&[tagged(4), tagged(0)]));
    assert_eq!(text, "a\npackets 1 late 1 lost 0 refused 0\n");
    assert_eq!(notes, [""; 0]);
    let (text, notes) = printed(&plain(&[tagged(5), tagged(0), tagged(600_000)]));
    assert_eq!(text, "a\npackets 1 late 0 lost 0 refused 0\n");
    assert_eq!(notes, ["skipped 2 of more than 4 VLAN tags"]);
}

#[test]
fn late_times() {
    // Seconds since 1970, and then as many as 64 bits can say.
    let file = [
        section(BIG),
        interface(BIG, 1, 0, &[(9, &[0])]),
        enhanced(BIG, 0, 0, &frame(1, "a")),
        enhanced(BIG, 0, u64::MAX / 1000, &frame(2, "b")),
        enhanced(BIG, 0, u64::MAX / 1000 + 1, &frame(3, "c")),
        enhanced(BIG, 0, u64::MAX, &frame(4, "d")),
    ]
    .concat();
    let converted = convert(&file[..], &Options::default()).unwrap();
    let (records, _) = converted.journal[3..].as_chunks::<29>();
    let times = records
        .iter()
        .map(|record| u64::from_be_bytes(record[1..9].try_into().unwrap()));
    let whole = u64::MAX / 1000 * 1000;
    assert_eq!(times.collect::<Vec<_>>(), [0, whole, u64::MAX, u64::MAX]);
    assert_eq!(converted.notes.len(), 1);
    assert!(converted.notes[0].starts_with("2 later than 2^64 ms after the first packet"));
}

/// What is passed over takes no memory.
#[test]
fn much_that_is_not_taken() {
    let pcap_start = plain(&[]);
    let record = plain(&[frame(1, "a")])[24..].to_vec();
    let pcapng_start = [section(BIG), interface(BIG, 1, 0, &[])].concat();
    let block_of = |frame: &[u8]| enhanced(BIG, 0, 0, frame);
    let line = b"\n8062000100000000 5b8e4731 61\n".to_vec();
    let comment = b"#".to_vec();
    let cases = [
        (pcap_start.clone(), vec![0; 16], record.clone()),
        (
            pcapng_start.clone(),
            block_of(b""),
            block_of(&frame(1, "a")),
        ),
        (comment.clone(), b"# ".to_vec(), line.clone()),
        (comment, b"\n".to_vec(), line),
    ];
    for (start, much, last) in cases {
        let kind = start.clone();
        let parts = [start].into_iter().chain(filling(much)).chain([last]);
        let output = within(32_768, parts);
        let said = String::from_utf8(output.stderr).unwrap();
        assert_eq!(said, "", "{kind:02x?}");
        assert_eq!(output.status.code(), Some(0));
        assert_eq!(journal::read(&output.stdout).packets.len(), 1);
    }
}

/// A packet and a block that are longer than anything else.
#[test]
fn long_packets() {
    let gibibyte = 1_u32 << 30;
    let header = [0, 0, gibibyte, gibibyte].map(u32::to_le_bytes).concat();
    let start = [plain(&[frame(1, "a")]), header].concat();
    let zeros = std::iter::repeat_n(vec![0; 1 << 20], 64);
    let output = within(32_768, [start].into_iter().chain(zeros));
    let said = String::from_utf8(output.stderr).unwrap();
    assert!(
        said.contains("a packet takes 1073741824 bytes, but 67108864 are left"),
        "{said}"
    );
    assert_eq!(output.status.code(), Some(1));

    let body = vec![0; 1 << 20];
    let file = [
        section(LITTLE),
        interface(LITTLE, 1, 0, &[]),
        block(LITTLE, 0x0bad_beef, &body),
        enhanced(LITTLE, 0, 0, &[frame(1, "a"), body].concat()),
        enhanced(LITTLE, 0, 0, &frame(2, "b")),
    ]
    .concat();
    let (text, notes) = printed(&file);
    assert_eq!(text, "ab\npackets 2 late 0 lost 0 refused 0\n");
    assert_eq!(notes, [""; 0]);
}

#[test]
fn many_interfaces() {
    let interfaces = |count| interface(BIG, 1, 0, &[]).repeat(count);
    let last = enhanced(BIG, 65_535, 0, &frame(1, "a"));
    let file = [section(BIG), interfaces(65_536), last].concat();
    let (text, _) = printed(&file);
    assert_eq!(text, "a\npackets 1 late 0 lost 0 refused 0\n");
    let file = [section(BIG), interfaces(65_537)].concat();
    let wrong = convert(&file[..], &Options::default()).unwrap_err();
    assert!(wrong.contains("more than 65536 interfaces"), "{wrong}");
}

#[test]
fn line_ends() {
    let line =
        |sequence: u8, letter: u8| format!("806200{sequence:02x}000000005b8e4731{letter:02x}");
    for end in ["\n", "\r", "\r\n", "\r\r\n\n", "#\r", " \r\n"] {
        let lines = [line(1, b'a'), line(2, b'b')].join(end);
        for lines in [lines.clone(), lines + end] {
            let (text, _) = printed(lines.as_bytes());
            let expected = "ab\npackets 2 late 0 lost 0 refused 0\n";
            assert_eq!(text, expected, "{end:?}");
        }
    }
    for (lines, expected) in [
        ("80\r\n80\r80\n8x", "line 4, column 2"),
        ("80\r\r\n\n8", "line 4: 1 hex digits"),
    ] {
        let wrong = convert(lines.as_bytes(), &Options::default()).unwrap_err();
        assert!(wrong.starts_with(expected), "{wrong}");
    }
}
